"""The free algebras of a variety: distributive lattices and semilattices on up to four generators.

The free algebra with K generators in the variety of an algebra is the algebra of its term operations of K variables
(S. Burris, H. P. Sankappanavar, *A Course in Universal Algebra*, chapter II). For distributive lattices their numbers are
those of Dedekind, without the two constant functions.
"""

from uacalc import Algebra, Calculator, Script

calculator = Calculator()
lattice = Algebra.from_functions("L", 2, {"meet": lambda x, y: min(x, y), "join": lambda x, y: max(x, y)})
semilattice = calculator.reduct(lattice, ["meet"], "S")

# Many questions in one process: a script, whose answers come in order.
script = Script()
for algebra in (lattice, semilattice):
    for generators in range(5):
        script.ask("free", algebra, generators, "count")
sizes = calculator.run(script)
print("generators             0    1    2    3    4")
print("distributive lattices", *(f"{size:4}" for size in sizes[:5]))
print("semilattices         ", *(f"{size:4}" for size in sizes[5:]))

# Each member is the values of a term, and the listing tells which.
print()
free = calculator.free(lattice, 2, least=True)
for vector in free.vectors:
    print(vector, free.term(vector))

# The median of three is a term operation, and the exclusive or is none.
print()
print("median:", calculator.clone(lattice, 3, [0, 0, 0, 1, 0, 1, 1, 1]).term)
print("exclusive or:", "a term" if calculator.clone(lattice, 2, [0, 1, 1, 0]) else "no term")
