"""A congruence lattice, drawn with the types of its covers: that of a group times a semilattice.

The numbers of the types are those of D. Hobby, R. McKenzie, *The Structure of Finite Algebras*: 2 is affine, 5 that of a
semilattice. What is printed is the picture for Graphviz; in a notebook the lattice shows itself where Graphviz is there.
"""

from uacalc import Algebra, Calculator

calculator = Calculator()
group = Algebra.from_functions("Z2", 2, {"times": lambda x, y: (x + y) % 2})
semilattice = Algebra.from_functions("M", 2, {"times": lambda x, y: x * y})
four = calculator.product(group, group, "V")
algebra = calculator.product(four, semilattice, "P")

lattice = calculator.typed_con(algebra)
print(len(lattice), "congruences,", len(lattice.covers), "covers, types", lattice.types.counts())
for number in lattice.join_irreducibles:
    print("join irreducible:", lattice.congruences[number])

derived = calculator.series(algebra, "derived")
print("derived series:", *derived.members)
print("solvable:", len(derived.members[-1]) == algebra.size)

print()
print(lattice.to_dot(numbers=True))
