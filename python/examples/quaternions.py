"""A table from a paper, with names for its elements: congruences, commutators and what is generated.

The table is that of the quaternion group, as a text with its elements in the first row and the first column.
"""

from uacalc import Algebra, Calculator, Partition

TABLE = """
*  e  z  i  iz j  jz k  kz
e  e  z  i  iz j  jz k  kz
z  z  e  iz i  jz j  kz k
i  i  iz z  e  k  kz jz j
iz iz i  e  z  kz k  j  jz
j  j  jz kz k  z  e  i  iz
jz jz j  k  kz e  z  iz i
k  k  kz j  jz iz i  z  e
kz kz k  jz j  i  iz e  z
"""

calculator = Calculator()
group = Algebra.from_csv(TABLE, "Q8")


def shown(partition):
    return "|" + "|".join(" ".join(map(group.shown, block)) for block in partition) + "|"


lattice = calculator.con(group)
print(len(lattice), "congruences")
for congruence in lattice.congruences:
    print(" ", shown(congruence))

full = Partition.full(group.size)
print("commutator of the full congruence with itself:", shown(calculator.comm(group, full, full)))
print("i generates", " ".join(group.shown(element) for element in calculator.sub(group, ["i"])))

print("an automorphism exchanges i and j:", bool(calculator.hom(group, group, ["i", "j"], ["j", "i"])))
clash = calculator.hom(group, group, ["i", "z"], ["j", "e"])
print("none takes i to j and z to e:", clash.steps[0], "and", clash.steps[1], "agree at i and z, and not at j and e")
