"""Groupoids of three elements, searched for Maltsev terms: thousands of small questions in one process.

A Maltsev term p satisfies p(x,y,y) = x and p(x,x,y) = y (A. I. Maltsev, *On the general theory of algebraic systems*, 1954).
The set that `cond` closes for it may have hundreds of millions of members here. But it is enough to ask, for all elements
a, b, c, d, for a term t that is idempotent, t(x,x,x) = x, with t(a,b,b) = a and t(c,c,d) = d: whether (a,d,0,1,2) is in the
subalgebra of the fifth power that (a,c,0,1,2), (b,c,0,1,2) and (b,d,0,1,2) generate, which has at most 243 members.

For such terms are put together. Let r satisfy r(a,b,b) = a, and r(c,c,d) = d for some pairs (c,d). For one pair more let
v = r(c,c,d), and take w with w(a,b,b) = a and w(v,v,d) = d: then w(r(x,y,z), r(y,y,z), z) does for all of them. So there is
an r with r(a,b,b) = a and r(c,c,d) = d for all pairs. In the same way, let s satisfy s(c,c,d) = d for all pairs, and
s(a,b,b) = a for some. For one more let u = s(a,b,b), and take r with r(a,u,u) = a: then r(x, s(x,y,y), s(x,y,z)) does.

Of the 19,683 tables those are asked about that come first among their isomorphic and anti-isomorphic copies: every
twentieth of these, or as the number on the command line says. With 1, all, there are 62,424 questions.
"""

import sys
from itertools import permutations, product

from uacalc import Algebra, Calculator, Operation, Script


def copies(table):
    """The table under each renaming of the elements, and with its arguments exchanged."""
    for new in permutations(range(3)):
        old = sorted(range(3), key=new.__getitem__)
        renamed = [new[table[3 * old[x] + old[y]]] for x in range(3) for y in range(3)]
        yield tuple(renamed)
        yield tuple(renamed[3 * y + x] for x in range(3) for y in range(3))


step = int(sys.argv[1]) if sys.argv[1:] else 20
tables = [table for table in product(range(3), repeat=9) if table == min(copies(table))]
groupoids = [Algebra(f"A{number}", 3, {"f": Operation(2, table)}) for number, table in enumerate(tables[::step])]
print(len(tables), "groupoids up to isomorphism and exchange of the arguments, of which", len(groupoids), "are asked about")

# Where a is b the third variable does, and where c is d the first.
quadruples = [(*first, *second) for first in permutations(range(3), 2) for second in permutations(range(3), 2)]
script = Script()
for groupoid in groupoids:
    for a, b, c, d in quadruples:
        script.ask("member", groupoid, 5, [[a, c, 0, 1, 2], [b, c, 0, 1, 2], [b, d, 0, 1, 2]], [a, d, 0, 1, 2])
answers = Calculator(jobs=4).run(script)

found = []
for number, groupoid in enumerate(groupoids):
    if all(answers[number * len(quadruples) : (number + 1) * len(quadruples)]):
        found.append(groupoid)
print(len(answers), "questions:", len(found), "groupoids have a Maltsev term, and", len(groupoids) - len(found), "have none")
