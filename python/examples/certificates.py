"""An answer to be quoted: a certificate, its file, and its check without the program.

The median algebra of two elements has a near-unanimity term of three places, and no Maltsev term. Both answers come as
certificates; the file that a reader checks is the block with a line for each.
"""

from uacalc import Algebra, Calculator, Certificate

calculator = Calculator()
median = Algebra.from_functions("Median", 2, {"m": lambda x, y, z: sorted([x, y, z])[1]})

claims = [calculator.certify_nu(median, 3), calculator.certify_cond(median, "maltsev")]
text = median.script() + "".join(f"check {median.name} {claim}\n" for claim in claims)
print(text)

# `python3 -m uacalc check` and the checker in Coq read this text. In Python:
for claim in claims:
    read = Certificate.read(claim.text())
    print(read.kind, read["name"], read.check(median))

# Whoever damages a certificate is told where.
damaged = claims[1].text().replace("[0,0,1,1,0,0,1,1],", "", 1)
print("without a row:", Certificate.read(damaged).check(median))

# Identities of one's own are certified as a question of membership.
own = calculator.certify_condition(median, 3, "(x x y) = x (x y x) = x (y x x) = x")
print(own.kind, own["target"], own.check(median))
