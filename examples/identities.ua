# Identities at every assignment of elements to their variables, with the first assignment that fails.

algebra N size 5                  # the pentagon: 0 below 1 below 2 below 4, and 3 beside 1 and 2
op meet 2 =
  0 0 0 0 0
  0 1 1 0 1
  0 1 2 0 2
  0 0 0 3 3
  0 1 2 3 4
op join 2 =
  0 1 2 3 4
  1 1 2 4 4
  2 2 2 4 4
  3 4 4 3 4
  4 4 4 4 4
end
holds N meet(x0, join(x0, x1)) = x0
holds N join(x0, meet(x1, join(x0, x2))) = meet(join(x0, x1), join(x0, x2))   # the modular law
holds N meet(x0, join(x1, x2)) = join(meet(x0, x1), meet(x0, x2))             # distributivity

algebra S size 6
op mul 2 =
  0 1 2 3 4 5
  1 2 0 5 3 4
  2 0 1 4 5 3
  3 4 5 0 1 2
  4 5 3 2 0 1
  5 3 4 1 2 0
end
holds S mul(x0, mul(x1, x2)) = mul(mul(x0, x1), x2)
holds S mul(x0, x1) = mul(x1, x0)
holds S x1 = mul(x1, mul(mul(x0, mul(x0, x0)), mul(x0, mul(x0, x0))))         # every sixth power is the unit
