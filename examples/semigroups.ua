# All maps of two letters to themselves: 0 is the identity, 1 exchanges the letters, 2 and 3 are constant. Products are read
# from left to right.
algebra T2 size 4
op mul 2 =
  0 1 2 3
  1 0 2 3
  2 3 2 3
  3 2 2 3
end
con T2
# The maps that are not invertible form an ideal, so they generate nothing else.
close T2 1 [2] [3]
member T2 1 [2] [3] = [1]
member T2 1 [1] [2] = [3]
# The product is associative: both sides at 1, 2, 3
eval T2 mul(mul(x0, x1), x2) [1 2 3]
eval T2 mul(x0, mul(x1, x2)) [1 2 3]
