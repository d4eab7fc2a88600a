# Homomorphisms by the images of generators, subalgebras, and what single elements generate.

algebra Z12 size 12
op plus 2 =
  0 1 2 3 4 5 6 7 8 9 10 11
  1 2 3 4 5 6 7 8 9 10 11 0
  2 3 4 5 6 7 8 9 10 11 0 1
  3 4 5 6 7 8 9 10 11 0 1 2
  4 5 6 7 8 9 10 11 0 1 2 3
  5 6 7 8 9 10 11 0 1 2 3 4
  6 7 8 9 10 11 0 1 2 3 4 5
  7 8 9 10 11 0 1 2 3 4 5 6
  8 9 10 11 0 1 2 3 4 5 6 7
  9 10 11 0 1 2 3 4 5 6 7 8
  10 11 0 1 2 3 4 5 6 7 8 9
  11 0 1 2 3 4 5 6 7 8 9 10
end
algebra Z4 size 4
op plus 2 = 0 1 2 3  1 2 3 0  2 3 0 1  3 0 1 2
end
sub Z12 [8]
sub Z12 [8 6]
ones Z4
hom Z12 Z4 [1] [1]                # onto: 12 is a multiple of 4
hom Z12 Z4 [4] [0]                # from the subgroup of three elements
hom Z4 Z12 [1] [3]                # an embedding
hom Z4 Z12 [1] [1]                # none: five times 1 is 1 in the one and 5 in the other
