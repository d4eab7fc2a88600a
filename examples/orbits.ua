# Permutations of four points as operations of one argument: what a vector generates is its orbit.
algebra S4 size 4
op cycle 1 = 1 2 3 0
op swap 1 = 1 0 2 3
end
close S4 1 [0]
# The orbit of the identity's list of values has a member for each permutation of the group: 24 for the symmetric group,
# and 8 for the symmetries of a square.
close S4 4 [0 1 2 3] count
algebra D4 size 4
op cycle 1 = 1 2 3 0
op flip 1 = 0 3 2 1
end
close D4 4 [0 1 2 3] count
# The symmetry that exchanges 0 and 1, and 2 and 3, is among these: its list of values is the target.
member D4 4 [0 1 2 3] = [1 0 3 2]
# The congruences are the systems of blocks of the group: opposite corners.
con D4
