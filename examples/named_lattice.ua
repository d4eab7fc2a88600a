# The pentagon: a lattice that is not modular, with names for its elements. In version 2 of the language a word may
# stand for an element, and replies name it; partitions keep numbers, in the order of the names.

version 2

algebra N5 size 5 names (bot a b c top)
op meet 2 =
  bot bot bot bot bot
  bot a   a   bot a
  bot a   b   bot b
  bot bot bot c   c
  bot a   b   c   top
op join 2 =
  bot a   b   c   top
  a   a   b   top top
  b   b   b   top top
  c   top top c   top
  top top top top top
end

# a < b, so the modular law asks that both values are the same.
eval N5 join(x0, meet(x1, x2)) [a c b]
eval N5 meet(join(x0, x1), x2) [a c b]

# The sublattice that three elements generate, and whether the top is in that of two.
close N5 1 [a] [b] [c] least
member N5 1 [a] [b] = [top]

# The least congruence below which a and b are one, and all congruences.
cg N5 [a b]
con N5

# A word that names no element.
close N5 1 [d]
