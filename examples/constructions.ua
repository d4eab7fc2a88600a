# Algebras made from others, which commands behind them may ask about.

algebra S size 6                  # the symmetric group on three letters
op mul 2 =
  0 1 2 3 4 5
  1 2 0 5 3 4
  2 0 1 4 5 3
  3 4 5 0 1 2
  4 5 3 2 0 1
  5 3 4 1 2 0
end
algebra L size 2
op meet 2 = 0 0 0 1
op join 2 = 0 1 1 1
end
make A sub S [1]                  # the alternating group
make Q quotient S |0 1 2|3 4 5|   # by it
make P product A Q                # a cyclic group of six elements
con P
sub P [3]
hom P S [3] [1]                   # onto the alternating group alone
make M reduct L (meet)            # the semilattice of the lattice
con M
make W quotient S |0 3|1|2|4|5|   # a subgroup that is not normal: no congruence
make E sub S []                   # no element: no algebra
