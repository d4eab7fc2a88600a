# The product of the group and the meet semilattice of two elements: of its congruences, some differ by an affine
# step and some by a semilattice step. The drawing of its lattice is in docs/types.svg.
algebra Z2 size 2
op times 2 = 0 1 1 0
end
algebra M size 2
op times 2 = 0 0 0 1
end
make P product Z2 M
con P
types P
# The lattices of five elements with three atoms, and with a side of two: every cover is of lattice type.
algebra M3 size 5
op meet 2 = 0 0 0 0 0
            0 1 0 0 1
            0 0 2 0 2
            0 0 0 3 3
            0 1 2 3 4
op join 2 = 0 1 2 3 4
            1 1 4 4 4
            2 4 2 4 4
            3 4 4 3 4
            4 4 4 4 4
end
algebra N5 size 5
op meet 2 = 0 0 0 0 0
            0 1 1 0 1
            0 1 2 0 2
            0 0 0 3 3
            0 1 2 3 4
op join 2 = 0 1 2 3 4
            1 1 2 4 4
            2 2 2 4 4
            3 4 4 3 4
            4 4 4 4 4
end
types M3
types N5
# The symmetric group on three letters: each cover is affine.
algebra S3 size 6
op mul 2 = 0 1 2 3 4 5
           1 2 0 5 3 4
           2 0 1 4 5 3
           3 4 5 0 1 2
           4 5 3 2 0 1
           5 3 4 1 2 0
end
types S3
# A chain of three as a semilattice, and a map that turns three elements: no operation of two arguments is at hand.
algebra C3 size 3
op meet 2 = 0 0 0  0 1 1  0 1 2
end
algebra T3 size 3
op turn 1 = 1 2 0
end
types C3
types T3
