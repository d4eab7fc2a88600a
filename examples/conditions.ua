# Which Maltsev conditions hold: in a group, a lattice, a Boolean algebra, a semilattice, and an implication algebra.
algebra Z2 size 2
op plus 2 = 0 1 1 0
end
algebra L size 2
op meet 2 = 0 0 0 1
op join 2 = 0 1 1 1
end
algebra B size 2
op and 2 = 0 0 0 1
op or 2 = 0 1 1 1
op not 1 = 1 0
end
algebra M size 2
op meet 2 = 0 0 0 1
end
algebra I size 2
op imp 2 = 1 1 0 1
end
# Groups have a Maltsev term, and no majority term unless they are trivial.
cond Z2 maltsev
cond Z2 majority
# Lattices have a majority term, and near-unanimity terms of each greater arity.
cond L majority
nu L 4
# Boolean algebras have all of them.
cond B minority
cond B pixley
# Semilattices have none of them.
cond M maltsev
nu M 3
# Implication algebras have neither a Maltsev nor a majority term, though examples/chains.ua finds chains for them.
cond I maltsev
cond I majority
# A condition of one's own, an edge term in four variables: groups and lattices have one, semilattices do not.
condition Z2 4 (y y x x) = x (y x y x) = x (x x x y) = x
condition L 4 (y y x x) = x (y x y x) = x (x x x y) = x
condition M 4 (y y x x) = x (y x y x) = x (x x x y) = x
