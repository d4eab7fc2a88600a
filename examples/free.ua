# The free semilattice on three generators is the subalgebra of the eighth power that the projections generate: the
# coordinates are the assignments of x0, x1, x2 in order.
algebra M size 2
op meet 2 = 0 0 0 1
end
close M 8 [0 0 0 0 1 1 1 1] [0 0 1 1 0 0 1 1] [0 1 0 1 0 1 0 1]
# The free distributive lattice on three generators has 18 elements.
algebra L size 2
op meet 2 = 0 0 0 1
op join 2 = 0 1 1 1
end
close L 8 [0 0 0 0 1 1 1 1] [0 0 1 1 0 0 1 1] [0 1 0 1 0 1 0 1] count
