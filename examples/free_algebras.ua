# Free algebras: the term operations in so many variables, and how many there are.

algebra L size 2                  # the lattice on two elements: its variety is that of distributive lattices
op meet 2 = 0 0 0 1
op join 2 = 0 1 1 1
end
free L 1
free L 2
free L 3 count                    # the Dedekind numbers without the constants: 1, 4, 18, 166
free L 4 count

algebra B size 2                  # the Boolean algebra on two elements: 2^(2^n) term operations
op and 2 = 0 0 0 1
op or 2 = 0 1 1 1
op not 1 = 1 0
end
free B 2 count
free B 3 count

algebra Z2 size 2                 # the group of two elements: 2^n linear forms
op plus 2 = 0 1 1 0
end
free Z2 2 least
free Z2 8 count

algebra K size 2                  # without generators the constants and what they generate are left
op c 0 = 1
op not 1 = 1 0
end
free K 0
free Z2 0
