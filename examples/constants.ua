# Constants are operations without arguments, and stand in every subalgebra.
algebra P size 3
op point 0 = 1
op max 2 = 0 1 2  1 1 2  2 2 2
end
close P 2
close P 2 [0 0]
eval P point []
eval P max(point, x0) [0]
