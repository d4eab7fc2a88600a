# The Boolean algebra of the subsets of two elements: 0 is empty, 1 and 2 are the atoms, 3 is the top.
algebra B4 size 4
op and 2 = 0 0 0 0  0 1 0 1  0 0 2 2  0 1 2 3
op or 2 = 0 1 2 3  1 1 3 3  2 3 2 3  3 3 3 3
op not 1 = 3 2 1 0
op bottom 0 = 0
op top 0 = 3
end
con B4
# De Morgan's law at two elements: both sides are 2.
eval B4 not(and(x0, or(x1, bottom))) [1 3]
eval B4 or(not(x0), not(x1)) [1 3]
# The constants alone generate a subalgebra of two elements.
close B4 1
