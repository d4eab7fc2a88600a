# The symmetric group on three letters, the quaternion group, and the lattice of two elements: which are
# solvable, nilpotent or abelian.
algebra S3 size 6
op mul 2 = 0 1 2 3 4 5
           1 2 0 5 3 4
           2 0 1 4 5 3
           3 4 5 0 1 2
           4 5 3 2 0 1
           5 3 4 1 2 0
end
algebra Q8 size 8
op mul 2 = 0 1 2 3 4 5 6 7
           1 0 3 2 5 4 7 6
           2 3 1 0 6 7 5 4
           3 2 0 1 7 6 4 5
           4 5 7 6 1 0 2 3
           5 4 6 7 0 1 3 2
           6 7 4 5 3 2 1 0
           7 6 5 4 2 3 0 1
end
algebra L size 2
op meet 2 = 0 0 0 1
op join 2 = 0 1 1 1
end
# S3 is solvable and not nilpotent.
series S3 derived
series S3 lower
# Q8 is nilpotent of class 2: its derived subgroup is its centre.
series Q8 lower
comm Q8 |0 1 2 3 4 5 6 7| |0 1|2 3|4 5|6 7|
central Q8 |0 1|2 3|4 5|6 7| |0 1 2 3 4 5 6 7| |0|1|2|3|4|5|6|7|
# In a lattice the commutator is the meet.
comm L |0 1| |0 1|
central L |0 1| |0 1| |0|1|
