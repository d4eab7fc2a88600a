# Answers that can be checked without trusting whoever found them: one line of JSON each.
algebra M size 2
op meet 2 = 0 0 0 1
end
# All members, with ranks and origins.
cert close M 2 [0 1] [1 0]
# A member in steps; all members, among which there is no [1 1].
cert member M 2 [0 1] [1 0] = [0 0]
cert member M 2 [0 1] [1 0] = [1 1]
# No majority term, and no chain of Hagemann and Mitschke.
cert cond M majority
cert hm M
# A lattice has both a majority term and a chain of Jonsson terms.
algebra L size 2
op meet 2 = 0 0 0 1
op join 2 = 0 1 1 1
end
cert nu L 3
cert jonsson L
# A certificate is checked: here that conjunction is no affine operation of two arguments.
algebra F size 2
op plus 2 = 0 1 1 0
op one 0 = 1
end
check F {"gens":[[0,0,1,1],[0,1,0,1]],"kind":"not_member","rows":[[0,0,0,0],[0,0,1,1],[0,1,0,1],[0,1,1,0],[1,0,0,1],[1,0,1,0],[1,1,0,0],[1,1,1,1]],"target":[0,0,0,1],"width":4}
# It fails where a row is left out: the sum of rows 1 and 2 is missing.
check F {"gens":[[0,0,1,1],[0,1,0,1]],"kind":"not_member","rows":[[0,0,0,0],[0,0,1,1],[0,1,0,1],[1,0,0,1],[1,0,1,0],[1,1,0,0],[1,1,1,1]],"target":[0,0,0,1],"width":4}
# Another algebra needs another certificate.
check M {"gens":[[0,1]],"kind":"member","steps":[["gen",0],["plus",0,0]],"target":[0,0],"width":2}
