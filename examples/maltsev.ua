# A Maltsev term p has p(x,y,y) = x and p(x,x,y) = y. The coordinates are first the assignments of x and y to the triples
# (x,y,y), and then those to (x,x,y), y varying fastest. The generators are the three places of the triples, and the target
# is x at the first half and y at the second: it is generated exactly where there is such a term.
algebra Z3 size 3
op plus 2 = 0 1 2  1 2 0  2 0 1
end
member Z3 18
  [0 0 0 1 1 1 2 2 2  0 0 0 1 1 1 2 2 2]
  [0 1 2 0 1 2 0 1 2  0 0 0 1 1 1 2 2 2]
  [0 1 2 0 1 2 0 1 2  0 1 2 0 1 2 0 1 2]
= [0 0 0 1 1 1 2 2 2  0 1 2 0 1 2 0 1 2]
# The steps above are a term in x0, x1, x2. Its value at (2, 1, 1) is 2, and at (1, 1, 2) too.
eval Z3 plus(plus(x2, x0), plus(x1, x1)) [2 1 1]
eval Z3 plus(plus(x2, x0), plus(x1, x1)) [1 1 2]
# Implication on two elements, with 0 as a constant: it has one as well.
algebra I size 2
op to 2 = 1 1 0 1
op bottom 0 = 0
end
member I 8 [0 0 1 1 0 0 1 1] [0 1 0 1 0 0 1 1] [0 1 0 1 0 1 0 1] = [0 0 1 1 0 1 0 1]
# A lattice with more than one element has none. All values of terms are listed.
algebra L size 2
op meet 2 = 0 0 0 1
op join 2 = 0 1 1 1
end
member L 8 [0 0 1 1 0 0 1 1] [0 1 0 1 0 0 1 1] [0 1 0 1 0 1 0 1] = [0 0 1 1 0 1 0 1]
