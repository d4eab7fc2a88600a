# A majority term m has m(x,x,y) = m(x,y,x) = m(y,x,x) = x. The coordinates are the assignments of x and y to these three
# triples one after another, and the target is x.
algebra L size 2
op meet 2 = 0 0 0 1
op join 2 = 0 1 1 1
end
member L 12
  [0 0 1 1  0 0 1 1  0 1 0 1]
  [0 0 1 1  0 1 0 1  0 0 1 1]
  [0 1 0 1  0 0 1 1  0 0 1 1]
= [0 0 1 1  0 0 1 1  0 0 1 1]
# The median of a chain of three elements is one. It is an operation here: the answer is its use at the generators.
algebra C3 size 3
op median 3 =
  0 0 0  0 1 1  0 1 2
  0 1 1  1 1 1  1 1 2
  0 1 2  1 1 2  2 2 2
end
member C3 27
  [0 0 0 1 1 1 2 2 2  0 0 0 1 1 1 2 2 2  0 1 2 0 1 2 0 1 2]
  [0 0 0 1 1 1 2 2 2  0 1 2 0 1 2 0 1 2  0 0 0 1 1 1 2 2 2]
  [0 1 2 0 1 2 0 1 2  0 0 0 1 1 1 2 2 2  0 0 0 1 1 1 2 2 2]
= [0 0 0 1 1 1 2 2 2  0 0 0 1 1 1 2 2 2  0 0 0 1 1 1 2 2 2]
# The group of two elements has none.
algebra Z2 size 2
op plus 2 = 0 1 1 0
end
member Z2 12
  [0 0 1 1  0 0 1 1  0 1 0 1]
  [0 0 1 1  0 1 0 1  0 0 1 1]
  [0 1 0 1  0 0 1 1  0 0 1 1]
= [0 0 1 1  0 0 1 1  0 0 1 1]
