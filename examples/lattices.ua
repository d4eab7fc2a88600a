# The pentagon 0 < 1 < 2 < 4 with 0 < 3 < 4, and the diamond with three atoms 1, 2, 3.
algebra N5 size 5
op meet 2 =
  0 0 0 0 0
  0 1 1 0 1
  0 1 2 0 2
  0 0 0 3 3
  0 1 2 3 4
op join 2 =
  0 1 2 3 4
  1 1 2 4 4
  2 2 2 4 4
  3 4 4 3 4
  4 4 4 4 4
end
algebra M3 size 5
op meet 2 =
  0 0 0 0 0
  0 1 0 0 1
  0 0 2 0 2
  0 0 0 3 3
  0 1 2 3 4
op join 2 =
  0 1 2 3 4
  1 1 4 4 4
  2 4 2 4 4
  3 4 4 3 4
  4 4 4 4 4
end
# The pentagon has the congruence that collapses its middle edge; the diamond is simple.
con N5
con M3
# The modular law fails in the pentagon at 1, 3, 2: the two sides are 1 and 2.
eval N5 join(x0, meet(x1, x2)) [1 3 2]
eval N5 meet(join(x0, x1), x2) [1 3 2]
