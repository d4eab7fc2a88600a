# A quasigroup of order 5 as a Latin square with entries from 1 in a paper; each entry is one less here.
algebra Q5 size 5
op times 2 =
  0 1 2 3 4
  1 0 3 4 2
  2 3 4 0 1
  3 4 1 2 0
  4 2 0 1 3
end
con Q5
# The subquasigroup that 2 generates, and its size in the square with 1
close Q5 1 [2]
close Q5 2 [2 1] count
