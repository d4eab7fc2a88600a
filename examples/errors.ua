# Each command has an error, and the session stays as it was.
algebra M size 2
op meet 2 = 0 0 0 1
end
close N 2 [0 1]
close M 0
close M 2 [0 2]
close M 2 [0 1] [0 1 1]
close M 67108865
eval M join(x0, x1) [0 1]
eval M meet(x0, x1) [0]
eval M meet(x0) [0]
cg M [0 1 1]
cg M [0 2]
con N
# and this one is answered
close M 1 [1]
