algebra Q size 4
op and 2 = 0 0 0 0  0 1 0 1  0 0 2 2  0 1 2 3
op not 1 = 3 2 1 0
end
con Q
types Q
