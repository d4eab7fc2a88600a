algebra Z2 size 2 op plus 2 = 0 1 1 0 end
algebra L size 2 op meet 2 = 0 0 0 1 op join 2 = 0 1 1 1 end
con Z2
types L
con L
