algebra S size 6
op mul 2 = 0 1 2 3 4 5 1 2 0 5 3 4 2 0 1 4 5 3 3 4 5 0 1 2 4 5 3 2 0 1 5 3 4 1 2 0
end
algebra Z2 size 2 op plus 2 = 0 1 1 0 end
algebra Z4 size 4
op plus 2 = 0 1 2 3 1 2 3 0 2 3 0 1 3 0 1 2
end
algebra L size 2
op meet 2 = 0 0 0 1
op join 2 = 0 1 1 1
end
algebra B size 2 op and 2 = 0 0 0 1 op or 2 = 0 1 1 1 op not 1 = 1 0
end
