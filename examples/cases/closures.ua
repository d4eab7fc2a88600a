algebra T size 1 op f 4 = 0 end
algebra K size 2 op c 0 = 1 end
algebra M size 2 op meet 2 = 0 0 0 1 end
algebra L size 2 op meet 2 = 0 0 0 1 op join 2 = 0 1 1 1 end
algebra C size 3 op meet 2 = 0 0 0 0 1 1 0 1 2 op join 2 = 0 1 2 1 1 2 2 2 2 end
algebra S size 6 op times 2 = 0 1 2 3 4 5 1 0 3 2 5 4 2 4 0 5 1 3 3 5 1 4 0 2 4 2 5 0 3 1 5 3 4 1 2 0 end
algebra D size 3 op minus 2 = 0 2 1 1 0 2 2 1 0 end
algebra Z size 3 op plus 2 = 0 1 2 1 2 0 2 0 1 op minus 2 = 0 2 1 1 0 2 2 1 0 end
algebra A size 3 op f 4 = 0 1 2 0 1 2 0 1 2 0 1 2 2 0 1 1 2 0 0 1 2 1 2 0 2 0 1 1 2 0 1 2 0 1 2 0 1 2 0 0 1 2 2 0 1 1 2 0 2 0 1 0 1 2 2 0 1 2 0 1 2 0 1 2 0 1 1 2 0 0 1 2 2 0 1 0 1 2 1 2 0 op two 0 = 2 op swap 1 = 1 0 2 op times 2 = 0 0 0 0 1 2 0 2 1 end
