algebra M size 2 op m 2 = 0 0 0 1 end
algebra P size 2 op m 2 = 0 0 0 1 op c 0 = 0 end
algebra L size 2 op m 2 = 0 0 0 1 op j 2 = 0 1 1 1 end
algebra Z2 size 2 op s 2 = 0 1 1 0 end
