algebra S size 6
op mul 2 = 0 1 2 3 4 5 1 2 0 5 3 4 2 0 1 4 5 3 3 4 5 0 1 2 4 5 3 2 0 1 5 3 4 1 2 0
end
algebra Q size 4
op and 2 = 0 0 0 0 0 1 0 1 0 0 2 2 0 1 2 3
op or 2 = 0 1 2 3 1 1 3 3 2 3 2 3 3 3 3 3
op not 1 = 3 2 1 0
end
algebra One size 1
end
algebra K size 3
op c 0 = 2
op minus 2 = 0 2 1 1 0 2 2 1 0
end
