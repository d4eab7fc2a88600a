algebra M size 2
op meet 2 = 0 0 0 1
end
