UCLA pl 1.0
clk 0 24
bus 0 0
in 12 0
out 24 0
