UCLA pl 1.0
io 0 0 DIMS = (20, 4)
alu 0 4 DIMS = (12, 8)
rom 12 4 DIMS = (8, 8)
ram 0 12 DIMS = (12, 16)
cache 12 12 DIMS = (8, 12)
