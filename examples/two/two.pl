UCLA pl 1.0
p 9 0
