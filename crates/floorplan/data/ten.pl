UCLA pl 1.0
# The terminals have places. Places of blocks are read and not used.

sb0 0 0
sb1 0 0
sb2 0 0
sb3 0 0
sb4 0 0
sb5 0 0
sb6 0 0
sb7 0 0
sb8 0 0
sb9 0 0

p1	0	24
p2	48	24
p3  24  0 : N
p4  24.0  48
