# The greatest common divisor of two numbers, by division, for euclid.desc, and then how many bits of it are 1. The divisor is kept in
# word 0 of the data memory, and the count in word 1.

X 1071
Y 462
loop:
STEP                # takes 17 cycles
BNZ loop            # no word has to stand between: each does all its work in one stage
PUT 0
POP
PUTY 1
rest:
J rest
