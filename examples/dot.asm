# The dot product of two vectors of five numbers, for risc.desc. It ends with the product in cell 4 and in word 10 of the data memory.

data DM 3 1 4 1 5               # the first vector, from word 0 on
data DM 2 7 1 8 0xffffffff      # the second, from word 5 on; its last number is -1

ADDI 3 0 5          # 3: so many numbers are left
ADDI 1 0 0          # 1: where the next ones stand
loop:
LW 5 1 0
LW 6 1 5
ADDI 1 1 1
ADDI 3 3 -1
MUL 7 5 6           # the pipeline waits for 32 cycles
BNE 3 0 loop
| ADD 4 4 7         # 4: the sum so far. It waits for MUL, and runs whether the loop goes on or not
SW 4 0 10
rest:
J rest
