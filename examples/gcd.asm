# The greatest common divisor of two numbers, by subtraction, for risc.desc. It ends with the divisor in cell 1 and in word 2 of the
# data memory.
#
# A cell is read in stage 1 and written in stage 4, so a word sees what is written three words before it, or further back: the
# assembler leaves these places free. It puts a NOP into the slot after each jump that has no slot line, and what the slots and the
# words before them write is there at the landing.

data DM 252 105     # the two numbers

LW 1 0 0
LW 2 0 1
loop:
BEQ 1 2 done
BLTU 1 2 less
SUB 1 1 2           # the first is greater
J loop
less:
J loop
| SUB 2 2 1         # in the slot: it runs before the jump leads to loop
done:
SW 1 0 2
rest:
J rest              # there is no word to halt
