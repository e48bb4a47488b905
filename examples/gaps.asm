# A program for four_stages.desc that shows each kind of gap between words: docs/assembler.md goes through its listing.

ADDI 1 0 5       # writes cell 1 in stage 3
ADD 2 1 1        # reads it in stage 1
NOP
loop:
BZ 2 done        # reads cell 2 in stage 1
ADD 3 3 3
JAL 7 loop
| ADDI 4 0 1     # runs before the transfer leads to loop
done:
ADD 2 4 4
data DM 1 0x10 0xffff
