# The products of 1 to 3 by 1 to 3, on channel 11.
#
# MP leaves the product of A and its operand in A and L, as one number of 28
# bits. So small a product stands in L alone.

L       EQUALS  1

        SETLOC  100
ROW     ERASE
COLUMN  ERASE

        SETLOC  4000
        CAF     ONE
NEXTROW TS      ROW
        CAF     ONE
NEXTCOL TS      COLUMN
        CA      ROW
        EXTEND
        MP      COLUMN
        CA      L
        EXTEND
        WRITE   11
        CS      COLUMN          # three less the column
        AD      THREE
        EXTEND
        BZF     ROWDONE         # a difference is -0 here, and BZF takes both zeros
        CA      COLUMN
        AD      ONE
        TCF     NEXTCOL
ROWDONE CS      ROW
        AD      THREE
        EXTEND
        BZF     DONE
        CA      ROW
        AD      ONE
        TCF     NEXTROW
DONE    TCF     DONE

ONE     OCT     1
THREE   OCT     3

# By hand: CAF 2, TS 4, CAF 6; from TS COLUMN to WRITE 2 + 2 + 1 + 3 + 2 + 1 + 2 = 13,
# so the first product comes at 19. To the next column CS 2, AD 2, EXTEND 1, BZF 2, CA
# 2, AD 2, TCF 1 are 12, and 13: 25 later. To the next row CS 2, AD 2, EXTEND 1, BZF 1,
# then 2 + 2 + 1 + 2, CA 2, AD 2, TCF 1, TS 2, CAF 2 are 22, and 13: 35 later.
