# Adds up the words of its own bank, as a program does that checks its memory, and puts the
# sum out on channel 10. Its word CHECK makes that sum the number of the bank, 2.

        SETLOC  100
COUNT   ERASE
SUM     ERASE

        SETLOC  4000
        CAF     LAST
LOOP    TS      COUNT
        INDEX   COUNT
        CAF     4000            # the word of the bank at the offset COUNT
        AD      SUM
        TS      SUM             # an overflow stays in A as plus or minus one,
        CAF     ZERO            # and this is skipped
        AD      SUM
        TS      SUM
        CCS     COUNT
        TCF     LOOP
        CA      SUM
        EXTEND
        WRITE   10
DONE    TCF     DONE

CHECK   OCT     3671
ZERO    OCT     0
LAST    OCT     1777
