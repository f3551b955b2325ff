# How many bits of a word are 1, on channel 11, by CYR.
#
# A word that is stored at CYR is cycled right by one bit: bit 1 goes to the sign. What
# is read there is cycled again as it is read, so that each reading finds the next bit
# in bit 1.

CYR     EQUALS  20

        SETLOC  100
COUNT   ERASE
SUM     ERASE

        SETLOC  4000
        CAF     WORD
        TS      CYR             # cycled once
        CAF     BITS
LOOP    TS      COUNT
        CA      CYR             # cycled again once it is read
        MASK    ONE
        AD      SUM             # SUM is 0 at first, as all words are
        TS      SUM
        CCS     COUNT
        TCF     LOOP
        CA      SUM
        EXTEND
        WRITE   11
        CA      CYR
        EXTEND
        WRITE   12              # the word, cycled by one
DONE    TCF     DONE

ONE     OCT     1
BITS    DEC     14              # fifteen bits, counted down to 0
WORD    OCT     51563

# By hand: 51563 is 101 001 101 110 011, with 2 + 1 + 2 + 2 + 2 = 9 ones, octal 11. The
# store and fifteen readings cycle it 16 times, and 15 times leave a word as it is: so
# it is cycled by one, 110 100 110 111 001, 64671. CAF 2, TS 4, CAF 6; fifteen times TS,
# CA, MASK, AD, TS, CCS, of 2 each, and fourteen times TCF: 180 + 14, so 200. CA,
# EXTEND, WRITE 205, and again 210.
