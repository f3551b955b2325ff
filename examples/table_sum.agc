# The sum of a table of five words, on channel 12.
#
# INDEX adds its operand to the next instruction, so that AD TABLE reads
# TABLE + COUNT. CCS counts down, and goes on two words later at +0.

        SETLOC  100
COUNT   ERASE
SUM     ERASE

        SETLOC  4000
        CAF     FOUR
LOOP    TS      COUNT
        CA      SUM
        INDEX   COUNT
        AD      TABLE
        TS      SUM
        CCS     COUNT           # A := COUNT - 1
        TCF     LOOP            # COUNT was above +0
        CA      SUM             # COUNT was +0
        EXTEND
        WRITE   12
DONE    TCF     DONE

FOUR    OCT     4
TABLE   DEC     10
        DEC     20
        DEC     30
        DEC     40
        DEC     -50

# By hand: 10 + 20 + 30 + 40 - 50 = 50, octal 62. CAF 2; five times TS, CA, INDEX, AD,
# TS, CCS, of 2 each, and four times TCF: 2 + 60 + 4 = 66; CA, EXTEND, WRITE 5: 71.
