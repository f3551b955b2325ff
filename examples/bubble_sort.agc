# Sorts four words with signs by exchanging neighbours, and puts them out on
# channel 11, the greatest first.
#
# INDEX I adds I to the next instruction, so that CS LIST reads LIST + I, and
# AD LIST +1 reads the word after it. CCS goes on at one of four places:
#     the next       where the word is above +0; A is one less
#     the second     +0
#     the third      below -0
#     the fourth     -0

        SETLOC  100
LIST    ERASE   +3
I       ERASE
PASSES  ERASE
LESS    ERASE

        SETLOC  4000
        EXTEND
        DCA     GIVEN
        DXCH    LIST
        EXTEND
        DCA     GIVEN +2
        DXCH    LIST +2
        CAF     TWO             # three passes: PASSES is 2, 1, 0
PASS    TS      PASSES
        CAF     TWO             # three pairs: I is 2, 1, 0
PAIR    TS      I
        INDEX   I
        CS      LIST
        INDEX   I
        AD      LIST +1
        TS      LESS            # the second less the first
        CCS     LESS
        TCF     ORDERED         # the second is greater
        TCF     ORDERED         # +0, which no such difference is
        TCF     EXCHANGE        # the second is less
ORDERED CCS     I               # or they are equal: -0
        TCF     PAIR            # A is I - 1
        CCS     PASSES
        TCF     PASS
        CAF     THREE
SHOW    TS      I
        INDEX   I
        CA      LIST
        EXTEND
        WRITE   11
        CCS     I
        TCF     SHOW
DONE    TCF     DONE

EXCHANGE INDEX  I
        CA      LIST
        INDEX   I
        XCH     LIST +1
        INDEX   I
        TS      LIST
        TCF     ORDERED

TWO     OCT     2
THREE   OCT     3
GIVEN   DEC     4
        DEC     -3
        DEC     4
        DEC     -7

# By hand, pairs from the end to the front:
#   4 -3 4 -7   exchange   4 -3 -7 4   exchange   4 -7 -3 4   exchange   -7 4 -3 4
#   -7 4 -3 4   greater                exchange   -7 -3 4 4   greater
#   -7 -3 4 4   equal                  greater                greater
# Cycles: 16 before PASS. Three passes have 4 each, nine pairs 14 each to the end
# of CCS LESS; four times greater 1 more, four times exchanged 1 + 13 more, once
# equal none; CCS I 9 times 2, and 6 times TCF; CCS PASSES 3 times 2, and twice
# TCF: 16 + 12 + 126 + 4 + 56 + 18 + 6 + 6 + 2 = 246. CAF 248; TS, INDEX, CA,
# EXTEND, WRITE 9: 257. Each further output comes 3 + 9 = 12 later.
# -3 is the complement of 3, 77774; -7 is 77770.
