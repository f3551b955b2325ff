# The product of two numbers of double precision, on channels 11 and 12, by a
# subroutine that TC calls and RETURN leaves.
#
# A number of double precision is X + X' / 2^14: an upper and a lower word, both
# fractions. Of the product (X + X'/2^14) times (Y + Y'/2^14)
#     X  times Y    has an upper and a lower word, which both count;
#     X  times Y'   and X' times Y stand one word lower: their upper words
#                   count with the lower word, their lower words are dropped;
#     X' times Y'   is lower still, and left out.

L       EQUALS  1

        SETLOC  100
X       ERASE   +1
Y       ERASE   +1
PRODUCT ERASE   +1

        SETLOC  4000
        EXTEND
        DCA     FIRST
        DXCH    X
        EXTEND
        DCA     SECOND
        DXCH    Y
        TC      DMP             # Q := the place of the next line
        CA      PRODUCT
        EXTEND
        WRITE   11
        CA      PRODUCT +1
        EXTEND
        WRITE   12
DONE    TCF     DONE

DMP     CAF     NAUGHT
        TS      PRODUCT
        TS      PRODUCT +1
        CA      X
        EXTEND
        MP      Y +1
        TS      L               # the upper word counts as a lower one
        CAF     NAUGHT
        DAS     PRODUCT
        CA      X +1
        EXTEND
        MP      Y
        TS      L
        CAF     NAUGHT
        DAS     PRODUCT         # may carry into the upper word
        CA      X
        EXTEND
        MP      Y
        DAS     PRODUCT
        RETURN                  # to the place in Q

NAUGHT  OCT     0
FIRST   OCT     30000           # 3/4
        OCT     30000           # and 3/4 of a unit of the word above
SECOND  OCT     34000           # 7/8
        OCT     30000

# By hand, in units of 2^-28, with 30000 = 3 * 2^12 and 34000 = 7 * 2^11:
#   X  times Y'  3 * 2^12 * 3 * 2^12 = 9 * 2^24, upper word 9 * 2^10 =  9216
#   X' times Y   3 * 2^12 * 7 * 2^11 = 21 * 2^23, upper word 21 * 2^9 = 10752
#   together 19968 = 16384 + 3584: a carry, and 3584, octal 07000
#   X  times Y   21 * 2^23: upper word 10752, octal 25000, lower word 0
# so the product is 25001 and 07000.
#
# Cycles: 15 to the end of TC; DMP has 6 + 13 + 13 + 9 = 41, and CA, EXTEND and
# MP are 6 of each part; RETURN 1, and 1 more for the word in Q, which is
# executed as TC: 58. CA, EXTEND, WRITE are 5: outputs at 63 and 68.
