# The square root of 200, without its decimals, on channel 11, by Newton's steps.
#
# Where ROOT is too great, NUMBER by ROOT is too small, and their mean is nearer. So
# ROOT comes down until it does no more. From 128 on, whose square is 2^14, it comes to
# the root of each number that a word holds above 0.

L       EQUALS  1
SR      EQUALS  21

        SETLOC  100
ROOT    ERASE
MEAN    ERASE

        SETLOC  4000
        CAF     FIRST
NEXT    TS      ROOT
        CAF     NUMBER          # a whole number is divided in L, with A at 0
        TS      L
        CAF     ZERO
        EXTEND
        DV      ROOT
        AD      ROOT
        TS      SR              # what is stored there is halved
        CA      SR
        TS      MEAN
        CS      MEAN
        AD      ROOT            # by how much ROOT comes down
        EXTEND
        BZMF    FOUND           # not at all
        CA      MEAN
        TCF     NEXT
FOUND   CA      ROOT
        EXTEND
        WRITE   11
DONE    TCF     DONE

ZERO    DEC     0
FIRST   DEC     128
NUMBER  DEC     200

# By hand: 200 by 128 is 1, the half of 129 is 64; 200 by 64 is 3, the half of 67 is 33;
# 200 by 33 is 6, the half of 39 is 19; 200 by 19 is 10, the half of 29 is 14; 200 by 14
# is 14, the half of 28 is 14. So the root is 14, octal 16: 14 * 14 = 196, 15 * 15 = 225.
# CAF 2; from TS to EXTEND before BZMF 2 + 2 + 2 + 2 + 1 + 6 + 2 + 2 + 2 + 2 + 2 + 2 + 1
# = 28; where it goes on BZMF 2, CA 2, TCF 1, so 33 for each of four steps: 134. The
# fifth 28, and BZMF 1 where it jumps: 163. CA, EXTEND, WRITE 5: 168.
