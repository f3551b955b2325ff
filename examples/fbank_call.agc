# Calls a subroutine in bank 7 by FBANK alone.
#
# An instruction holds 12 bits of address, so all switched banks are reached at
# 02000 to 03777, whichever of them FBANK names. TC with nothing before it would go to
# the same address in the bank that happens to be switched in.

FBANK   EQUALS  4

        SETLOC  100
VALUE   ERASE
CALLER  ERASE

        SETLOC  4000            # bank 2 is reached at 04000 in any case
        CAF     GIVEN
        TS      VALUE
        CAF     FARPLACE
        XCH     FBANK           # bits 15 to 11 name the bank; A := the bank before
        TS      CALLER
        TC      TWICE           # at 02000, which is now in bank 7
        CA      CALLER
        TS      FBANK           # the bank is as it was
        CA      VALUE
        EXTEND
        WRITE   11
DONE    TCF     DONE

GIVEN   OCT     123
FARPLACE CADR   TWICE           # 7 times 02000, plus the offset 0

        BANK    7
TWICE   CA      FBANK
        EXTEND
        WRITE   12              # 7 times 02000 is 16000
        CA      VALUE
        DOUBLE
        TS      VALUE
        RETURN

# By hand: CAF 2, TS 4, CAF 6, XCH 8, TS 10, TC 11, CA 13, EXTEND 14, WRITE 16;
# CA 18, DOUBLE 20, TS 22, RETURN 23 and the word in Q 24; CA 26, TS 28, CA 30,
# EXTEND 31, WRITE 33. Twice 123 is 246.
