# Lesson 9: a solution with a mistake in it.
L       EQUALS  1
EBANK   EQUALS  3
FBANK   EQUALS  4
        SETLOC  100
CALLER  ERASE

        SETLOC  2000            # erasable bank 4 is reached at 1400 to 1777 by EBANK
SQUARE  ERASE

        SETLOC  4000
        CA      BANK4
        TS      EBANK
        CA      FARPLACE
        XCH     FBANK           # A := the bank before
        TS      CALLER
        CA      ELEVEN
        TC      SQUARED
        CA      CALLER
        TS      EBANK
        CA      SQUARE
        EXTEND
        WRITE   10
DONE    TCF     DONE

ELEVEN  DEC     11
BANK4   OCT     2000            # bits 11 to 9 of EBANK name the bank
FARPLACE CADR   SQUARED

        BANK    5
        AD      ADDED           # (another routine, at the same address in bank 5)
        TS      SQUARE
        RETURN
ADDED   DEC     33

        BANK    6
SQUARED TS      SQUARE          # SQUARE := A A
        EXTEND
        MP      SQUARE
        CA      L
        TS      SQUARE
        RETURN
