# Lesson 8: a solution with a mistake in it.
L       EQUALS  1
        SETLOC  100
EACH    ERASE
AREA    ERASE

        SETLOC  4000
        CA      WIDTH
        EXTEND
        MP      HEIGHT
        TS      AREA
        EXTEND
        WRITE   10
        CA      PIECE
        TS      EACH            # DV takes a word of erasable memory
        CA      AREA
        TS      L
        CA      ZERO            # the upper word of the dividend
        EXTEND
        DV      EACH
        EXTEND
        WRITE   10
        CA      L
        EXTEND
        WRITE   10
DONE    TCF     DONE

ZERO    DEC     0
WIDTH   DEC     12
HEIGHT  DEC     9
PIECE   DEC     25
