# Lesson 4: a solution with a mistake in it.
        SETLOC  100
J       ERASE
K       ERASE
BUFFER  ERASE   +3
GUARD   ERASE

        SETLOC  4000
        CA      MARK
        TS      GUARD
        CA      ZERO
        TS      K
        CA      THREE
LOOP    TS      J
        CA      TABLE
        INDEX   K
        TS      BUFFER
        INCR    K
        CCS     J
        TCF     LOOP
        CA      BUFFER
        EXTEND
        WRITE   10
        CA      BUFFER +1
        EXTEND
        WRITE   10
        CA      BUFFER +2
        EXTEND
        WRITE   10
        CA      BUFFER +3
        EXTEND
        WRITE   10
        CA      GUARD
        EXTEND
        WRITE   11
DONE    TCF     DONE
ZERO    DEC     0
THREE   DEC     3
MARK    OCT     77
TABLE   DEC     10
        DEC     20
        DEC     30
        DEC     40
