# Lesson 10: a solution with a mistake in it.
ARUPT   EQUALS  10              # and LRUPT after it
KEYRUPT1 EQUALS 4024
        SETLOC  100
COUNT   ERASE
SUM     ERASE

        SETLOC  4000
        TCF     START

        SETLOC  KEYRUPT1
        TCF     KEY

        SETLOC  4100
START   RELINT
        CA      ZERO
        TS      SUM
        CA      FIFTY
LOOP    TS      COUNT
        ADS     SUM
        CCS     COUNT
        TCF     LOOP
        CA      SUM
        EXTEND
        WRITE   11
DONE    TCF     DONE

KEY     EXTEND
        READ    15
        EXTEND
        WRITE   10
        RESUME

ZERO    DEC     0
FIFTY   DEC     50
