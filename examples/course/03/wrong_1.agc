# Lesson 3: a solution with a mistake in it.
        SETLOC  100
COUNT   ERASE
SUM     ERASE

        SETLOC  4000
        CA      ZERO
        TS      SUM
        CA      TEN
LOOP    TS      COUNT
        ADS     SUM
        CCS     COUNT
        TCF     OUT
        TCF     LOOP
OUT     CA      SUM
        EXTEND
        WRITE   10
DONE    TCF     DONE
ZERO    DEC     0
TEN     DEC     10
