# Lesson 3: a solution with a mistake in it.
        SETLOC  100
COUNT   ERASE
SUM     ERASE

        SETLOC  4000
        CA      ZERO
        TS      SUM
        CA      TEN
LOOP    TS      COUNT
        ADS     SUM
        CCS     COUNT
        TCF     LOOP            # COUNT was above 0
        CA      SUM             # COUNT was 0
        EXTEND
        WRITE   10
DONE    TCF     DONE
ZERO    DEC     0
TEN     OCT     10
