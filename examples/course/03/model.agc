# Lesson 3: the sum of the numbers from 10 down to 1.
        SETLOC  100
COUNT   ERASE
SUM     ERASE

        SETLOC  4000
        CA      ZERO
        TS      SUM
        CA      TEN
LOOP    TS      COUNT
        ADS     SUM
        CCS     COUNT
        TCF     LOOP            # COUNT was above 0
        CA      SUM             # COUNT was 0
        EXTEND
        WRITE   10
DONE    TCF     DONE
ZERO    DEC     0
TEN     DEC     10
