# Lesson 10: 1 to 50 are added up while keys come, and each key is echoed.
ARUPT   EQUALS  10              # and LRUPT after it
KEYRUPT1 EQUALS 4024
        SETLOC  100
COUNT   ERASE
SUM     ERASE

        SETLOC  4000
        TCF     START

        SETLOC  KEYRUPT1
        DXCH    ARUPT           # A and L are kept
        TCF     KEY

        SETLOC  4100
START   RELINT
        CA      ZERO
        TS      SUM
        CA      FIFTY
LOOP    TS      COUNT
        ADS     SUM
        CCS     COUNT
        TCF     LOOP
        CA      SUM
        EXTEND
        WRITE   11
DONE    TCF     DONE

KEY     EXTEND
        READ    15
        EXTEND
        WRITE   10
        DXCH    ARUPT           # A and L are as they were
        RESUME

ZERO    DEC     0
FIFTY   DEC     50
