# Lesson 7: a solution with a mistake in it.
        SETLOC  100
SUM     ERASE   +1

        SETLOC  4000
        EXTEND
        DCA     FIRST
        DXCH    SUM
        CA      SECOND +1
        ADS     SUM +1
        CA      SECOND
        ADS     SUM
        CA      THIRD +1
        ADS     SUM +1
        CA      THIRD
        ADS     SUM
        CA      SUM
        EXTEND
        WRITE   10
        CA      SUM +1
        EXTEND
        WRITE   10
DONE    TCF     DONE

FIRST   DEC     0
        DEC     16000
SECOND  DEC     0
        DEC     16000
THIRD   DEC     1
        DEC     100
