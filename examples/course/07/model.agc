# Lesson 7: the sum of three numbers of double precision.
        SETLOC  100
SUM     ERASE   +1

        SETLOC  4000
        EXTEND
        DCA     FIRST
        DXCH    SUM
        EXTEND
        DCA     SECOND
        DAS     SUM
        EXTEND
        DCA     THIRD
        DAS     SUM
        CA      SUM
        EXTEND
        WRITE   10
        CA      SUM +1
        EXTEND
        WRITE   10
DONE    TCF     DONE

FIRST   DEC     0
        DEC     16000
SECOND  DEC     0
        DEC     16000
THIRD   DEC     1
        DEC     100
