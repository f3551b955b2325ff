# Lesson 6: a solution with a mistake in it.
A       EQUALS  0
        SETLOC  100
SUM     ERASE

        SETLOC  4000
        CA      MANY
        AD      SOME
        TC      LIMITED
        EXTEND
        WRITE   10
        CA      MANY
        AD      MANY
        TC      LIMITED
        EXTEND
        WRITE   10
        CS      MANY
        AD      LESS
        TC      LIMITED
        EXTEND
        WRITE   10
DONE    TCF     DONE

LIMITED TS      SUM             # with overflow A is 1 or -1, and the next is skipped
        RETURN
        INDEX   A
        CA      LIMITS
        RETURN

        OCT     37777           # the greatest
LIMITS  DEC     0
        OCT     40000           # the least
MANY    DEC     10000
SOME    DEC     5000
LESS    DEC     -10000
