# Lesson 2: a solution with a mistake in it.
        SETLOC  100
CHANGE  ERASE

        SETLOC  4000
        CA      PRICE
        AD      PAID
        TS      CHANGE
        EXTEND
        WRITE   10
        CA      CHANGE
        DOUBLE
        EXTEND
        WRITE   10
DONE    TCF     DONE
PAID    DEC     100
PRICE   DEC     64
