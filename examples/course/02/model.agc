# Lesson 2: 100 less 64 is kept in CHANGE, and put out; then twice as much.
        SETLOC  100
CHANGE  ERASE

        SETLOC  4000
        CS      PRICE
        AD      PAID
        TS      CHANGE
        EXTEND
        WRITE   10
        CA      CHANGE
        DOUBLE
        EXTEND
        WRITE   10
DONE    TCF     DONE
PAID    DEC     100
PRICE   DEC     64
