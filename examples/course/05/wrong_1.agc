# Lesson 5: a solution with a mistake in it.
        SETLOC  100
X       ERASE
BACK    ERASE

        SETLOC  4000
        CA      SEVEN
        TC      NINE
        EXTEND
        WRITE   10
        CS      ONE
        TC      NINE
        EXTEND
        WRITE   10
DONE    TCF     DONE

NINE    TC      TRIPLE          # A := 9 A
        TC      TRIPLE
        RETURN

TRIPLE  TS      X               # A := 3 A
        DOUBLE
        AD      X
        RETURN

ONE     DEC     1
SEVEN   DEC     7
