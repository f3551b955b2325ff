# Lesson 5: a solution with a mistake in it.
        SETLOC  100
X       ERASE
BACK    ERASE

        SETLOC  4000
        CA      SEVEN
        TC      NINE
        EXTEND
        WRITE   10
        CS      ONE
        TCF     NINE
        EXTEND
        WRITE   10
DONE    TCF     DONE

NINE    EXTEND                  # A := 9 A
        QXCH    BACK
        TC      TRIPLE
        TC      TRIPLE
        EXTEND
        QXCH    BACK
        RETURN

TRIPLE  TS      X               # A := 3 A
        DOUBLE
        AD      X
        RETURN

ONE     DEC     1
SEVEN   DEC     7
