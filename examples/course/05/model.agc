# Lesson 5: 9 times 7 and 9 times -1, by a routine that calls another.
        SETLOC  100
X       ERASE
BACK    ERASE

        SETLOC  4000
        CA      SEVEN
        TC      NINE
        EXTEND
        WRITE   10
        CS      ONE
        TC      NINE
        EXTEND
        WRITE   10
DONE    TCF     DONE

NINE    EXTEND                  # A := 9 A
        QXCH    BACK
        TC      TRIPLE
        TC      TRIPLE
        EXTEND
        QXCH    BACK
        RETURN

TRIPLE  TS      X               # A := 3 A
        DOUBLE
        AD      X
        RETURN

ONE     DEC     1
SEVEN   DEC     7
