# Lesson 1: a solution with a mistake in it.
        SETLOC  4000
        CA      NUMBER
        EXTEND
        WRITE   10
        CS      NUMBER
        WRITE   10
        AD      NUMBER
        EXTEND
        WRITE   10
DONE    TCF     DONE
NUMBER  DEC     25
