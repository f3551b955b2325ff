# Lesson 1: 25, -25, and the sum of both, on channel 10.
        SETLOC  4000
        CA      NUMBER
        EXTEND
        WRITE   10
        CS      NUMBER
        EXTEND
        WRITE   10
        AD      NUMBER
        EXTEND
        WRITE   10
DONE    TCF     DONE
NUMBER  DEC     25
