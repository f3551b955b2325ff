# Echoes keys: a word on channel 15 asks for KEYRUPT1, which writes it to
# channel 10. A, L and Q are kept and had back, as flight programs do.

ARUPT   EQUALS  10              # and LRUPT after it
QRUPT   EQUALS  12
KEYRUPT1 EQUALS 4024

        SETLOC  4000
        RELINT
IDLE    TCF     IDLE

        SETLOC  KEYRUPT1        # four words, so that the rest stands elsewhere
        DXCH    ARUPT           # A and L are kept
        TCF     KEY

        SETLOC  4100
KEY     EXTEND
        QXCH    QRUPT           # Q is kept
        EXTEND
        READ    15
        EXTEND
        WRITE   10
        EXTEND
        QXCH    QRUPT           # Q is as it was
        DXCH    ARUPT           # A and L are as they were
        RESUME

# By hand: a key takes no cycle, and the entry 3; DXCH 3, TCF 1, EXTEND 1, QXCH 2,
# EXTEND 1, READ 2, EXTEND 1, WRITE 2: each key comes out 16 cycles after it came in.
