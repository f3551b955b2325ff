# A clock: TIME3 is set so that its second pulse overflows it. Its interrupt
# counts a tick on channel 13, and sets it again.

ARUPT   EQUALS  10              # where a program keeps A while it serves an interrupt
TIME3   EQUALS  26
T3RUPT  EQUALS  4014

        SETLOC  100
TICKS   ERASE

        SETLOC  4000
        CAF     SOON
        TS      TIME3
        RELINT
IDLE    TCF     IDLE

        SETLOC  T3RUPT          # four words, so that the rest stands elsewhere
        TCF     TICK

        SETLOC  4100
TICK    XCH     ARUPT           # A is kept
        CAF     SOON
        TS      TIME3
        INCR    TICKS
        CA      TICKS
        EXTEND
        WRITE   13
        XCH     ARUPT           # A is as it was
        RESUME

SOON    OCT     37776           # two pulses before overflow

# By hand: the second pulse comes at 40. It takes 1 cycle and the entry 3; TCF 1, XCH 2,
# CAF 2, TS 2, INCR 2, CA 2, EXTEND 1, WRITE 2: the output comes 18 cycles after the
# pulse, at 58. The fourth pulse, at 80, is the second after that: 98.
