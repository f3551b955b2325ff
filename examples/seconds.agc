# A clock of seconds: TIME3 is counted each 10 ms, and is set so that its
# hundredth pulse overflows it. The interrupt puts the seconds on channel 13.

ARUPT   EQUALS  10              # where a program keeps A while it serves an interrupt
TIME3   EQUALS  26
T3RUPT  EQUALS  4014

        SETLOC  100
SECONDS ERASE

        SETLOC  4000
        CAF     SECOND
        TS      TIME3
        RELINT
IDLE    TCF     IDLE

        SETLOC  T3RUPT          # four words, so that the rest stands elsewhere
        TCF     TICK

        SETLOC  4100
TICK    XCH     ARUPT           # A is kept
        CAF     SECOND
        TS      TIME3
        INCR    SECONDS
        CA      SECONDS
        EXTEND
        WRITE   13
        XCH     ARUPT           # A is as it was
        RESUME

SECOND  OCT     37634           # a hundred pulses before overflow

# By hand: pulse i comes at i * 2560 / 3. That of cycle 0 comes before TIME3 is set, so
# pulses 100, 200, .. overflow it: at 85333, 170666, 256000, .. Each is taken at its cycle,
# for the machine idles in steps of one cycle, and as in clock.agc the output comes 18
# cycles later.
