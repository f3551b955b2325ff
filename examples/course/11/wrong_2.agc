# Lesson 11: a solution with a mistake in it.
ARUPT   EQUALS  10
TIME3   EQUALS  26
T3RUPT  EQUALS  4014
        SETLOC  100
LAMP    ERASE

        SETLOC  4000
        TCF     START

        SETLOC  T3RUPT
        DXCH    ARUPT           # A and L are kept
        TCF     TASK

        SETLOC  4100
START   CA      SOON
        TS      TIME3
IDLE    TCF     IDLE
        RELINT

TASK    CA      SOON            # once more, in two pulses
        TS      TIME3
        CCS     LAMP            # 1, 0, 1, 0 ..
        TCF     +2              # LAMP was 1: A is 0
        CA      ONE             # LAMP was 0
        TS      LAMP
        EXTEND
        WRITE   11
        DXCH    ARUPT           # A and L are as they were
        RESUME

ONE     DEC     1
SOON    OCT     37776           # two pulses before overflow
