# A waitlist in miniature: two tasks wait for TIME3, each with the number of
# pulses that it waits after the one before it. The list goes round.
#
# An entry is two words, the delay and the place of the task. When TIME3
# overflows, the task in FRONT is due: the entries change places, TIME3 is set for
# the one that now stands in FRONT, and the one that is due is called by TC.

ARUPT   EQUALS  10
QRUPT   EQUALS  12
TIME3   EQUALS  26
T3RUPT  EQUALS  4014

        SETLOC  100
FRONT   ERASE   +1
BACK    ERASE   +1
REDS    ERASE
GREENS  ERASE

        SETLOC  4000
        TCF     START

        SETLOC  T3RUPT          # four words, so that the rest stands elsewhere
        DXCH    ARUPT           # A and L are kept
        TCF     DUE

        SETLOC  4100
START   EXTEND
        DCA     FIRST
        DXCH    FRONT
        EXTEND
        DCA     SECOND
        DXCH    BACK
        CAF     FULL            # FRONT waits one pulse
        TS      TIME3
        RELINT
IDLE    TCF     IDLE

DUE     EXTEND
        QXCH    QRUPT           # Q is kept: the task is called by TC
        EXTEND
        DCA     BACK
        DXCH    FRONT
        DXCH    BACK            # what was in FRONT
        CS      FRONT           # 2^14 less the delay: 37777, less it, and one
        AD      FULL
        AD      ONE
        TS      TIME3
        INDEX   BACK +1         # the task's place is added to TC 0
        TC      0
        EXTEND                  # the task comes back to here
        QXCH    QRUPT
        DXCH    ARUPT
        RESUME

RED     INCR    REDS            # a task counts how often it was called
        CA      REDS
        EXTEND
        WRITE   11
        RETURN

GREEN   INCR    GREENS
        CA      GREENS
        EXTEND
        WRITE   12
        RETURN

ONE     OCT     1
FULL    OCT     37777
FIRST   DEC     1               # one pulse after GREEN
        ADRES   RED
SECOND  DEC     2               # two pulses after RED
        ADRES   GREEN

# By hand: the pulses come each 100 cycles. The first overflows TIME3: RED. Two
# more: GREEN; one more: RED; so RED at the pulses of 100, 400 and 700, GREEN at
# those of 300 and 600. The machine idles in steps of one cycle, so each pulse
# is taken at its cycle. From there: pulse 1, entry 3, DXCH 3, TCF 1; then 1 + 2
# + 1 + 3 + 3 + 3 + 2 + 2 + 2 + 2 + 2 + 1 = 24 to the end of TC, and INCR, CA,
# EXTEND, WRITE 7: the output comes 39 cycles after the pulse.
