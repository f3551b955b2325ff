# A waitlist in the style of flight sources, for --flight. A job asks by TC WAITLIST for a
# task after so many pulses of TIME3; the 2CADR after the call names the task, in whatever
# bank it stands. The task adds to a velocity of two words, puts it out on channels 11 and
# 12, and asks for itself again.

A       EQUALS  0
L       EQUALS  1
Q       EQUALS  2
BBANK   EQUALS  6
ARUPT   EQUALS  10
QRUPT   EQUALS  12
BANKRUPT EQUALS 16
TIME3   EQUALS  26

        SETLOC  100
-DT     ERASE                   # minus the pulses to wait
TASKADR ERASE   +1              # what DTCB leads to
VEL     ERASE   +1

# tags: where the words of each module begin
        BANK    7
GAINTAG EQUALS

        BLOCK   02
        COUNT*  $$/START
        TCF     START

        SETLOC  4014            # where the interrupt of TIME3 enters: four words
T3RUPT  DXCH    ARUPT           # A and L are kept
 +1     CA      BBANK
 +2     TS      BANKRUPT
 +3     TCF     DUE

        SETLOC  4100
START   CAF     DT
        TC      WAITLIST
        2CADR   GAIN
        RELINT
IDLE    TCF     IDLE

        COUNT*  $$/WAIT
WAITLIST COM                    # A has the pulses to wait
        TS      -DT
        EXTEND
        INDEX   Q
        DCA     0               # the 2CADR after the call
        DXCH    TASKADR
        CA      -DT
        AD      FULL
        AD      ONE             # 2^14 less the pulses
        TS      TIME3
        INDEX   Q
        TC      2               # back, past the 2CADR

DUE     EXTEND
        QXCH    QRUPT           # Q is kept
        EXTEND
        DCA     TASKADR
        DTCB                    # to the task, and its bank

TASKOVER CA     BANKRUPT        # the end of each task
        TS      BBANK
        EXTEND
        QXCH    QRUPT
        DXCH    ARUPT
        RESUME

ONE     DEC     1
FULL    OCT     37777
DT      DEC     2

        SETLOC  GAINTAG
        BANK
        COUNT*  $$/GAIN
GAIN    EXTEND
        DCA     ACCEL
        DAS     VEL
        EXTEND
        DCA     VEL
        EXTEND
        WRITE   11
        LXCH    A
        EXTEND
        WRITE   12
        CAF     DT
        TC      WAITLIST
        2CADR   GAIN
        TC      TASKOVER
ACCEL   2DEC    .1 B-2          # 2^26 times .1 is 6710886: 409 times 2^14, and 9830, whatever the comment says after byte 120

# By hand: pulses come each 100 cycles, and each second one overflows TIME3. From there:
# pulse 1, entry 3, DXCH 3, CA 2, TS 2, TCF 1; EXTEND 1, QXCH 2, EXTEND 1, DCA 3, DTCB 3;
# EXTEND 1, DCA 3, DAS 3, EXTEND 1, DCA 3, EXTEND 1, WRITE 2: the first output comes 36
# cycles after the pulse, and the second, by LXCH 2, EXTEND 1, WRITE 2, 41. The machine
# idles in steps of one cycle, so each pulse is taken at its cycle. The words are those of
# 6710886, twice it, 819 times 2^14 and 3276, and three times it, 1228 times 2^14 and 13106.
