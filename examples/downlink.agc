# Sends a list of words to the ground: at each DOWNRUPT two words, on channels
# 34 and 35.
#
# The list holds places of pairs, and goes from its end to its front and round. So
# the telemetry always sends what the pairs hold at that moment.

L       EQUALS  1
ARUPT   EQUALS  10
TIME2   EQUALS  24
DOWNRUPT EQUALS 4040

        SETLOC  100
PAIR    ERASE
WHERE   ERASE
HEIGHT  ERASE   +1

        SETLOC  4000
        TCF     START

        SETLOC  DOWNRUPT
        DXCH    ARUPT           # A and L are kept
        TCF     DOWN

        SETLOC  4100
START   EXTEND
        DCA     GIVEN
        DXCH    HEIGHT
        RELINT
IDLE    TCF     IDLE

DOWN    CCS     PAIR            # 2, 1, 0, 2, 1, 0 ..
        TCF     +2              # PAIR was above +0: A is one less
        CAF     TWO             # PAIR was +0
        TS      PAIR
        INDEX   PAIR
        CA      LIST
        TS      WHERE
        EXTEND
        INDEX   WHERE           # extracode stays in force after INDEX
        DCA     0               # the pair at WHERE
        EXTEND
        WRITE   34
        CA      L
        EXTEND
        WRITE   35
        DXCH    ARUPT           # A and L are as they were
        RESUME

TWO     OCT     2
LIST    ADRES   TIME2           # TIME2 and TIME1, the clock
        ADRES   HEIGHT
        ADRES   HEADER          # goes out first
HEADER  OCT     1               # which list this is
        OCT     77340           # the word by which the ground finds a list's beginning
GIVEN   OCT     12345
        OCT     00123

# By hand: DOWNRUPT is asked for at 100, 1806, 3513 and 5220, which takes no
# cycle. From there: entry 3, DXCH 3, TCF 1, CCS 2; CAF 2 where PAIR was +0, else
# TCF 1; TS 2, INDEX 2, CA 2, TS 2, EXTEND 1, INDEX 2, DCA 3, EXTEND 1, WRITE 2:
# 28 cycles, or 27; CA 2, EXTEND 1, WRITE 2 are 5 more. TIME1 had 4 pulses, at
# 853, 1706, 2559 and 3413, when it was sent.
