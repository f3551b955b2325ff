# Takes keys from the ground: a word of 16 bits comes through INLINK bit by bit,
# and UPRUPT puts its key out on channel 11, or -0 where the word is damaged.
#
# The word is 1 ccccc CCCCC ccccc: a one, the five bits of the key, their complement, and
# the five bits again. SHINC shifts a 0 into INLINK, SHANC a 1. INLINK has 15 bits
# and was 0, so the 16th pulse shifts the leading one out, which asks for UPRUPT.

ARUPT   EQUALS  10
CYL     EQUALS  22
INLINK  EQUALS  45
UPRUPT  EQUALS  4034

        SETLOC  100
WORD    ERASE
KEY     ERASE

        SETLOC  4000
        RELINT
IDLE    TCF     IDLE

        SETLOC  UPRUPT
        DXCH    ARUPT           # A and L are kept: MP leaves its lower word in L
        TCF     UPLINK

        SETLOC  4100
UPLINK  CA      INLINK
        TS      WORD
        CAF     NAUGHT
        TS      INLINK          # empty, for the next word
        CA      WORD
        MASK    LOW5
        TS      KEY             # bits 5 to 1
        CA      WORD
        MASK    MIDDLE          # bits 10 to 6
        EXTEND
        MP      BIT10           # times 2^9: the upper word is five bits down
        AD      KEY             # five bits and their complement make 37,
        AD      LESS37          # which leaves -0
        EXTEND
        BZF     +2
        TCF     DAMAGED
        CA      WORD
        TS      CYL             # what is stored in CYL is cycled left by one,
        CA      CYL             # and again by each reading:
        CA      CYL
        CA      CYL
        CA      CYL
        CA      CYL             # by five here, so bits 15 to 11 stand lowest
        MASK    LOW5
        EXTEND
        SU      KEY
        EXTEND
        BZF     GOOD
DAMAGED CS      NAUGHT          # -0
        TCF     OUT
GOOD    CA      KEY
OUT     EXTEND
        WRITE   11
        DXCH    ARUPT           # A and L are as they were
        RESUME

NAUGHT  OCT     0
LOW5    OCT     37
MIDDLE  OCT     1740
BIT10   OCT     1000
LESS37  OCT     77740           # -37

# By hand: the first word is 10001 01110 10001, in threes 100 010 111 010 001,
# 42721; 10001 and 01110 make 11111, and both copies agree: key 21, VERB. The second
# is 00100 11011 00101: 11011 and 00101 make 27 + 5 = 32, and not 31.
# From the last pulse, at 250 and 550: pulse 1, entry 3, DXCH 3, TCF 1, nine of 2,
# EXTEND 1, MP 3, AD 2, AD 2, EXTEND 1. Then for the first: BZF 1, CA 2, TS 2, five of
# 2, MASK 2, EXTEND 1, SU 2, EXTEND 1, BZF 1, CA 2, EXTEND 1, WRITE 2: 62 in all, so
# 312. For the second: BZF 2, TCF 1, CS 2, TCF 1, EXTEND 1, WRITE 2: 44 in all, so 594.
