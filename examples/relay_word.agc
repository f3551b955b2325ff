# Shows two digits of the DSKY by a relay word on channel 10, at each T4RUPT:
# VERB 37 and NOUN 42 in turn.
#
# A relay word has 15 bits: RRRR S LLLLL DDDDD. RRRR selects a row of relays, S a
# sign, LLLLL and DDDDD the relays of the left and the right digit. The verb is
# row 10, the noun row 9. A program can set one row at a time, so it goes round.

L       EQUALS  1
ARUPT   EQUALS  10
TIME4   EQUALS  27
T4RUPT  EQUALS  4020

        SETLOC  100
ROW     ERASE                   # 1 for the verb, 0 for the noun
DIGIT   ERASE

        SETLOC  4000
        TCF     START

        SETLOC  T4RUPT
        DXCH    ARUPT           # A and L are kept
        TCF     RELAY

        SETLOC  4100
START   CAF     SOON
        TS      TIME4
        RELINT
IDLE    TCF     IDLE

RELAY   CAF     SOON            # the next one after two pulses, 20 ms
        TS      TIME4
        CCS     ROW             # 1, 0, 1, 0 ..
        TCF     +2              # ROW was 1: A is 0
        CAF     ONE             # ROW was 0
        TS      ROW
        INDEX   ROW
        CA      LEFT
        TS      DIGIT
        INDEX   DIGIT
        CA      RELAYS          # the relays of the left digit
        EXTEND
        MP      BIT6            # times 2^5: so small a product stands in L
        INDEX   ROW
        CA      RIGHT
        TS      DIGIT
        INDEX   DIGIT
        CA      RELAYS          # those of the right digit
        AD      L
        INDEX   ROW
        AD      SELECT
        EXTEND
        WRITE   10
        DXCH    ARUPT           # A and L are as they were
        RESUME

ONE     OCT     1
BIT6    OCT     40
SOON    OCT     37776           # two pulses before overflow
SELECT  OCT     44000           # 1001, row 9: the noun
        OCT     50000           # 1010, row 10: the verb
LEFT    DEC     4
        DEC     3
RIGHT   DEC     2
        DEC     7
RELAYS  OCT     25              # 0: 10101, as the lamps of each digit are wired
        OCT     03              # 1: 00011
        OCT     31              # 2: 11001
        OCT     33              # 3: 11011
        OCT     17              # 4: 01111
        OCT     36              # 5: 11110
        OCT     34              # 6: 11100
        OCT     23              # 7: 10011
        OCT     35              # 8: 11101
        OCT     37              # 9: 11111

# By hand: verb 37 is 1010 0 11011 10011, in threes 101 001 101 110 011, 51563.
# Noun 42 is 1001 0 01111 11001, in threes 100 100 111 111 001, 44771.
# TIME4 overflows at each second pulse, 1706, 3413 and 5119. From there: pulse 1,
# entry 3, DXCH 3, TCF 1, CAF 2, TS 2, CCS 2; CAF 2 where ROW was 0, else TCF 1;
# TS 2, then 2 + 2 + 2 + 2 + 2 + 1 + 3 to the end of MP, and 2 + 2 + 2 + 2 + 2 + 2
# + 2 + 2 + 1 + 2 to that of WRITE: 51 cycles, or 50 where ROW was 1.
