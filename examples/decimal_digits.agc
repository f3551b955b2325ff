# Shows the number 7093 in the first register of the DSKY, as +07093: its five decimal
# digits by DV, and the three relay words of that register on channel 10.
#
# relay_word.agc says what the bits of a relay word are. Of the rows of relays the eighth
# has the first digit on the right; the seventh the second and the third, and the plus
# sign; the sixth the last two, and the minus sign. (In flight one is set each 20 ms.)

L       EQUALS  1

        SETLOC  100
TEN     ERASE                   # DV takes erasable places alone
REST    ERASE
COUNT   ERASE
DIGITS  ERASE   +4              # the first digit first

        SETLOC  4000
        CAF     BASE
        TS      TEN
        CAF     NUMBER
        TS      REST
        CAF     LAST
NEXT    TS      COUNT
        CA      REST
        TS      L
        CAF     ZERO
        EXTEND
        DV      TEN
        TS      REST            # without its last digit,
        CA      L               # which is the remainder
        INDEX   COUNT
        TS      DIGITS
        CCS     COUNT
        TCF     NEXT

        CAF     ROW8
        INDEX   DIGITS
        AD      RELAYS
        EXTEND
        WRITE   10
        INDEX   DIGITS +1
        CAF     RELAYS
        EXTEND
        MP      BIT6            # times 2^5: so small a product stands in L
        CA      L
        INDEX   DIGITS +2
        AD      RELAYS
        AD      ROW7
        EXTEND
        WRITE   10
        INDEX   DIGITS +3
        CAF     RELAYS
        EXTEND
        MP      BIT6
        CA      L
        INDEX   DIGITS +4
        AD      RELAYS
        AD      ROW6
        EXTEND
        WRITE   10
DONE    TCF     DONE

ZERO    DEC     0
BASE    DEC     10
LAST    DEC     4
NUMBER  DEC     7093
BIT6    OCT     40
ROW8    OCT     40000           # 1000 0
ROW7    OCT     36000           # 0111 1: with the plus sign
ROW6    OCT     30000           # 0110 0
RELAYS  OCT     25              # 0
        OCT     03              # 1
        OCT     31              # 2
        OCT     33              # 3
        OCT     17              # 4
        OCT     36              # 5
        OCT     34              # 6
        OCT     23              # 7
        OCT     35              # 8
        OCT     37              # 9

# By hand: 7093 = 709 * 10 + 3, 709 = 70 * 10 + 9, 70 = 7 * 10 + 0, 7 = 0 * 10 + 7: the
# digits are 0, 7, 0, 9, 3. Row 8 is 1000 0 00000 10101, in threes 100 000 000 010 101,
# 40025. Row 7 is 0111 1 10011 10101, 011 111 001 110 101, 37165. Row 6 is 0110 0 11111
# 11011, 011 001 111 111 011, 31773.
# CAF 2, TS 4, CAF 6, TS 8, CAF 10; five times TS, CA, TS, CAF, EXTEND, DV, TS, CA, INDEX,
# TS, CCS, of 2 but EXTEND 1 and DV 6, so 25, and four times TCF: 139. CAF, INDEX, AD,
# EXTEND, WRITE 9: 148. INDEX 2, CAF 2, EXTEND 1, MP 3, CA 2, INDEX 2, AD 2, AD 2, EXTEND
# 1, WRITE 2 are 19: 167, and again 186.
