# The instructions that no other program here shows, one after the other, with what
# they leave: on channel 20, and of WAND and WOR on channel 21.

L       EQUALS  1
Q       EQUALS  2

        SETLOC  100
X       ERASE

        SETLOC  4000
        CAF     SIX
        TS      X
        CAF     FIVE
        ADS     X               # 5 + 6 = 11, in A and in X
        EXTEND
        WRITE   20              # 00013

        LXCH    X               # L was 0 and takes 11, X takes 0
        CA      L
        COM                     # its complement
        EXTEND
        WRITE   20              # 77764

        EXTEND
        AUG     X               # 0 goes away from zero: 1
        CA      X
        EXTEND
        WRITE   20              # 00001
        EXTEND
        DIM     X               # 1 goes towards zero: 1 + -1 is -0
        EXTEND
        DIM     X               # and -0 stays
        CA      X
        EXTEND
        WRITE   20              # 77777
        CS      ONE
        TS      X
        EXTEND
        AUG     X               # -1 goes away from zero: -2
        CA      X
        EXTEND
        WRITE   20              # 77775
        EXTEND
        DIM     X               # -2 goes towards zero: -1
        CA      X
        EXTEND
        WRITE   20              # 77776

        CAF     TWO
        TS      X
        NDX     X               # INDEX by its other name
        CA      TABLE           # TABLE + 2
        EXTEND
        WRITE   20              # 00333
        MSK     MIDDLE          # MASK by its other name: 011 011 011 and 000 111 000
        EXTEND
        WRITE   20              # 00030

        CAF     LOW
        EXTEND
        WRITE   21              # 00017
        CAF     MIX             # 101 010, beside 001 111 in channel 21
        EXTEND
        RAND    21              # and: 001 010
        EXTEND
        WRITE   20              # 00012
        CAF     MIX
        EXTEND
        ROR     21              # or: 101 111
        EXTEND
        WRITE   20              # 00057
        CAF     MIX
        EXTEND
        RXOR    21              # exclusive or: 100 101
        EXTEND
        WRITE   20              # 00045
        CAF     MIX
        EXTEND
        WAND    21              # 00012
        CAF     MIX             # beside 001 010 now
        EXTEND
        WOR     21              # 00052

        CAF     FIVE
        TS      X
        CAF     DEC17
        TS      L
        CAF     NAUGHT          # 0 in A and 17 in L are 17,
        EXTEND
        DV      X               # by 5: 3,
        EXTEND
        WRITE   20              # 00003
        CA      L               # and 2 remain
        EXTEND
        WRITE   20              # 00002
        CAF     ONE
        EXTEND
        MSU     X               # from angle 5 to angle 1: -4
        EXTEND
        WRITE   20              # 77773

        EXTEND
        DCS     PAIR            # -1 and -2
        EXTEND
        WRITE   20              # 77776
        CA      L
        EXTEND
        WRITE   20              # 77775
        EXTEND
        DCOM                    # A and L were -2 both: 2 and 2
        DDOUBL                  # 4 and 4
        EXTEND
        WRITE   20              # 00004
        CA      L
        EXTEND
        WRITE   20              # 00004
        ZL                      # L := 0
        CA      L
        EXTEND
        WRITE   20              # 00000
        CAF     HALF
        EXTEND
        SQUARE                  # 1/4
        EXTEND
        WRITE   20              # 10000

        EXTEND
        BZMF    WRONG           # 1/4 is above zero: no jump
        COM
        EXTEND
        BZMF    +2              # -1/4 is below: a jump over the next line
        TCF     WRONG
        EXTEND
        WRITE   20              # 67777
        CAF     BIG
        AD      ONE             # overflow
        OVSK                    # skips, and leaves A
        TCF     WRONG
        TS      X               # skips too; X := 0 and A := 1
        TCF     WRONG
        EXTEND
        WRITE   20              # 00001

        CAF     TOTHERE
        TCAA                    # a jump to the place in A
        TCF     WRONG

        SETLOC  4400
THERE   EXTEND
        WRITE   20              # 04400
        CAF     TOREST
        TS      L
        CAF     NAUGHT
        DTCF                    # at 4405: FB := A, and a jump to the place in L
        TCF     WRONG

        SETLOC  4500
REST    CA      L               # the place after DTCF
        EXTEND
        WRITE   20              # 04406
        TCR     ROUTINE         # TC by its other name, at 4503
        CAF     TOSEEN          # TC SEEN
        TS      L
        XLQ                     # the word in L is executed, at place 1
        TCF     WRONG
SEEN    CA      Q               # and so Q is 2
        EXTEND
        WRITE   20              # 00002
        CAF     TOLAST          # TC LAST
        TS      L
        CAF     COUNTX          # INCR X
        XXALQ                   # the words in A and L are executed
        TCF     WRONG
LAST    NOOP                    # a jump to the next line
        INHINT                  # interrupts are inhibited from the start: nothing changes
        CAE     X               # 0 + 1
        EXTEND
        WRITE   20              # 00001
        EXTEND
        ZQ                      # Q := 0
        CA      Q
        EXTEND
        WRITE   20              # 00000
DONE    TCF     DONE

ROUTINE CA      Q
        EXTEND
        WRITE   20              # 04504
        RETURN

WRONG   CS      NAUGHT          # comes out where a jump or a skip is missing
        EXTEND
        WRITE   20
        TCF     DONE

NAUGHT  OCT     0
ONE     OCT     1
TWO     OCT     2
FIVE    OCT     5
SIX     OCT     6
DEC17   DEC     17
BIG     OCT     37777
HALF    DEC     .5
LOW     OCT     17
MIX     OCT     52
MIDDLE  OCT     70
PAIR    OCT     1
        OCT     2
TABLE   OCT     111
        OCT     222
        OCT     333
TOTHERE ADRES   THERE
TOREST  ADRES   REST
TOSEEN  TC      SEEN
TOLAST  TC      LAST
COUNTX  INCR    X

# By hand: the words behind WRITE, WAND and WOR are what is put out. 5 + 6 = 11 is
# octal 13, its complement 77764. Only +0 + +0 is +0, so 1 + -1 is -0, 77777. 1 - 5
# is -4, 77773. 1/4 is octal 10000, its complement 67777. The cycles are those of the
# manual's tables, added up along the way; RETURN, XLQ and XXALQ lead to words in Q, L and
# A, which take their own.
