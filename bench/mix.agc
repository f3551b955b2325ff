# A mix of nearly all instructions: double-precision sums, products and quotients, indexed reads, editing cells,
# switched banks of both kinds of memory, calls with a return in fixed and in switched memory. It puts nothing out.
A        EQUALS   0
L        EQUALS   1
Q        EQUALS   2
EB       EQUALS   3
FB       EQUALS   4
CYR      EQUALS   20
CYL      EQUALS   22
         SETLOC   61
COUNT    ERASE
TIMES    ERASE
SAVE     ERASE
SUM      ERASE    +1
PART     ERASE    +1
TABLE    ERASE    +7
RATIO    ERASE
PARTS    ERASE
         SETLOC   1400
AWAY     ERASE    +3

         SETLOC   4000
START    CA       THREE
         TS       EB
         CA       FACTOR
         TS       RATIO
         CA       DIVISOR
         TS       PARTS
LOOP     CA       SEVEN
         TS       TIMES
TURN     CA       COUNT
         EXTEND
         MP       FACTOR
         DXCH     PART
         CA       COUNT
         MASK     LOWBITS
         TS       SAVE
         EXTEND
         DCA      PAIR
         DAS      SUM
         INDEX    TIMES
         CA       TABLE
         AD       SAVE
         INDEX    TIMES
         TS       TABLE
         TS       CYR
         CA       CYR
         TS       CYL
         XCH      CYL
         LXCH     SAVE
         TC       HALVE
         TS       AWAY
         AD       AWAY
         ADS      SUM
         TC       SWITCH
         CA       COUNT
         EXTEND
         MSU      SAVE
         EXTEND
         SU       RATIO
         EXTEND
         BZF      AGAIN
         EXTEND
         QXCH     SAVE
         EXTEND
         AUG      PART
         EXTEND
         DIM      PART +1
AGAIN    INCR     COUNT
         CCS      TIMES
         TCF      STORE
         CS       SUM
         TS       SUM
         TCF      LOOP
STORE    TS       TIMES
         TCF      TURN

HALVE    CA       COUNT
         MASK     LOWBITS
         LXCH     A
         CA       ZERO
         EXTEND
         DV       PARTS
         TC       Q

SWITCH   LXCH     Q
         CA       FAR
         TS       FB
         TC       AFAR
ZERO     OCT      0
THREE    OCT      1400
SEVEN    OCT      7
FACTOR   DEC      .7
LOWBITS  OCT      1777
DIVISOR  OCT      30000
PAIR     OCT      1
         OCT      77
FAR      OCT      24000

         BANK     12
AFAR     CA       AWAY +1
         AD       NEAR
         TS       AWAY +1
         TCF      ON
         TCF      ON
ON       XCH      AWAY +2
         LXCH     Q
         TC       Q
NEAR     OCT      17
