# A call into another bank, as flight programs make it, and constants with scales.
# The CADR after TC BANKCALL names where the call leads; A and L are handed on as they are,
# and the call comes back to the word after the CADR. SHOWDP puts A out on channel 10 and
# L on channel 11.
A       EQUALS  0
L       EQUALS  1
Q       EQUALS  2
FBANK   EQUALS  4

        SETLOC  100
BUF2    ERASE   +1              # first A and L, then where to go back to

        BANK    7
SHOWTAG EQUALS                  # the words of SHOWDP begin here

        BLOCK   02
        COUNT*  $$/START
START   EXTEND
        DCA     TENTH
        TC      BANKCALL
        CADR    SHOWDP
        EXTEND
        DCA     RADIUS
        TC      BANKCALL
        CADR    SHOWDP
DONE    TCF     DONE

        COUNT*  $$/BANK
BANKCALL DXCH   BUF2            # A and L wait here
        INDEX   Q
        CA      0               # the CADR
        INCR    Q               # so that the call comes back after it
        TS      L
        LXCH    FBANK           # the bank is switched in, and L has the one before
        MASK    LOW10
        XCH     Q               # Q has the place in its bank, and A where to go back to
        DXCH    BUF2
        INDEX   Q
        TC      2000            # so that Q leads to the next line
SWRETURN XCH    BUF2 +1
        XCH     FBANK           # the bank before
        XCH     BUF2 +1
        TC      BUF2

LOW10   OCT     1777
TENTH   2DEC    -.1             # 2^28 times .1 is 26843546: 1638 times 2^14, and 6554
RADIUS  2DEC    1738090 B-29    # half of 1738090 is 869045: 53 times 2^14, and 693

        SETLOC  SHOWTAG
        BANK
        COUNT*  $$/SHOW
SHOWDP  EXTEND
        WRITE   10
        LXCH    A
        EXTEND
        WRITE   11
        TC      Q
