# A program in the style of flight sources, for --flight: tags by which modules
# take their places, a jump to another bank, and a list of words for the downlink.

A       EQUALS  0
FBANK   EQUALS  4

        SETLOC  100
STATE   ERASE   +2              # three words
SENT    ERASE

# tags: where the words of each module begin
        BANK    5
DOWNTAG EQUALS
        BLOCK   02
STARTTAG =

        SETLOC  STARTTAG
        BLOCK
        COUNT*  $$/START
START   CAF     DOWNBANK
 +1     TS      FBANK           # bank 5 is switched in
        CAF     FIVE
        TS      STATE
        DOUBLE
        TS      STATE +1
        DOUBLE
+7      TS      STATE +2
        TCF     DOWNLINK
DOWNBANK CADR   DOWNLINK
FIVE    OCTAL   5

        SETLOC  DOWNTAG
        BANK
        COUNT*  $$/DOWN
DOWNLINK CAF    TWO             # the last word of the list goes first
NEXT    TS      SENT
        INDEX   SENT
        CAF     LIST
        MASK    LOWADR          # the place without what stands above it
        INDEX   A
        CA      0
        EXTEND
        WRITE   34
        CCS     SENT
        TCF     NEXT
DONE    TCF     DONE

LIST    1DNADR  STATE
 +1     2DNADR  STATE +1
 +2     6DNADR  STATE +2
TWO     OCTAL   2
LOWADR  OCTAL   3777
        BNKSUM  05

# By hand: CAF 2, TS 4, CAF 6, TS 8, DOUBLE 10, TS 12, DOUBLE 14, TS 16, TCF 17;
# CAF 19, TS 21, INDEX 23, CAF 25, MASK 27, INDEX 29, CA 31, EXTEND 32, WRITE 34.
# A round takes 18 cycles: CCS 2, TCF 1, and the 15 from TS to WRITE. The words
# are 5, twice 5 is 12, and twice 12 is 24.
