# Calls a subroutine in bank 43, which the superbank bit and FB select together.
#
# DTCB exchanges A with Z and L with both bank registers: it goes on at the
# place that 2CADR made two words of, and leaves the way back in A and L.

        SETLOC  100
RESULT  ERASE
BACK    ERASE   +1

        SETLOC  4000
        CAF     SUPBIT
        EXTEND
        WRITE   7               # the superbank bit is channel 7's, which puts nothing out
        EXTEND
        DCA     DOUBLER
        DTCB
        CA      RESULT          # the subroutine comes back to here
        EXTEND
        WRITE   11
DONE    TCF     DONE

SUPBIT  OCT     100
DOUBLER 2CADR   DOUBLED

        BANK    43
DOUBLED DXCH    BACK            # the way back is kept
        CA      VALUE
        DOUBLE
        TS      RESULT
        DXCH    BACK
        DTCB

VALUE   OCT     123

# By hand: CAF 2, EXTEND 3, WRITE 5, EXTEND 6, DCA 9, DTCB 12; DXCH 15, CA 17, DOUBLE
# 19, TS 21, DXCH 24, DTCB 27; CA 29, EXTEND 30, WRITE 32. Twice 123 is octal 246.
