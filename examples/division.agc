# Quotients by DV: of whole numbers, of one that does not fit, and a fraction. The
# quotients come on channel 11, the remainders on channel 12.
#
# DV divides the number in A and L together, A times 2^14 plus L, by its operand. The
# quotient has to be less than 2^14, so the magnitude in A has to be less than that of
# the operand. A whole number of one word therefore stands in L, with A at 0; what
# stands in A, with L at 0, is divided as a fraction. DV takes erasable places alone.

L       EQUALS  1

        SETLOC  100
DIVISOR ERASE

        SETLOC  4000
        CAF     SEVEN
        TS      DIVISOR
        CAF     NUMBER
        TS      L               # 47 in L,
        CAF     ZERO            # and 0 in A
        EXTEND
        DV      DIVISOR
        EXTEND
        WRITE   11              # 6
        CA      L
        EXTEND
        WRITE   12              # 5

        CAF     NUMBER          # the mistake: 47 in A is 47 times 2^14
        EXTEND
        DV      DIVISOR
        EXTEND
        WRITE   11              # the greatest number: it does not fit
        CA      L
        EXTEND
        WRITE   12              # and L is as it was

        CS      NUMBER          # -47
        TS      L
        CAF     ZERO
        EXTEND
        DV      DIVISOR
        EXTEND
        WRITE   11              # -6
        CA      L
        EXTEND
        WRITE   12              # -5: the remainder has the sign of the dividend

        CAF     ZERO
        TS      L
        CAF     THREE           # 3 in A: 3 by 7 is less than 1, a fraction
        EXTEND
        DV      DIVISOR
        EXTEND
        WRITE   11              # .42853
        CA      L
        EXTEND
        WRITE   12
DONE    TCF     DONE

ZERO    DEC     0
THREE   DEC     3
SEVEN   DEC     7
NUMBER  DEC     47

# By hand: 47 = 6 * 7 + 5. CAF 2, TS 4, CAF 6, TS 8, CAF 10, EXTEND 11, DV 17, EXTEND
# 18, WRITE 20; CA, EXTEND, WRITE 25. Then CAF 27, EXTEND 28, DV 34, EXTEND 35, WRITE
# 37; 42. -6 is the complement of 00006, 77771, and -5 is 77772: CS 44, TS 46, CAF 48,
# EXTEND 49, DV 55, EXTEND 56, WRITE 58; 63. 3 * 2^14 = 49152 = 7021 * 7 + 5, and 7021
# is 1 * 4096 + 5 * 512 + 5 * 64 + 5 * 8 + 5, octal 15555: CAF 65, TS 67, CAF 69,
# EXTEND 70, DV 76, EXTEND 77, WRITE 79; 84.
