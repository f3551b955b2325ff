# A guidance program in miniature with five faults that no check and no note
# tells, each marked below. agcws access and cover show them.

L       EQUALS  1
ARUPT   EQUALS  10              # where an interrupt keeps A and L
T5RUPT  EQUALS  4010
T4RUPT  EQUALS  4020
KEYRUPT EQUALS  4024

        SETLOC  100
PHASE   ERASE                   # 1 while VEL is made: a restart would read it
TMP     ERASE
SPEED   ERASE
VEL     ERASE   +1              # what T4RUPT sends down, in two words
LAMP    ERASE
RTRN    ERASE

        SETLOC  4000
        TCF     GOPROG

        SETLOC  T5RUPT          # four words, so that the rest stands elsewhere
        DXCH    ARUPT
        TCF     DAP

        SETLOC  T4RUPT
        DXCH    ARUPT
        TCF     DOWN

        SETLOC  KEYRUPT
        DXCH    ARUPT
        TCF     KEY

        SETLOC  4100
GOPROG  CAF     ZERO
        TS      PHASE           # fault 1: what a restart would read is cleared first
        RELINT
LOOP    INCR    SPEED
        TC      UPDATE
        CA      VEL
        EXTEND
        WRITE   11
        TCF     LOOP

UPDATE  EXTEND
        QXCH    RTRN
        CAF     ONE
        TS      PHASE
        CA      SPEED
        TS      TMP             # fault 2: DAP uses TMP as well
        EXTEND
        MP      TWO
        LXCH    TMP
        CA      TMP
        TS      VEL             # fault 3: DOWN may come between the two words
        CS      TMP
        TS      VEL +1
        CAF     ZERO
        TS      PHASE
        EXTEND
        QXCH    RTRN
        RETURN

OLDCODE CA      VEL             # fault 4: nothing leads here
        TCF     OLDCODE

DAP     CA      SPEED
        TS      TMP
        CA      TMP
        EXTEND
        WRITE   5
        DXCH    ARUPT
        RESUME

DOWN    EXTEND
        DCA     VEL
        EXTEND
        WRITE   34
        CA      L
        EXTEND
        WRITE   35
        DXCH    ARUPT
        RESUME

KEY     EXTEND
        READ    15
        TC      SHOW            # fault 5: Q is not kept
        DXCH    ARUPT
        RESUME

SHOW    TS      LAMP
        EXTEND
        WRITE   10
        RETURN

ZERO    OCT     0
ONE     OCT     1
TWO     OCT     2

# By hand: TCF 1, CAF 2, TS 2 and RELINT 1 cycles; then each turn of LOOP takes 43, and its
# output comes 42 cycles after its start: INCR 2, TC 1, EXTEND 1, QXCH 2, CAF 2, TS 2, CA 2,
# TS 2, EXTEND 1, MP 3, LXCH 2, CA 2, TS 2, CS 2, TS 2, CAF 2, TS 2, EXTEND 1, QXCH 2, RETURN
# 1 and the TC that Q holds 1, CA 2, EXTEND 1, WRITE 2, and TCF 1. SPEED is 1, 2, 3, 4, and
# VEL twice that: 2 at 48, 4 at 91, 6 at 134, 8 at 177, octal 10. The first interrupt comes
# after 200.
# The handlers, each with its entry, 3, DXCH 3 and TCF 1 before it, and DXCH 3 and RESUME 2 after
# it: DAP CA 2, TS 2, CA 2, EXTEND 1, WRITE 2, so 21; DOWN EXTEND 1, DCA 3, EXTEND 1, WRITE 2,
# CA 2, EXTEND 1, WRITE 2, so 24; KEY EXTEND 1, READ 2, TC 1, TS 2, EXTEND 1, WRITE 2, RETURN 1
# and TC 1, so 23. Interrupts are inhibited for 6 cycles from the start to RELINT.
