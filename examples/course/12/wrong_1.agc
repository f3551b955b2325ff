# Lesson 12: a solution with a mistake in it.
ARUPT   EQUALS  10
KEYRUPT1 EQUALS 4024
        SETLOC  100
DIGIT   ERASE

        SETLOC  4000
        RELINT
IDLE    TCF     IDLE

        SETLOC  KEYRUPT1
        DXCH    ARUPT           # A and L are kept
        TCF     KEY

        SETLOC  4100
KEY     EXTEND
        READ    15
        TS      DIGIT           # 1 to 9, or 20 for the key 0
        AD      NOTZERO
        EXTEND
        BZF     ZERO
        INDEX   DIGIT
        CA      RELAYS
        TCF     SHOW
ZERO    CA      RELAYS
SHOW    AD      NOUN
        EXTEND
        WRITE   10
        DXCH    ARUPT           # A and L are as they were
        RESUME

NOTZERO DEC     -16             # 20, its sign turned
NOUN    OCT     44000           # row 9
RELAYS  OCT     25              # 0
        OCT     03
        OCT     31
        OCT     33
        OCT     17
        OCT     36
        OCT     34
        OCT     27
        OCT     35
        OCT     37              # 9
