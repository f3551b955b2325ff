# Every operator of the source language once, with the words that it makes:
# the operator's least code (docs/MANUAL.md, section 4) and its operand's address.
# It is not to be run: each line is compared with the words in its comment.

X       EQUALS  100             # a number
Y       =       X +2            # one more, 102
        SETLOC  100             # an erasable place: E0,0100
CELL    ERASE   +1              # two words from here on
        EBANK=  2000            # erasable bank 4, for 2CADR: 2000 is 4 times 400

        BLOCK   2               # after the last word of bank 2: its beginning
HERE    OCT     12345           # 12345: the digits themselves
        DEC     100             # 00144: 64 + 32 + 4: 144
        ADRES   FAR             # 02000: bank 43 is reached at 2000
        ECADR   CELL            # 00100: 100
        CADR    FAR             # 66000: 43 less 10 is 33: 33 times 2000
        FCADR   HERE            # 04000: 2 times 2000
        2CADR   FAR             # 02000 66104: then 66000, 100 for the superbank, and 4

# instructions: code and address
        TC      HERE            # 04000: 00000 + 4000
        TCR     HERE            # 04000: the same
        CCS     CELL            # 10100: 10000 + 100
        TCF     HERE            # 14000: 10000 + 4000
        DAS     CELL            # 20101: 20000 + 101, the address plus one
        LXCH    CELL            # 22100: 22000 + 100
        INCR    CELL            # 24100: 24000 + 100
        ADS     CELL            # 26100: 26000 + 100
        CA      X               # 30100: 30000 + 100
        CAE     Y               # 30102: 30000 + 102, below 2000
        CAF     HERE            # 34000: 30000 + 4000, from 2000 on
        CS      HERE            # 44000: 40000 + 4000
        INDEX   CELL            # 50100: 50000 + 100
        NDX     CELL            # 50100: the same
        DXCH    CELL            # 52101: 52000 + 101, the address plus one
        TS      CELL            # 54100: 54000 + 100
        XCH     CELL            # 56100: 56000 + 100
        AD      HERE            # 64000: 60000 + 4000
        MASK    HERE            # 74000: 70000 + 4000
        MSK     HERE            # 74000: the same

# without operand
        RELINT                  # 00003
        INHINT                  # 00004
        RESUME                  # 50017: INDEX 17
        XXALQ                   # 00000: TC of A
        XLQ                     # 00001: TC of L
        RETURN                  # 00002: TC of Q
        DDOUBL                  # 20001: DAS of A
        ZL                      # 22007: LXCH of place 7, which is zero
        COM                     # 40000: CS of A
        DTCF                    # 52005: DXCH of FB and Z: 52000 + 4 + 1
        DTCB                    # 52006: DXCH of Z and BB: 52000 + 5 + 1
        OVSK                    # 54000: TS of A
        TCAA                    # 54005: TS of Z
        DOUBLE                  # 60000: AD of A
        NOOP                    # 14053: TCF to the next place

# extracodes, each after EXTEND
        EXTEND                  # 00006: 6 for all of them
        READ    10              # 00010: 00000 + 10, a channel
        EXTEND                  # 00006
        WRITE   10              # 01010: 01000 + 10
        EXTEND                  # 00006
        RAND    11              # 02011: 02000 + 11
        EXTEND                  # 00006
        WAND    11              # 03011: 03000 + 11
        EXTEND                  # 00006
        ROR     11              # 04011: 04000 + 11
        EXTEND                  # 00006
        WOR     11              # 05011: 05000 + 11
        EXTEND                  # 00006
        RXOR    11              # 06011: 06000 + 11
        EXTEND                  # 00006
        DV      CELL            # 10100: 10000 + 100
        EXTEND                  # 00006
        BZF     HERE            # 14000: 10000 + 4000
        EXTEND                  # 00006
        MSU     CELL            # 20100: 20000 + 100
        EXTEND                  # 00006
        QXCH    CELL            # 22100: 22000 + 100
        EXTEND                  # 00006
        AUG     CELL            # 24100: 24000 + 100
        EXTEND                  # 00006
        DIM     CELL            # 26100: 26000 + 100
        EXTEND                  # 00006
        DCA     HERE            # 34001: 30000 + 4001, the address plus one
        EXTEND                  # 00006
        DCS     HERE            # 44001: 40000 + 4001, the address plus one
        EXTEND                  # 00006
        SU      CELL            # 60100: 60000 + 100
        EXTEND                  # 00006
        BZMF    HERE            # 64000: 60000 + 4000
        EXTEND                  # 00006
        MP      HERE            # 74000: 70000 + 4000
        EXTEND                  # 00006
        ZQ                      # 22007: QXCH of place 7, which is zero
        EXTEND                  # 00006
        DCOM                    # 40001: DCS of A: 40000 + 0 + 1
        EXTEND                  # 00006
        SQUARE                  # 70000: MP of A

        BANK    43              # a switched bank: its address is 2000 and on
FAR     TCF     FAR             # 12000: 10000 + 2000
