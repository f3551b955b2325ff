# Adds up a table while a clock ticks, and puts the sum out on channel 12. It
# puts out a wrong sum: the chapter on the debugger, in docs/MANUAL.md, finds why.

TIME3   EQUALS  26
T3RUPT  EQUALS  4014

        SETLOC  100
COUNT   ERASE
SUM     ERASE
TICKS   ERASE

        SETLOC  4000
        TCF     START

        SETLOC  T3RUPT          # a tick is counted
        CAF     ONE
        ADS     TICKS
        RESUME

        SETLOC  4100
START   CAF     SOON
        TS      TIME3
        RELINT
        CAF     FOUR
LOOP    TS      COUNT
        CA      SUM
        INDEX   COUNT
        AD      TABLE
        TS      SUM
        CCS     COUNT
        TCF     LOOP
        CA      SUM
        EXTEND
        WRITE   12
DONE    TCF     DONE

ONE     OCT     1
FOUR    OCT     4
SOON    OCT     37777           # one pulse before overflow
TABLE   DEC     10
        DEC     20
        DEC     30
        DEC     40
        DEC     -50

# What it puts out, by hand, for those who have found the cause: the pulse comes at 27,
# after INDEX, which bars interrupts until AD has been executed. So the tick comes
# between AD and TS: its CAF and ADS leave 1 in A, and TS stores that for -50 + 40 = -10.
# The sum is 1 + 30 + 20 + 10 = 61, octal 75. Without a tick it would come at cycle 1 + 7
# + 60 + 4 + 5 = 77; the pulse 1, the entry 3, CAF 2, ADS 2, RESUME 2 make it 87.
