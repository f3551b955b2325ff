# The names of the registers, the counters and the interrupts' vectors, as flight
# programs have them. An assembler knows no name beforehand: paste the lines
# that a program needs into it, above their first use.

# registers
A       EQUALS  0
L       EQUALS  1
Q       EQUALS  2
EBANK   EQUALS  3               # EB in the manual
FBANK   EQUALS  4               # FB
Z       EQUALS  5
BBANK   EQUALS  6               # BB
ZERO    EQUALS  7               # always +0

# what a program keeps while it serves an interrupt, and what the machine keeps
ARUPT   EQUALS  10
LRUPT   EQUALS  11
QRUPT   EQUALS  12
ZRUPT   EQUALS  15
BBRUPT  EQUALS  16
BRUPT   EQUALS  17

# what is stored here is edited
CYR     EQUALS  20
SR      EQUALS  21
CYL     EQUALS  22
EDOP    EQUALS  23

# counters
TIME2   EQUALS  24
TIME1   EQUALS  25
TIME3   EQUALS  26
TIME4   EQUALS  27
TIME5   EQUALS  30
TIME6   EQUALS  31
CDUX    EQUALS  32
CDUY    EQUALS  33
CDUZ    EQUALS  34
OPTY    EQUALS  35
OPTX    EQUALS  36
PIPAX   EQUALS  37
PIPAY   EQUALS  40
PIPAZ   EQUALS  41
INLINK  EQUALS  45

# where interrupts enter: four words each
T6RUPT  EQUALS  4004
T5RUPT  EQUALS  4010
T3RUPT  EQUALS  4014
T4RUPT  EQUALS  4020
KEYRUPT1 EQUALS 4024
KEYRUPT2 EQUALS 4030
UPRUPT  EQUALS  4034
DOWNRUPT EQUALS 4040
RADARUPT EQUALS 4044
RUPT10  EQUALS  4050
