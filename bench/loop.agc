# The loop whose steps are measured: CA, AD, TS, INCR, CCS and TCF, without output.
SUM      EQUALS   100
COUNT    EQUALS   101
         SETLOC   4000
LOOP     CA       ONE
         AD       SUM
         TS       SUM
         INCR     COUNT
         CCS      COUNT
         TCF      LOOP
         TCF      LOOP
         TCF      LOOP
         TCF      LOOP
ONE      OCT      1
