# A loop in a switched bank of fixed memory over switched erasable memory, where real programs live.
# It puts nothing out.
EB       EQUALS   3
FB       EQUALS   4
         SETLOC   1400
COUNT    ERASE
SUM      ERASE

         SETLOC   4000
         CA       ERASABLE
         TS       EB
         CA       FAR
         TS       FB
         TCF      LOOP
ERASABLE OCT      2000
FAR      OCT      24000

         BANK     12
LOOP     CA       SUM
         AD       STEP
         TS       SUM
         TCF      NEXT
         CA       STEP
         TS       SUM
NEXT     INCR     COUNT
         CCS      COUNT
         TCF      LOOP
         TCF      LOOP
         TCF      LOOP
         TCF      LOOP
STEP     OCT      5
