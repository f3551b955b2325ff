# The sum of three numbers of double precision, on channels 11 and 12.
#
# A number of 28 bits stands in two words, the upper one first. DCA reads it to A
# and L; DAS adds A and L to it, with the carry from the lower words to the upper.

        SETLOC  100
SUM     ERASE   +1

        SETLOC  4000
        EXTEND
        DCA     FIRST
        DAS     SUM
        EXTEND
        DCA     SECOND          # 37777 and 1 make a carry
        DAS     SUM
        EXTEND
        DCA     THIRD
        DAS     SUM
        CA      SUM
        EXTEND
        WRITE   11
        CA      SUM +1
        EXTEND
        WRITE   12
DONE    TCF     DONE

FIRST   OCT     1
        OCT     37777
SECOND  OCT     2
        OCT     1
THIRD   OCT     0
        OCT     5

# By hand: the lower words 37777 and 1 make 40000, which is 0 and a carry; the upper
# words 1 and 2 and the carry make 4; the third number adds 5 to the lower word.
# EXTEND, DCA and DAS are 7, three times 21; CA, EXTEND, WRITE 5: 26, and 31.
