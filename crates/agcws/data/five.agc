        SETLOC 4000
        CA FIVE
        AD FIVE
        EXTEND
        WRITE 10
        TCF 4000
FIVE    OCT 5
