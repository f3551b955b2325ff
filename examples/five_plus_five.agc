# Adds five to five, writes the sum to channel 010, and begins again.
 SETLOC 4000
 CA FIVE            # A := 5
 AD FIVE            # A := 10
 EXTEND             # the next code is an extracode
 WRITE 10           # channel 010 := A
 TCF 4000           # again
FIVE OCT 5

# By hand: CA 2 cycles, AD 4, EXTEND 5, WRITE 7. Ten is octal 12.
