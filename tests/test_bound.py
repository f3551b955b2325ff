"""The most cycles of routines, counted by hand from the manual's table of cycles, and each cause why none is told."""
import unittest

from common import EXAMPLES, PROGRAM, Case, agcws, write

# Cycles: TC, TCF and EXTEND 1, and TC Q 2, its own and that of the TC in Q; BZF 1 where it jumps, else 2; DXCH 3; the others here 2.
SOURCE = """\
Q       EQUALS  2
EB      EQUALS  3
FB      EQUALS  4
Z       EQUALS  5
        SETLOC  100
COUNT   ERASE
OUTER   ERASE
KEPTQ   ERASE
        SETLOC  4000
        TCF     4000
# CA 2; a round of the loop is TS 2, CCS 2, TCF 1; the last ends with TS 2, CCS 2, TC Q 2
SHORT   CA      TEN
LOOP    TS      COUNT
        CCS     COUNT
        TCF     LOOP
        TC      Q
        TC      Q
        TC      Q
# EXTEND 1, QXCH 2, CA 2; a round is TS 2, TC 1 and SHORT, CCS 2, TCF 1; TC KEPTQ is 2, its own and that of the cell
LONG    EXTEND
        QXCH    KEPTQ
        CA      TEN
AGAIN   TS      OUTER
        TC      SHORT
        CCS     OUTER
        TCF     AGAIN
        TC      KEPTQ
        TC      KEPTQ
        TC      KEPTQ
# CA 2; a round of the outer loop is TS 2, CA 2, the inner loop, CCS 2, TCF 1; the inner ends with CCS 2, CA twice
NESTED  CA      TEN
OUT     TS      OUTER
        CA      TEN
IN      TS      COUNT
        CCS     COUNT
        TCF     IN
        CA      TEN
        CA      TEN
        CCS     OUTER
        TCF     OUT
        TC      Q
        TC      Q
        TC      Q
# EXTEND 1, BZF 2 where it does not jump, CA 2, TC Q 2; where it jumps 1, and 3 for DXCH, TC Q 2
FORK    EXTEND
        BZF     LATER
        CA      TEN
        TC      Q
LATER   DXCH    COUNT
        TC      Q
JUMPS   INDEX   COUNT
        TCF     LOOP
LEAVES  TCF     2100
STEERS  CA      TEN
        TS      Z
SELF    TC      OTHER
OTHER   TC      SELF
SERVES  RESUME
# each calls SKIPS, which returns to the word after next
SKIPS   INCR    Q
        TC      Q
LOST    TC      SKIPS
        NOOP
        TC      Q
# EXTEND 1, QXCH 2, TC 1 and LEAF, CA 2 and TC Q 2, EXTEND 1, QXCH 2, TC Q 2
SAVED   EXTEND
        QXCH    KEPTQ
        TC      LEAF
        EXTEND
        QXCH    KEPTQ
        TC      Q
LEAF    CA      TEN
        TC      Q
# CA 2, TS 2, TC 1 and LEAF 4, TC KEPTQ 2
COPIED  CA      Q
        TS      KEPTQ
        TC      LEAF
        TC      KEPTQ
# Q is given back from another cell
MIXED   EXTEND
        QXCH    KEPTQ
        TC      LEAF
        EXTEND
        QXCH    OUTER
        TC      Q
# Q is kept, and is not given back
TWICE   EXTEND
        QXCH    KEPTQ
        TC      Q
UNKEPT  TC      LEAF
        TC      Q
# FB is written where no bank counts: CA 2, TS 2, which may skip a word, TC Q 2
SWITCH  CA      TEN
        TS      FB
        TC      Q
        TC      Q
# without end, and no way leads on from it
SPINS   CCS     COUNT
        TCF     SPINS
        TCF     SPINS
        TCF     SPINS
        TCF     SPINS
# CA 2, and COUNT is changed by INCR in the loop, by DXCH of the word before it, and under INDEX by what no word tells
TOUCHED CA      TEN
TLOOP   TS      COUNT
        INCR    COUNT
        CCS     COUNT
        TCF     TLOOP
        TC      Q
        TC      Q
        TC      Q
PAIRED  CA      TEN
PLOOP   TS      OUTER
        DXCH    COUNT
        CCS     OUTER
        TCF     PLOOP
        TC      Q
        TC      Q
        TC      Q
TABLED  CA      TEN
XLOOP   TS      COUNT
        INDEX   COUNT
        TS      KEPTQ
        CCS     COUNT
        TCF     XLOOP
        TC      Q
        TC      Q
        TC      Q
# READ is no write: a round is TS 2, INDEX 2, CA 2, CCS 2, TCF 1; the last ends with TC Q 2 for TCF
SUMMED  CA      TEN
SLOOP   TS      COUNT
        INDEX   COUNT
        CA      TEN
        CCS     COUNT
        TCF     SLOOP
        TC      Q
        TC      Q
        TC      Q
# the loop is entered past the store too
JUMPED  EXTEND
        BZF     JENTRY
        CA      TEN
JLOOP   TS      COUNT
JENTRY  CCS     COUNT
        TCF     JLOOP
        TC      Q
        TC      Q
        TC      Q
# from a number that the program computes; and from one below 0
LOADED  CA      OUTER
LLOOP   TS      COUNT
        CCS     COUNT
        TCF     LLOOP
        TC      Q
        TC      Q
        TC      Q
BELOW   CA      MINUS
BLOOP   TS      COUNT
        CCS     COUNT
        TCF     BLOOP
        TC      Q
        TC      Q
        TC      Q
MINUS   DEC     -10
# a call stands in the loop
CALLING EXTEND
        QXCH    KEPTQ
        CA      TEN
CLOOP   TS      OUTER
        TC      LEAF
        CCS     OUTER
        TCF     CLOOP
        TC      KEPTQ
        TC      KEPTQ
        TC      KEPTQ
# TIME1 and a cell of the registers are written by the machine
TICKS   CA      TEN
TICK    TS      26
        CCS     26
        TCF     TICK
        TC      Q
        TC      Q
        TC      Q
# a cell of a switched bank: a write of EB, and of the same offset elsewhere
SWAPPED CA      TEN
WLOOP   TS      1500
        TS      EB
        NOOP
        CCS     1500
        TCF     WLOOP
        TC      Q
        TC      Q
        TC      Q
ALIASED CA      TEN
ALOOP   TS      1500
        INCR    COUNT
        CCS     1500
        TCF     ALOOP
        TC      Q
        TC      Q
        TC      Q
# a round is TS 2, CCS 2, TCF 1
BANKED1 CA      TEN
KLOOP   TS      1501
        CCS     1501
        TCF     KLOOP
        TC      Q
        TC      Q
        TC      Q
# as NESTED, with CA 2 more: TS OUTER, which may skip, skips to no head
APART   CA      TEN
ABOVE   TS      OUTER
        CA      TEN
        CA      TEN
INNER   TS      COUNT
        CCS     COUNT
        TCF     INNER
        CA      TEN
        CA      TEN
        CCS     OUTER
        TCF     ABOVE
        TC      Q
        TC      Q
        TC      Q
FIRST   TC      SECOND
        TC      Q
SECOND  EXTEND
        QXCH    KEPTQ
        TC      THIRD
        EXTEND
        QXCH    KEPTQ
        TC      Q
THIRD   TC      SECOND
        TC      Q
TEN     DEC     10
        BANK    5
BANKED  CA      TEN
        TS      FB
        TC      Q
INSIDE  TC      Q
# EXTEND 1, QXCH 2, TC 1 and INSIDE 2, EXTEND 1, QXCH 2, TC Q 2
CALLER  EXTEND
        QXCH    KEPTQ
        TC      INSIDE
        EXTEND
        QXCH    KEPTQ
        TC      Q
MOVED   EXTEND
        QXCH    KEPTQ
        TC      SWITCH
        EXTEND
        QXCH    KEPTQ
        TC      Q
"""

# A routine with its options, and the line.
BOUNDS = [
    ("SHORT", ["--loops", "LOOP 11"], "AT MOST 58 CYCLES"),  # 2 + 10 * 5 + 6
    ("SHORT", ["--loops", "LOOP 1"], "AT MOST 8 CYCLES"),  # 2 + 6
    ("02,4001", ["--loops", "LOOP 11"], "AT MOST 58 CYCLES"),
    ("LOOP", ["--loops", "02,4002 2"], "AT MOST 11 CYCLES"),  # 5 + 6
    ("LONG", ["--kept", "KEPTQ", "--loops", "LOOP 11 AGAIN 11"], "AT MOST 710 CYCLES"),  # 5 + 10 * 64 + 2 + 1 + 58 + 2 + 2
    ("LONG", ["--kept", "COUNT KEPTQ", "--loops", "AGAIN 11 LOOP 1"], "AT MOST 160 CYCLES"),  # 5 + 10 * 14 + 2 + 1 + 8 + 2 + 2
    # 2 + 11 * (2 + 2 + 4 + 2) + 10 + 2, and 121 times 4 in the inner loop, and 110 times its TCF
    ("NESTED", ["--loops", "OUT 11 IN 121"], "AT MOST 718 CYCLES"),
    ("FORK", [], "AT MOST 7 CYCLES"),  # 1 + 2 + 2 + 2, as 1 + 1 + 3 + 2
    ("CALLER", ["--kept", "KEPTQ"], "AT MOST 11 CYCLES"),  # 1 + 2 + 1 + 2 + 1 + 2 + 2
    ("SAVED", ["--kept", "KEPTQ"], "AT MOST 13 CYCLES"),  # 1 + 2 + 1 + 4 + 1 + 2 + 2
    ("SAVED", ["--kept", "COUNT KEPTQ"], "AT MOST 13 CYCLES"),
    ("COPIED", ["--kept", "KEPTQ"], "AT MOST 11 CYCLES"),  # 2 + 2 + 1 + 4 + 2
    ("UNKEPT", ["--kept", "2"], "AT MOST 7 CYCLES"),  # 1 + 4 + 2, where it is stated of Q
    ("SWITCH", [], "AT MOST 6 CYCLES"),
]

# A routine with its options, its cycles, and the loops that are counted: head, cell and constant. DEC 10 is entered, and so 11 rounds are made.
COUNTED = [
    ("SHORT", [], 58, ["02,4002 COUNTED BY CCS 0100 FROM 10"]),  # 2 + 10 * 5 + 6
    # 2 + 10 * (2 + 4 + 54 + 4 + 2 + 1) + 2 + 4 + 54 + 4 + 2 + 2, where INNER takes 10 * 5 + 4 in each round of ABOVE
    ("APART", [], 740, ["ABOVE COUNTED BY CCS 0101 FROM 10", "INNER COUNTED BY CCS 0100 FROM 10"]),
    ("APART", ["--loops", "ABOVE 11"], 740, ["INNER COUNTED BY CCS 0100 FROM 10"]),
    ("APART", ["--loops", "INNER 121"], 740, ["ABOVE COUNTED BY CCS 0101 FROM 10"]),
    ("NESTED", ["--loops", "IN 121"], 718, ["OUT COUNTED BY CCS 0101 FROM 10"]),
    ("SUMMED", [], 102, ["SLOOP COUNTED BY CCS 0100 FROM 10"]),  # 2 + 10 * 9 + 8 + 2
    ("BANKED1", [], 58, ["KLOOP COUNTED BY CCS 1501 FROM 10"]),
    # of the loop AGAIN the number is stated, since it calls
    ("LONG", ["--kept", "KEPTQ", "--loops", "AGAIN 11"], 710, ["02,4002 COUNTED BY CCS 0100 FROM 10"]),
]

REFUSED = [
    ("LOOP", [], "NO BOUND: 02,4002 IS IN A LOOP WITHOUT A BOUND"),
    ("LONG", ["--kept", "KEPTQ"], "IS IN A LOOP WITHOUT A BOUND"),
    # TS OUTER may skip CA, and then enters the inner loop from elsewhere than the word before it
    ("NESTED", [], "IS IN A LOOP WITHOUT A BOUND"),
    ("NESTED", ["--loops", "OUT 11"], "IS IN A LOOP WITHOUT A BOUND"),
    ("TOUCHED", [], "IS IN A LOOP WITHOUT A BOUND"),
    ("PAIRED", [], "IS IN A LOOP WITHOUT A BOUND"),
    ("TABLED", [], "IS IN A LOOP WITHOUT A BOUND"),
    ("JUMPED", [], "IS IN A LOOP WITHOUT A BOUND"),
    ("LOADED", [], "IS IN A LOOP WITHOUT A BOUND"),
    ("BELOW", [], "IS IN A LOOP WITHOUT A BOUND"),
    ("CALLING", ["--kept", "KEPTQ"], "IS IN A LOOP WITHOUT A BOUND"),
    ("TICKS", [], "IS IN A LOOP WITHOUT A BOUND"),
    ("SWAPPED", [], "IS IN A LOOP WITHOUT A BOUND"),
    ("ALIASED", [], "IS IN A LOOP WITHOUT A BOUND"),
    ("LONG", ["--loops", "LOOP 11 AGAIN 11"], "LEADS TO NO KNOWN WORD"),
    ("LONG", ["--kept", "KEPTQ", "--loops", "LOOP 11"], "IS IN A LOOP WITHOUT A BOUND"),
    ("JUMPS", ["--loops", "LOOP 11"], "JUMPS UNDER INDEX"),
    ("LEAVES", [], "LEADS TO NO KNOWN WORD"),
    ("STEERS", [], "WRITES Z OR ITS OWN BANK"),
    ("SELF", [], "CALLS A ROUTINE IN PROGRESS"),
    ("FIRST", ["--kept", "KEPTQ"], "CALLS A ROUTINE IN PROGRESS"),
    ("SPINS", [], "IS IN A LOOP WITHOUT A BOUND"),
    ("SKIPS", [], "RETURNS BY Q, WHICH WAS CHANGED"),
    ("LOST", [], "RETURNS BY Q, WHICH WAS CHANGED"),
    ("SAVED", [], "RETURNS BY Q, WHICH WAS CHANGED"),
    ("SAVED", ["--kept", "COUNT"], "RETURNS BY Q, WHICH WAS CHANGED"),
    ("MIXED", ["--kept", "KEPTQ"], "RETURNS BY Q, WHICH WAS CHANGED"),
    ("TWICE", ["--kept", "KEPTQ"], "RETURNS BY Q, WHICH WAS CHANGED"),
    ("UNKEPT", [], "RETURNS BY Q, WHICH WAS CHANGED"),
    ("MOVED", ["--kept", "KEPTQ"], "WRITES Z OR ITS OWN BANK"),
    ("SERVES", [], "RESUMES"),
    ("BANKED", [], "WRITES Z OR ITS OWN BANK"),
]

NONE = [("NOWHERE", []), ("COUNT", []), ("SHORT", ["--loops", "LOOP"]), ("SHORT", ["--loops", "COUNT 3"]), ("SHORT", ["--loops", "LOOP X"]), ("SHORT", ["--kept", "LOOP"])]


# Instructions that write Q, and others; L is 1, and channel 2 is Q. The machine tells which write it.
TOUCHING = ["TS Q", "XCH Q", "LXCH Q", "INCR Q", "ADS Q", "DXCH L", "DXCH Q", "DAS L", "DAS Q", "CA Q", "CS Q", "AD Q", "MASK Q", "DXCH COUNT", "LXCH COUNT", "TS COUNT", "INCR COUNT"]
TOUCHING_EXTRA = ["AUG Q", "DIM Q", "QXCH COUNT", "QXCH L", "WRITE 2", "WAND 2", "WOR 2", "READ 2", "RAND 2", "ROR 2", "RXOR 2", "WRITE 11", "SU Q", "MSU Q", "DCA L", "MP Q", "DV COUNT"]


def touching_source(instruction, is_extra):
    extend = "        EXTEND\n" if is_extra else ""
    return f"Q       EQUALS  2\nL       EQUALS  1\n        SETLOC  100\nCOUNT   ERASE\n        SETLOC  4000\n        TC      SUB\nSUB     CA      MANY\n{extend}TOUCH   {instruction}\n        TC      Q\n        TC      Q\nMANY    OCT     05251\n"


class Bound(Case):
    """The most cycles of routines."""

    def setUp(self):
        super().setUp()
        self.source = write(f"{self.room}/bound.agc", SOURCE.encode())

    def test_bounds(self):
        for routine, options, line in BOUNDS:
            with self.subTest(f"{routine} {options}"):
                self.assertAnswer(agcws("bound", *options, self.source, routine), 0, f"{line}\n".encode())

    def test_counted_loops(self):
        """Loops that are counted by CCS, in the order of their last words."""
        listing = agcws("asm", self.source, f"{self.room}/bound.rope")[1].decode()
        places = {row.split()[3]: row.split()[1] for row in listing.splitlines() if len(row.split()) > 4 and row.split()[1].startswith("02,")}
        for routine, options, cycles, loops in COUNTED:
            rows = [f"{places.get(row.split()[0], row.split()[0])} {row.split(' ', 1)[1]}" for row in loops]
            status, out, err = agcws("bound", *options, self.source, routine)
            with self.subTest(f"{routine} {options}"):
                self.assertEqual((status, err), (0, b""))
                lines = out.decode().splitlines()
                self.assertEqual((lines[0], sorted(lines[1:])), (f"AT MOST {cycles} CYCLES", sorted(rows)))

    def test_causes(self):
        for routine, options, line in REFUSED:
            status, out, err = agcws("bound", *options, self.source, routine)
            with self.subTest(f"{routine} {options}"):
                self.assertEqual((status, err), (1, b""))
                self.assertTrue(out.decode().startswith("NO BOUND: ") and out.decode().endswith(f"{line}\n"), out)

    def test_what_writes_q(self):
        """TC Q is a return unless the instruction before it writes Q, which a trace of the machine tells."""
        nothing = write(f"{self.room}/nothing.feed", b"")
        for instruction in TOUCHING + TOUCHING_EXTRA:
            is_extra = instruction in TOUCHING_EXTRA
            source = write(f"{self.room}/touching.agc", touching_source(instruction, is_extra).encode())
            rows = agcws("trace", source, nothing, "4" if is_extra else "3")[1].decode().splitlines()
            writes = " Q=" in rows[-1]
            with self.subTest(f"{instruction} {rows[-1]}"):
                status, out, _err = agcws("bound", source, "SUB")
                self.assertEqual((status, out.endswith(b" RETURNS BY Q, WHICH WAS CHANGED\n")), (1, True) if writes else (0, False), out)

    def test_a_traced_call(self):
        """A call of a routine takes as many cycles in a run as its bound. TS may skip the EXTEND of QXCH RTRN, and so Q is stated to hold the way back."""
        source, nothing = f"{EXAMPLES}/audited.agc", write(f"{self.room}/nothing.feed", b"")
        rows = [row.split() for row in agcws("trace", source, nothing, "40")[1].decode().splitlines()]
        places = [row[2] for row in rows]
        called, returned = rows[places.index("02,4104")], rows[places.index("02,4105") - 1]
        self.assertAnswer(agcws("bound", "--kept", "2", source, "UPDATE"), 0, f"AT MOST {int(returned[1]) - int(called[1])} CYCLES\n".encode())

    def test_images(self):
        """An image with the names of its listing, and without."""
        rope, table = f"{self.room}/bound.rope", f"{self.room}/bound.lst"
        listing = agcws("asm", self.source, rope)[1]
        write(table, listing)
        for options, routine, loop in ((["--symbols", table], "SHORT", "LOOP 11"), ([], "02,4001", "02,4002 11")):
            with self.subTest(f"an image {options}"):
                self.assertAnswer(agcws("bound", "--image", *options, "--loops", loop, rope, routine), 0, b"AT MOST 58 CYCLES\n")

    def test_what_is_none(self):
        for routine, options in NONE:
            status, out, err = agcws("bound", *options, self.source, routine)
            with self.subTest(f"{routine} {options}"):
                self.assertEqual((status, out), (2, b""))
                self.assertTrue(err.startswith(b"error: ROUTINE or a place of --loops"), err)


if __name__ == "__main__":
    unittest.main()
