"""Rows of `agcws words --symbols FILE --xref`, worked out by hand: which words of an image lead to the place of each name, and what they do there."""
from common import Case, agcws, write

SOURCE = """\
        SETLOC  100
SUM     ERASE
PAIR    ERASE   +1
        SETLOC  4000
START   CA      FIVE
        AD      SUM
        TS      SUM
        EXTEND
        DCA     PAIR
        DXCH    PAIR
        CCS     SUM
DONE    TCF     DONE
        INCR    SUM
FIVE    OCT     5
        EXTEND
        BZF     START
        EXTEND
        QXCH    SUM
CHAN    EQUALS  11
        EXTEND
        WRITE   CHAN
        BANK    5
SUB     TC      SUB
        XCH     SUM
        INDEX   PAIR
        MASK    FIVE
"""

# The number CHAN may be a channel, and has no rows. FIVE is read as TC 5, and 00000, which stands where no word does, counts for none.
WANTED = """\
# XREF 6
# E0,0100 SUM      DEFINED
# 02,4001 SUM      READ
# 02,4002 SUM      WRITE
# 02,4006 SUM      READ
# 02,4010 SUM      CHANGE
# 02,4015 SUM      CHANGE
# 05,2001 SUM      CHANGE
# E0,0101 PAIR     DEFINED
# 02,4004 PAIR     READ
# 02,4005 PAIR     CHANGE
# 05,2002 PAIR     READ
# 02,4000 START    DEFINED
# 02,4013 START    JUMP
# 02,4007 DONE     DEFINED
# 02,4007 DONE     JUMP
# 02,4011 FIVE     DEFINED
# 02,4000 FIVE     READ
# 05,2003 FIVE     READ
# 05,2000 SUB      DEFINED
# 05,2000 SUB      JUMP
"""


class Uses(Case):
    """The cross-reference of an image."""

    def made(self):
        source, image, names = (f"{self.room}/{it}" for it in ("uses.agc", "uses.rope", "uses.lst"))
        write(source, SOURCE.encode())
        status, listing, _ = agcws("asm", source, image)
        self.assertEqual(status, 0)
        write(names, listing)
        return image, names

    def test_whole(self):
        image, names = self.made()
        self.assertEqual(agcws("words", "--symbols", names, "--xref", image), (0, WANTED.encode(), b""))

    def test_bank(self):
        """Of one bank the words of that alone, below each name."""
        image, names = self.made()
        wanted = "".join(f"{row}\n" for row in WANTED.splitlines() if row.startswith(("# XREF", "# 05,")) or row.endswith("DEFINED"))
        self.assertEqual(agcws("words", "--symbols", names, "--xref", image, "5"), (0, wanted.encode(), b""))

    def test_asked(self):
        """It needs a table, and writes no source."""
        image, names = self.made()
        for words in (["--xref"], ["--xref", "--octal"], ["--xref", "--source", "--symbols", names]):
            with self.subTest(" ".join(words)):
                self.assertEqual(agcws("words", *words, image)[0], 2)

    def test_is_a_table(self):
        """All rows are comments, so that the whole may stand in a table."""
        image, names = self.made()
        rows = agcws("words", "--symbols", names, "--xref", image)[1]
        both = f"{self.room}/both.names"
        write(both, b"FIVE 02,4011\n" + rows)
        self.assertEqual(agcws("words", "--symbols", both, image, "5")[0], 0)
