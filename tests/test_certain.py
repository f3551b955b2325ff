"""Tests of `agcws compare --only --flight`, which tells the words of uncertain forms apart, on a source with each kind of form, beside expected lines by hand."""
import re
import unittest

from common import Case, agcws, read, write

SOURCE = """        SETLOC  1400
X       ERASE
        SETLOC  2000
-Y      ERASE
        SETLOC  4000
START   CA      TEN
        EBANK=  X
        2CADR   FAR
        2CADR   FAR     # the EBANK= is used up
        EBANK=  -Y
        2CADR   HIGH
 +1     GENADR  FAR     # sign and digits are passed over
TEN     OCT     12
        OCT     -20000
        2DEC    1.5 B-4
        DEC     5
        VN      0616
        TC      12000
        CA      -Y
        BBCON   FAR     # by the EBANK= of an earlier 2CADR
        BANK    4
FAR     TC      START
        BANK    31
HIGH    TC      START
"""
# Words of bank 2 that are others in the dump, by their offsets.
CHANGED = {0o0: 0o34001, 0o1: 0o02001, 0o4: 0o10000, 0o6: 0o62064, 0o12: 0o03001, 0o14: 0o00006, 0o16: 0o02001}
# 1.5 times 2 ^ -4 is 03000 00000 in 28 bits; HIGH stands in bank 031, and -Y in E4.
DIFFERENCES = """02,4000 34010 34001 CA 4010, CA 4001
02,4001 02000 02001 TC 2000, TC 2001
02,4004 10003 10000 CCS 0003, CCS 0000 UNCERTAIN EBANK=
02,4006 62004 62064 AD 2004, AD 2064 UNCERTAIN 2CADR
02,4012 03000 03001 TC 3000, TC 3001 UNCERTAIN 2DEC
02,4014 00005 00006 TC 0005, EXTEND
02,4016 02000 02001 TC 2000, TC 2001 UNCERTAIN 10000
COUNT 7
UNCERTAIN 4 OF 10
FORM 2CADR CONFIRMED 0 DENIED 1
FORM EBANK= CONFIRMED 1 DENIED 1
FORM GENADR CONFIRMED 1 DENIED 0
FORM OCT CONFIRMED 1 DENIED 0
FORM 2DEC CONFIRMED 1 DENIED 1
FORM 10000 CONFIRMED 0 DENIED 1
FORM VN CONFIRMED 1 DENIED 0
FORM -NAME CONFIRMED 1 DENIED 0
"""
NONE = """COUNT 0
UNCERTAIN 0 OF 10
FORM 2CADR CONFIRMED 1 DENIED 0
FORM EBANK= CONFIRMED 2 DENIED 0
FORM GENADR CONFIRMED 1 DENIED 0
FORM OCT CONFIRMED 1 DENIED 0
FORM 2DEC CONFIRMED 2 DENIED 0
FORM 10000 CONFIRMED 1 DENIED 0
FORM VN CONFIRMED 1 DENIED 0
FORM -NAME CONFIRMED 1 DENIED 0
"""
# One line of each form that SOURCE has not, and what follows COUNT: 2CADR of bank 040 is certain, 2DEC above it is not.
OTHERS = """        SETLOC  1400
X       ERASE
        SETLOC  4000
        REMADR  FAR
        3DNADR  X
        DNCHAN  34
        -CADR   FAR
        -GENADR X
        -3DNADR X
        OCTAL   12
        2OCT    0000100002
        DEC     5 B-4
        2CADR   HIGHER
        EBANK=  X
        -2CADR  FAR
        -2CADR  FAR
        ADRES   X
        BBCON   FAR
        BANK    4
FAR     OCT     0
        BANK    40
HIGHER  OCT     0
"""
OF_OTHERS = """COUNT 0
UNCERTAIN 0 OF 15
FORM EBANK= CONFIRMED 2 DENIED 0
FORM GENADR CONFIRMED 1 DENIED 0
FORM 1DNADR CONFIRMED 2 DENIED 0
FORM -CADR CONFIRMED 6 DENIED 0
FORM OCTAL CONFIRMED 3 DENIED 0
FORM 2DEC CONFIRMED 1 DENIED 0
"""
# Nothing is uncertain here: the first EBANK= is that of the only 2CADR.
CERTAIN = " SETLOC 1400\nX ERASE\n SETLOC 4000\n EBANK= X\n 2CADR FAR\n DEC 5\n OCT 77\n TC +1\nFAR CA X +1\n"


class Certain(Case):
    """A flight source beside a dump."""

    def image_of(self, source, changed):
        """Writes a source, and its image with some words of bank 2 changed; answers both paths."""
        path, rope = write(f"{self.room}/source.agc", source.encode()), f"{self.room}/dump.rope"
        self.assertEqual(agcws("asm", "--flight", path, rope)[0], 0)
        image = bytearray(read(rope))
        for offset, word in changed.items():
            image[2 * offset : 2 * offset + 2] = (2 * word + (bin(word).count("1") + 1) % 2).to_bytes(2, "big")
        return path, write(rope, bytes(image))

    def test_certain(self):
        """A remark stands where a word of an uncertain form differs, and what the rope says of each form at the end."""
        for name, source, changed, wanted in (
            ("certain and uncertain words differ", SOURCE, CHANGED, DIFFERENCES),
            ("no word differs", SOURCE, {}, NONE),
            ("the other forms", OTHERS, {}, OF_OTHERS),
            ("nothing is uncertain", CERTAIN, {}, "COUNT 0\n"),
            ("nothing is uncertain, a word differs", CERTAIN, {0o2: 0o00006}, "02,4002 00005 00006 TC 0005, EXTEND\nCOUNT 1\n"),
        ):
            with self.subTest(name):
                self.assertAnswer(agcws("compare", "--only", "--flight", *self.image_of(source, changed)), bool(changed), wanted.encode())

    def test_banks(self):
        """With --banks an account of each bank follows: of 17 places of bank 2 seven are certain, of which the dump has four."""
        for name, source, changed, wanted in (
            ("certain and uncertain words differ", SOURCE, CHANGED, DIFFERENCES + "BANK 02 CERTAIN 7 EQUAL 4 UNCERTAIN 10 HOLES 0\nBANK 04 CERTAIN 1 EQUAL 1 HOLES 0\nBANK 31 CERTAIN 1 EQUAL 1 HOLES 0\n"),
            ("nothing is uncertain, a word differs", CERTAIN, {0o2: 0o00006}, "02,4002 00005 00006 TC 0005, EXTEND\nCOUNT 1\nBANK 02 CERTAIN 6 EQUAL 5 HOLES 0\n"),
        ):
            with self.subTest(name):
                self.assertAnswer(agcws("compare", "--only", "--flight", "--banks", *self.image_of(source, changed)), 1, wanted.encode())
        for options in (("--only", "--banks"), ("--only", "--holes"), ("--banks",)):
            with self.subTest(" ".join(options)):
                self.assertEqual(agcws("compare", *options, *self.image_of(CERTAIN, {}))[:2], (2, b""))

    def test_warned(self):
        """W17 of `check` stands on the lines of those words that are uncertain by 2CADR or EBANK=, and on no other."""
        for name, source in (("SOURCE", SOURCE), ("OTHERS", OTHERS), ("CERTAIN", CERTAIN)):
            path, rope = self.image_of(source, {})
            lines = {row[6:13]: int(row[:5]) for row in agcws("asm", "--flight", path, f"{self.room}/again.rope")[1].decode().split("\n") if row[5:6] == " " and row[8:9] == ","}
            path, rope = self.image_of(source, {offset: 0o07070 for offset in range(0o100)})
            told = agcws("compare", "--only", "--flight", path, rope)[1].decode().split("\n")
            wanted = sorted({lines[row[:7]] for row in told if row.endswith((" UNCERTAIN 2CADR", " UNCERTAIN EBANK="))})
            found = re.findall(r"^[^ ]*:(\d+):\d+: warning W17: ", agcws("check", "--flight", path)[1].decode(), re.M)
            with self.subTest(name):
                self.assertEqual([int(it) for it in found], wanted)
                self.assertEqual(bool(wanted), name != "CERTAIN")

    def test_standard(self):
        """Without --flight no word has a remark."""
        standard = " SETLOC 4000\n DEC .25\n 2CADR FAR\nFAR ADRES FAR\n"
        self.assertAnswer(agcws("compare", "--only", *self.image_of(standard, {0: 0o10001})), 1, b"02,4000 10000 10001 CCS 0000, CCS 0001\nCOUNT 1\n")

    def test_refused(self):
        """A source and an image that are refused leave nothing written."""
        source, rope = self.image_of(CERTAIN, {})
        wrong = write(f"{self.room}/wrong.agc", b" FROB\n")
        for words in ((wrong, rope), (source, source)):
            with self.subTest(f"{words}"):
                self.assertEqual(agcws("compare", "--only", "--flight", *words)[:2], (1, b""))


if __name__ == "__main__":
    unittest.main()
