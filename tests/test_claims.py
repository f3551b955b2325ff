"""Tries claims of the manual of which no law speaks: forms of flight programs, constants with scales, the order of errors, breakpoints read again, and what a bank's sum does not show."""
import random
import re
import subprocess
import unittest
from fractions import Fraction

from common import IMAGE_BYTES, PROGRAM, Case, write

# Forms of flight programs, a semicolon between two lines, and the number by which each is refused without --flight.
FORMS = [
    ("+3 OCT 1", 13), (" +3 OCT 1", 15), ("+8D OCT 1", 13), ("-PHASE1 EQUALS 100; AD -PHASE1", 13), ("1/X EQUALS +X/2;+X/2 EQUALS 5", 16), (" AD -PHASE1;-PHASE1 EQUALS 5", 16),
    (" TC 10000", 26), (" CADR 12005", 26), (" SETLOC 20000; OCT 1", 26), ("X EQUALS", 16), ("X =", 16), ("X EQUALS Y +1;Y EQUALS 5", 18), (" BANK", 16), (" BLOCK", 16),
    (" COUNT 5", 15), (" COUNT* X", 15), (" BNKSUM 05", 15), (" SUBRO X", 15), (" MEMORY X", 15), (" OCT -20000", 16), (" OCTAL 5", 15), (" 2OCT 1234567012", 15), (" VN 0633", 15),
    (" DEC 1.0 E4 B-14", 16), (" 2DEC .57735027", 15), (" 2DEC 1738090 B-29", 15), (" 2DEC 60000", 15), (" 2DEC* 1.5 B-2*", 15), (" DEC* -1 B-14*", 15), (" CHECK= X", 15), (" CAF 0", 25), (" CA 0 -1", 26), ("X GENADR X", 15), ("X REMADR X", 15), *((f" {n}DNADR 100", 15) for n in range(1, 7)), (" DNCHAN 30", 15),
    ("X -CADR X", 15), ("X -GENADR X", 15), (" -CCS 100", 15), (" -DNCHAN 30", 15), *((f" -{n}DNADR 100", 15) for n in range(1, 7)), ("X -2CADR X", 15), ("X BBCON X", 15), (" OCT 1 # " + 120 * "x", 11), ("\n" * 65536, 12),
]
# Words of a bank, and their sum by hand: a sign turned, and two words exchanged, may make it 37777 more or less; 77777 for 00000 leaves it.
SUMS = [
    ([1, 1], 2), ([0o40001, 1], 0o40002), ([0o30000, 0o7777, 3], 3), ([0o70000, 0o7777, 3], 3), ([0o37777, 1, 0o40000], 0o40001), ([0o37777, 0o40000, 1], 1), ([0, 2], 2), ([0o77777, 2], 2),
]
# Fields of lines with many faults: labels, operators, operands and what stands after these.
LABELS = ["", "X", "X", "Y", "4000", "A$B", "LONGLABEL", "+3", "-Q", "12D"]
OPERATORS = "CA TS FROB OCT DEC SETLOC BANK BLOCK EQUALS ERASE EXTEND READ WRITE CADR ECADR EBANK= 2CADR MP INDEX TCF CCS COUNT* 2DEC -CADR".split()
OPERANDS = ["", "X", "Y", "NOSUCH", "18", "4000", "100", "99999", "77777 +1", "-2", "+1", "X +5000", "\x01", "3", "7", ".5", "1.5 E2"]
ENDS = ["", "", " # \xdc", " # it"]


def constant(draw):
    """A constant with scales, and its words: the whole number nearest to its value, halves away from zero, or None where it is greater than they hold."""
    bits, sign = draw.choice((14, 28)), draw.choice(("", "+", "-"))
    whole, decimals = str(draw.randrange(10 ** draw.randrange(6))), "".join(draw.choice("0123456789") for _ in range(draw.randrange(1, 6)))
    ten, two = draw.choice([None, *range(-6, 6)]), draw.choice([None, *range(-40, 15)])
    value = Fraction(int(whole + decimals), 10 ** len(decimals)) * Fraction(10) ** (ten or 0) * Fraction(2) ** ((two or 0) + bits)
    number = (2 * value.numerator + value.denominator) // (2 * value.denominator)
    text = f" {'DEC' if bits == 14 else '2DEC'} {sign}{whole}.{decimals}" + ("" if ten is None else f" E{ten}") + ("" if two is None else f" B{two}")
    words = [number] if bits == 14 else [number >> 14, number & 0o37777]
    return text, [32767 - it if sign == "-" else it for it in words] if number < 1 << bits else None


class Claims(Case):
    """Claims of the manual, by forms, constants, orders, breakpoints and sums."""

    def setUp(self):
        super().setUp()
        self.source, self.empty = f"{self.room}/claim.agc", f"{self.room}/claim.feed"
        write(self.empty, b"")

    def call(self, *words, commands=""):
        ran = subprocess.run([PROGRAM, *words], input=commands.encode(), capture_output=True, timeout=300)
        return ran.returncode, ran.stdout.decode(), ran.stderr.decode()

    def asm(self, text, *options):
        write(self.source, text.encode())
        return self.call("asm", *options, self.source, "/dev/null")

    def test_forms(self):
        for form, number in FORMS:
            text = form.replace(";", "\n") + "\n"
            refused, taken = self.asm(text), self.asm(text, "--flight")
            with self.subTest(f"the form {form[:40].strip()}"):
                self.assertTrue(refused[0] == 1 and refused[2].startswith(f"agcws: E{number} ") and taken[0] == 0, f"{refused} {taken[2]}")

    def test_scales(self):
        for seed in range(4):
            draw = random.Random(seed)
            made = [it for it in (constant(draw) for _ in range(1500)) if it[1]][:400]
            status, listing, err = self.asm("".join(f"{text}\n" for text, _ in made), "--flight")
            got = [int(line.split(",")[1].split()[1], 8) for line in listing.splitlines() if "," in line]
            with self.subTest(f"{len(made)} constants with scales, {seed}"):
                self.assertEqual((status, got), (0, [word for _, words in made for word in words]), err)
            for text, _ in [it for it in (constant(draw) for _ in range(200)) if not it[1]][:5]:
                refused = self.asm(f"{text}\n", "--flight")
                with self.subTest(f"the constant {text}"):
                    self.assertTrue(refused[0] == 1 and refused[2] == "agcws: E26 LINE 1\n", f"{refused}")

    def test_order(self):
        """What is told of a source stands in the order of lines and columns, past the longest line too."""
        for seed in range(100):
            draw = random.Random(seed)
            lines = [draw.choice(LABELS) + " " * draw.choice((1, 1, 8, 60, 115, 119, 121)) + draw.choice(OPERATORS) + " " * draw.choice((1, 2, 30, 110)) + draw.choice(OPERANDS) + draw.choice(ENDS) for _ in range(8)]
            write(self.source, "".join(f"{it}\n" for it in lines).encode("latin-1"))
            for options in ((), ("--flight",)):
                ran = subprocess.run([PROGRAM, "check", *options, self.source], capture_output=True, timeout=300)
                found = [(int(line), int(column)) for line, column in re.findall(rf"^{re.escape(self.source)}:(\d+):(\d+): error".encode(), ran.stdout, re.M)]
                with self.subTest(f"the order of errors, {seed} {options}"):
                    self.assertTrue(len(found) > 0 and found == sorted(found), f"{found}")

    def test_breaks(self):
        write(self.source, b" SETLOC 100\nSUM ERASE\n SETLOC 4000\nSTART CA FIVE\n TS SUM\n TCF START\nFIVE OCT 5\n")
        erasable = ["SUM", "7", "E3,1400", "E7,1777"]
        for seed in range(8):
            draw = random.Random(seed)
            asked = [
                *(f"break {kind} {it}" for kind in ("at", "exec") for it in ("START", "FIVE", "START +1", "SUM", "7", "E3,1400", "04,2001", "43,3777")),
                *(f"break word {it} {draw.randrange(32768):o}" for it in erasable), *(f"break change {it}" for it in [*erasable, "CH10", "CH777"]),
                *(f"break chan {draw.choice(('7', '10', '777'))} {draw.randrange(32768):o}{draw.choice(('', ' 77', ' 40000'))}" for _ in range(4)),
            ]
            breaks = self.breaks_after(draw.sample(asked, 16))
            again = [f"break {it.split(' ', 2)[2]}" for it in breaks[:-1]]
            with self.subTest(f"breaks {seed}, read again"):
                self.assertTrue(breaks[-1:] == ["COUNT 16"] and self.breaks_after(again) == breaks, f"{breaks}")

    def breaks_after(self, lines):
        _, out, _ = self.call("debug", "--extended", self.source, self.empty, commands="".join(f"{it}\n" for it in [*lines, "echo ----", "breaks"]))
        return out.split("----\n")[1].splitlines()

    def sum_of(self, words):
        """The sum of bank 2 of an image of some words."""
        path = f"{self.room}/claim.rope"
        write(path, b"".join((2 * it).to_bytes(2, "big") for it in [*words, *[0] * (IMAGE_BYTES // 2 - len(words))]))
        return int(self.call("sums", "--rope", "1", path)[1].splitlines()[2].split()[1], 8)

    def test_sums(self):
        for words, wanted in SUMS:
            with self.subTest(f"the sum of {words}"):
                self.assertEqual(self.sum_of(words), wanted)
        for seed in range(8):
            draw = random.Random(seed)
            words = [0, *(draw.randrange(1, 32767) for _ in range(draw.choice((2, 5, 1023))))]
            one, other = draw.sample(range(1, len(words)), 2)
            turned, exchanged = list(words), list(words)
            turned[one] ^= 0o40000
            exchanged[one], exchanged[other] = words[other], words[one]
            for what, changed in (("a sign turned", turned), ("two words exchanged", exchanged)):
                with self.subTest(f"the sum with {what}, {seed}"):
                    self.assertIn(self.sum_of(changed), (self.sum_of(words), self.sum_of(words) ^ 0o40000))
            with self.subTest(f"the sum with 77777 for 00000, {seed}"):
                self.assertEqual(self.sum_of([0o77777, *words[1:]]), self.sum_of(words))


if __name__ == "__main__":
    unittest.main()
