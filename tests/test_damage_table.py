"""The table of a restorer: each way in which a dump of a large program was damaged, done to one, and found and named by one command. What is expected is told by
the damage, not by the program. Two ropes of one program apart stand in test_align.py, each damage beside a second reading of the help in test_damages.py."""
import subprocess
import unittest

from common import PROGRAM, Case, read, write
from test_align import Program
from test_damages import added, bytes_exchanged, image_of, octals_of, of_hardware, pairs_of, total

SENSE, ADDRESS = 1 << 7, 1 << 6


def changed(pairs, bank, words):
    return [*pairs[:bank], words, *pairs[bank + 1 :]]


class DamageTable(Case):
    """A rope of 28 banks of routines and constants with check words, and 8 empty ones."""

    def setUp(self):
        super().setUp()
        self.banks = [list(bank) for bank in Program(11).assembled()[0]]
        self.pairs, self.path = pairs_of(self.banks), f"{self.room}/dump.rope"

    def told(self, *words):
        """What a call tells, with its status."""
        ran = subprocess.run([PROGRAM, *words], capture_output=True, text=True, timeout=60)
        return ran.returncode, ran.stdout.splitlines(), ran.stderr

    def row(self, damage, image, *lines, options=()):
        """One command names a damage in its lines alone."""
        write(self.path, image)
        with self.subTest(damage):
            self.assertEqual(self.told("damages", *options, self.path), (1, list(lines), ""))

    def test_words(self):
        """Bits and words."""
        write(self.path, image_of(self.pairs))
        with self.subTest("no damage"):
            self.assertEqual(self.told("damages", self.path), (0, ["COUNT 0"], ""))
        # The first word of bank 10 from 10,2137 on whose bits 3 and 8 are 0: it is 4 more with bit 3, 0204 more with both.
        offset = next(it for it in range(0o137, 1024) if self.banks[8][it] & 0o204 == 0)
        word, place = self.banks[8][offset], f"10,{0o2000 + offset:04o}"
        one = list(self.pairs[8])
        one[offset] ^= 0o10
        self.row("one bit", image_of(changed(self.pairs, 8, one)), f"{place} {word + 4:05o} IS {word:05o} BY THE SUM", "COUNT 1")
        source, made = f"{self.room}/mended.agc", f"{self.room}/mended.rope"
        write(source, "\n".join(self.told("damages", "--source", self.path)[1]).encode() + b"\n")
        self.assertEqual(self.told("asm", source, made)[0], 0)
        with self.subTest("one bit mended"):
            self.assertEqual(read(made), image_of(self.pairs))
        two = list(self.pairs[8])
        two[offset] ^= 0o410
        self.row("two bits in one word", image_of(changed(self.pairs, 8, two)), f"BANK 10 SUM {added(total(self.banks[8]), 0o204):05o}", "COUNT 1")
        lost = [pair & ~SENSE for pair in self.pairs[9]]
        count = sum(pair & SENSE > 0 for pair in self.pairs[9])
        self.row("a sense line", image_of(changed(self.pairs, 9, lost)), f"BANK 11 BIT 7 ALWAYS 0, WRONG IN {count} WORDS BY THE SUM", "COUNT 1")
        end = max(offset for offset, word in enumerate(self.banks[10]) if word) - 2
        value = int(end & ADDRESS > 0)
        dead = [self.pairs[10][it & ~ADDRESS | value * ADDRESS] for it in range(1024)]
        self.row("an address line", image_of(changed(self.pairs, 10, dead)), f"BANK 12 ADDRESS BIT 7 ALWAYS {value}", "COUNT 1")
        self.row("all parity bits", image_of([[pair ^ 1 for pair in bank] for bank in self.pairs]), "PARITY THE OTHER WAY ROUND", "COUNT 1")

    def test_banks(self):
        """Banks and modules."""
        exchanged = [*self.pairs[:5], self.pairs[6], self.pairs[5], *self.pairs[7:]]
        self.row("two banks exchanged", image_of(exchanged), "BANK 05 EXCHANGED WITH BANK 06", "BANK 06 EXCHANGED WITH BANK 05", "COUNT 2")
        self.row("a bank read twice", image_of(changed(self.pairs, 7, self.pairs[6])), "BANK 07 HAS THE WORDS OF BANK 06", "COUNT 1")
        self.row("banks by number", image_of([*self.pairs[2:4], *self.pairs[:2], *self.pairs[4:]]), "BANKS BY THEIR NUMBERS", "COUNT 1")
        for byte, word in ((0, "00000"), (255, "77777")):
            module = [[257 * byte] * 1024] * 6
            self.row(f"a module of bytes {byte}", image_of([*self.pairs[:12], *module, *self.pairs[18:]]), f"BANKS 14 TO 21 ALL {word}, 6144 OF WRONG PARITY", "COUNT 6")
        alone = b"".join(pair.to_bytes(2, "big") for bank in self.pairs[12:18] for pair in bank)
        write(self.path, alone)
        with self.subTest("a module alone"):
            self.assertEqual(self.told("damages", "--form", "module3", self.path), (0, ["COUNT 0"], ""))
        # (the sum of bank 0 is that of an empty bank too)
        lines = ["BANK 00 EXCHANGED WITH BANK 14", *(f"BANK {bank:02o} HAS THE SUM OF BANK {bank + 12:02o}" for bank in range(1, 6))]
        self.row("a module under another number", alone, *lines, "COUNT 6", options=("--form", "module1"))

    def test_forms(self):
        """Whole images in another form."""
        for damage, turn, line in (
            ("bytes exchanged", bytes_exchanged, "BYTES EXCHANGED"),
            ("all bits complemented", lambda pair: pair ^ 0o177777, "ALL BITS COMPLEMENTED"),
            ("the hardware's order", of_hardware, "BITS IN THE ORDER OF THE HARDWARE"),
        ):
            self.row(damage, image_of([[turn(pair) for pair in bank] for bank in self.pairs]), line, "COUNT 1")
        full = Program(12).assembled()[0][:28]
        full = pairs_of([*full, *full[20:]])
        turned = [[pair ^ 0o177777 for pair in bank] for bank in full]
        self.row("a rope without an empty bank complemented", image_of(turned), "ALL BITS COMPLEMENTED", "COUNT 1")
        write(self.path, octals_of(self.banks).encode())
        with self.subTest("a text of octal words"):
            self.assertEqual(self.told("damages", self.path), (0, ["COUNT 0"], ""))
        with self.subTest("and written again"):
            self.assertEqual(self.told("words", "--octal", self.path), (0, octals_of(self.banks).splitlines(), ""))


if __name__ == "__main__":
    unittest.main()
