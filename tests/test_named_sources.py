"""Tries `agcws words --source --symbols` on the images of all examples and on images and tables of names by seeds: what is written assembles to the
same image, has the instructions in place of octal words, and gives each name that may be a label what the table gives it."""
import glob
import os
import random
import re
import subprocess
import unittest

from common import EXAMPLES, PROGRAM, Case

BANKS, WORDS = 36, 1024
EXTEND, RESUME = 0o6, 0o50017
# The names that lines of their own give registers and cells with a use of their own.
REGISTERS = """A L Q EB FB Z BB ARUPT LRUPT QRUPT ZRUPT BBRUPT BRUPT CYR SR CYL EDOP TIME2 TIME1 TIME3 TIME4 TIME5 TIME6
CDUX CDUY CDUZ OPTY OPTX PIPAX PIPAY PIPAZ INLINK""".split()
# Names that are no labels, or look as if they were none.
STRANGE = """-A FIXED 02,0000|12 FIXED 02,0001|12D NUM 00001|A NUM 00007|Q FIXED 03,0000|$X FIXED 02,0002|TC FIXED 02,0003|EXTEND FIXED 02,0004|BANK NUM 00005
OCT ERASABLE 0010|NXD FIXED 43,1777|EEND ERASABLE 3777|+1 NUM 00001|D FIXED 02,1777|FIVE, FIXED 03,1777|DD.+,/() ERASABLE 0000|TWO ERASABLE 0000|B FIXED 02,0003"""


def words_of(kind, chance):
    """The words of an image of a kind."""
    makers = {
        "random words": lambda at: chance.randrange(1 << 15),
        "zeros": lambda at: 0,
        "ones": lambda at: 0o77777,
        "extracodes": lambda at: chance.choice((EXTEND, EXTEND, RESUME, 0o50000 + chance.randrange(4096), 0o7000 + chance.randrange(512), chance.randrange(1 << 15))),
        "INDEX to each bank's end": lambda at: 0o50000 + at % 4096 if at % WORDS else EXTEND,
        "EXTEND last in each bank": lambda at: EXTEND if at % WORDS == WORDS - 1 else 0o30000,
        "four words again and again": lambda at: (EXTEND, 0o50012, 0o1234, 0o7777)[at % 4],
    }
    return [makers[kind](at) for at in range(BANKS * WORDS)], list(makers)


def image_of(words):
    return b"".join((2 * word + (bin(word).count("1") + 1) % 2).to_bytes(2, "big") for word in words)


def table(chance, count):
    """A table of names: random places and numbers, and strange names."""
    rows = []
    for number in range(count):
        name = chance.choice(("N", "R.", "X+", "V/", "1.", "&")) + f"{number:x}"
        fixed, erasable = f"FIXED {chance.randrange(BANKS):02o},{chance.randrange(WORDS):04o}", f"ERASABLE {chance.randrange(2048):04o}"
        rows.append(f"{name} " + chance.choice((fixed, fixed, fixed, erasable, f"NUM {chance.randrange(1 << 15):05o}")))
    return rows + re.split("[|\n]", STRANGE)


def is_label(name):
    return not re.fullmatch("[0-9]+D?|[+-].*", name) and "$" not in name and name not in REGISTERS


def numbers_in(words):
    """How many words stand as octal words, by the definition: EDRUPT's, zeros, and what leads to them by extracode, or past the bank's end."""
    count = 0
    for bank in range(0, len(words), WORDS):
        extra, run = False, 0
        for word in words[bank : bank + WORDS]:
            run += 1
            if (word == EXTEND and not extra) or (extra and word >> 12 == 5):
                extra = True
                continue
            if (extra and word >> 9 == 0o7) or (not extra and word == 0):
                count += run
            extra, run = False, 0
        count += run
    return count


class NamedSources(Case):
    """The sources with names of all examples, and of images by seeds."""

    def ran(self, *words):
        return subprocess.run([PROGRAM, *words], capture_output=True, timeout=300)

    def comes_back(self, label, image, rows, bank=()):
        """An image with a table of names comes back to its bytes by the source, and the names to what they stand for."""
        paths = [f"{self.room}/named.{it}" for it in ("rope", "txt", "agc", "made")]
        for path, content in zip(paths, (image, "".join(f"{row}\n" for row in rows).encode())):
            with open(path, "wb") as file:
                file.write(content)
        wrote = self.ran("words", "--source", "--symbols", paths[1], paths[0], *bank)
        with open(paths[2], "wb") as file:
            file.write(wrote.stdout)
        made = self.ran("asm", paths[2], paths[3])
        is_written = (wrote.returncode, wrote.stderr, made.returncode) == (0, b"", 0)
        with self.subTest(f"the source with names of {label}"):
            self.assertTrue(is_written, f"{wrote.stderr} {made.stderr}")
        if not is_written:
            return
        with open(paths[3], "rb") as file:
            back = file.read()
        words = [int.from_bytes(image[at : at + 2], "big") >> 1 for at in range(0, len(image), 2)]
        if bank:
            entry = {0: 2, 1: 3, 2: 0, 3: 1}.get(int(bank[0], 8), int(bank[0], 8))
            words = [word if at // WORDS == entry else 0 for at, word in enumerate(words)]
        with self.subTest(f"the image of the source with names of {label}"):
            self.assertEqual(back, image_of(words))
        lines = wrote.stdout.decode().splitlines()
        octal = sum(line[9:13] == "OCT " for line in lines)
        wanted = numbers_in(words) - (0 if not bank else (BANKS - 1) * WORDS)
        with self.subTest(f"the octal words of {label}"):
            self.assertTrue(lines[0] == "A        EQUALS  0" and octal == wanted, f"{lines[0]}, {octal} in place of {wanted}")
        names = dict(row.split(" ", 1) for row in reversed(rows))
        got = dict(line.split(" ", 1) for line in made.stdout.decode().split("\nSYMBOLS ")[1].splitlines()[1:])
        got = {name: value.strip() for name, value in got.items() if name not in REGISTERS}
        with self.subTest(f"the names of {label}"):
            self.assertEqual(got, {name: value for name, value in names.items() if is_label(name)}, f"{len(got)} of {len(names)}")

    def test_examples_and_seeds(self):
        """The sources with names of all examples, and of images by seeds."""
        for path in sorted(glob.glob(f"{EXAMPLES}/**/*.agc", recursive=True)):
            flight = ["--flight"] if "/flight/" in path else []
            made = self.ran("asm", *flight, path, f"{self.room}/example.rope")
            if made.returncode == 0:
                with open(f"{self.room}/example.rope", "rb") as file:
                    rows = [" ".join(line.split()) for line in made.stdout.decode().split("\nSYMBOLS ")[1].splitlines()[1:]]
                    self.comes_back(os.path.relpath(path, EXAMPLES), file.read(), rows)
        for seed in range(2):
            for kind in words_of("zeros", None)[1]:
                chance = random.Random(seed)
                self.comes_back(f"{kind} {seed}", image_of(words_of(kind, chance)[0]), table(chance, 2000 * seed))
        chance = random.Random(7)
        image, rows = image_of(words_of("random words", chance)[0]), table(chance, 500)
        for bank in ("00", "02", "3", "43"):
            self.comes_back(f"bank {bank} alone", image, rows, (bank,))
        self.many_names(image)

    def many_names(self, image):
        """With more names than a source has lines the words stand in octal."""
        paths = f"{self.room}/many.rope", f"{self.room}/many.txt"
        for path, content in zip(paths, (image, b"".join(b"N%x ERASABLE 0100\n" % it for it in range(20000)))):
            with open(path, "wb") as file:
                file.write(content)
        wanted, got = self.ran("words", "--source", paths[0]), self.ran("words", "--source", "--symbols", paths[1], paths[0])
        with self.subTest("a source with too many names"):
            self.assertEqual((got.returncode, got.stdout), (0, wanted.stdout), got.stdout[:80])


if __name__ == "__main__":
    unittest.main()
