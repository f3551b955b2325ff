"""Compares what `agcws cover` counts with the lines of `agcws trace` of the same steps."""
import re
import subprocess
import unittest

from common import EXAMPLES, PROGRAM, Case, agcws, example_runs, write

STEPS = 10_000
END = ["INPUT", "ENTRY", "BRUPT", "TOTAL"]


def lines_of(program, *words):
    return subprocess.run([program, *words], capture_output=True, text=True, timeout=300).stdout.splitlines()


def traced(program, files):
    """How often each place, or what is executed at none, stands in the lines of a trace, and the cycles of these steps."""
    found, before = {}, 0
    for line in lines_of(program, "trace", *files, str(STEPS)):
        _, cycles, place, kind = re.split("  +", line)[:4]
        name = kind if kind in ("INPUT", "ENTRY") else place
        count, sum_of_cycles = found.get(name, (0, 0))
        found[name] = (count + 1, sum_of_cycles + int(cycles) - before)
        before = int(cycles)
    return found, before


def covered(rows):
    """The figures of rows, by what stands after them: a place, or a name."""
    found = {}
    for row in rows:
        count, cycles, rest = row[:11].strip(), row[11:22].strip(), row[22:]
        if count not in ("", "-"):
            found[re.search(r"E?\d+,\d{4}|[A-Z]+$", rest).group()] = (int(count), int(cycles))
    return found


class Cover(Case):
    """Profiles, beside traces of the same steps."""

    def test_examples(self):
        for name, files in example_runs():
            self.compare(name, files)

    def compare(self, name, files):
        """Compares the figures of the first steps of a program, and its rows with those of its listing."""
        rows = lines_of(PROGRAM, "cover", *files, str(STEPS))
        wanted, cycles = traced(PROGRAM, files)
        figures = covered(rows)
        with self.subTest(f"cover of {name} beside trace"):
            self.assertEqual(figures, {**wanted, "TOTAL": (STEPS, cycles)})
        with self.subTest(f"the end of cover of {name}"):
            self.assertEqual([row[22:] for row in rows[-4:]], END)
        listing = lines_of(PROGRAM, "asm", files[0], "/dev/null")
        listing = listing[: next(i for i, row in enumerate(listing) if row.startswith("SYMBOLS "))]
        with self.subTest(f"the rows of cover of {name}"):
            self.assertEqual([row[22:] for row in rows[: len(listing)]], listing)

    def test_images(self):
        """Profiles of an image, of a place without a word, and of a refused feed."""
        source, empty, rope = f"{EXAMPLES}/five_plus_five.agc", f"{EXAMPLES}/empty.feed", f"{self.room}/covered.rope"
        agcws("asm", source, rope)
        words = agcws("words", rope)[1].decode().split("\n")[:-1]
        figures = {"02,4000": (1, 2), "02,4001": (1, 2), "02,4002": (1, 1), "02,4003": (1, 2)}
        lines = ["%10s %10s %s" % (*figures.get(word[:7], ("-", "-")), word) for word in words]
        none = [f"         -          - {name}" for name in ("INPUT", "ENTRY", "BRUPT")]
        lines += none + ["         4          7 TOTAL"]
        with self.subTest("a profile of an image"):
            self.assertAnswer(agcws("cover", "--image", rope, empty, "4"), 0, "".join(f"{it}\n" for it in lines).encode())
        away = write(f"{self.room}/away.agc", b" SETLOC 4000\n TC 1000\n")
        rows = [" " * 22 + "    1                 SETLOC 4000", "         1          1     2 02,4000 01000   TC 1000", "         1          1 E2,1000", *none, "         2          2 TOTAL"]
        with self.subTest("a profile of a place without a word"):
            self.assertAnswer(agcws("cover", away, empty, "2"), 0, "".join(f"{it}\n" for it in rows).encode())
        with self.subTest("a profile of a refused feed"):
            self.assertAnswer(agcws("cover", source, source, "4"), 1, b"", b"agcws: E30 LINE 2\n")


if __name__ == "__main__":
    unittest.main()
