"""Rows of `agcws reach`, worked out by hand: which kind of root leads to each word, of programs that name places as addresses."""
import re

from common import EMPTY, Case, agcws, write

# An entry of each interrupt, so that no way runs on through empty words.
ENTRIES = "".join(f"        SETLOC  {0o4000 + 4 * k:o}\n        RESUME\n" for k in range(1, 11))
HEAD = f"        SETLOC  4000\n        TCF     BEGIN\n{ENTRIES}        SETLOC  4100\n"

# Each line with a word has what is found of it behind its operator: beside no run, and beside one.
NAMES = [
    ("BEGIN   CA      TABLE", "START", "START"),
    ("        EXTEND", "START", "START"),
    ("        DCA     FAR", "START", "START"),
    ("        DTCB", "START", "START"),
    ("DONE    TCF     DONE", "START", "START"),
    ("FAR     2CADR   FARSUB", "DATA DATA", "DATA DATA"),
    # a CADR of bank 043 holds the FB of bank 033; nothing here reads it
    ("        CADR    SUPER +1", "-", "-"),
    ("        CADR    4111", "-", "-"),
    # 4111, which the number names: its word, that reads UNIT, and the word after it
    ("        CA      UNIT", "NAMED", "NAMED"),
    ("        RETURN", "NAMED", "NAMED"),
    ("UNIT    DEC     1", "DATA", "DATA"),
    ("TABLE   DEC     10", "DATA", "DATA"),
    ("        BANK    5", "", ""),
    # the run goes there by DTCB
    ("FARSUB  CA      COUNT", "NAMED", "RUN"),
    ("        TCF     DONE", "NAMED", "RUN"),
    ("DEAD    RETURN", "-", "-"),
    ("COUNT   DEC     3", "DATA", "DATA"),
    ("        BANK    6", "", ""),
    # LATER stands in bank 7, whatever the bank of the word that names it; 2000 is an address of this bank
    ("        ADRES   LATER", "NAMED", "NAMED"),
    ("        ADRES   2000", "NAMED", "NAMED"),
    ("        RETURN", "NAMED", "NAMED"),
    ("        BANK    7", "", ""),
    ("        RETURN", "-", "-"),
    ("LATER   RETURN", "NAMED", "NAMED"),
    ("        BANK    33", "", ""),
    ("        RETURN", "-", "-"),
    ("        RETURN", "-", "-"),
    ("        BANK    43", "", ""),
    ("SUPER   RETURN", "-", "-"),
    ("        RETURN", "NAMED", "NAMED"),
]

# The first root that leads to each of these lines, by its number: 4000, or a place that a line names, by the order of these lines.
ROOTED = {
    **dict.fromkeys(range(5), "02,4000"),
    8: "02,4111",
    9: "02,4111",
    13: "05,2000",
    14: "05,2000",
    18: "06,2000",
    19: "06,2000",
    20: "06,2000",
    23: "07,2001",
    29: "43,2001",
}

# The same of forms of flight programs: complements name what their words do, BBCON and constants nothing.
FLIGHT = [
    ("BEGIN   TCF     BEGIN", "START"),
    ("        -CADR   ONE", "-"),
    ("        -2CADR  TWO", "- -"),
    ("        -GENADR THREE", "-"),
    ("        GENADR  FOUR", "-"),
    ("        REMADR  FIVE", "-"),
    ("        BBCON   SIX", "-"),
    ("        OCT     2006", "-"),
    ("        ECADR   CELL", "-"),
    ("        BANK    5", ""),
    ("        NOOP", "-"),
    ("ONE     RETURN", "NAMED"),
    ("TWO     RETURN", "NAMED"),
    ("THREE   RETURN", "NAMED"),
    ("FOUR    RETURN", "NAMED"),
    ("FIVE    RETURN", "NAMED"),
    ("SIX     RETURN", "-"),
]


def found(rows, lines):
    """What stands before the rows of some lines that follow the head, of all of their words, and whether IDLE follows."""
    told = {}
    for row in rows:
        kind, number = re.match(r"(\S*) +(?:IDLE +)?(\d+) ", row).groups()
        told.setdefault(int(number), []).append(kind)
    first = HEAD.count("\n") + 1
    return [" ".join(told[first + n]) for n in range(len(lines))]


class Reach(Case):
    """What is found of each word."""

    def source(self, lines, tail=""):
        write(f"{self.room}/named.agc", (HEAD + "".join(f"{line}\n" for line in lines) + tail).encode())
        return f"{self.room}/named.agc"

    def told(self, *words):
        status, out, err = agcws("reach", *words)
        self.assertEqual((status, err), (0, b""))
        return out.decode().splitlines()

    def compare(self, rows, lines, wanted):
        for got, line, want in zip(found(rows, lines), lines, wanted):
            with self.subTest(line):
                self.assertEqual(got, want)

    def test_named(self):
        lines = [line for line, _, _ in NAMES]
        self.compare(self.told(self.source(lines)), lines, [want for _, want, _ in NAMES])

    def test_beside_a_run(self):
        lines = [line for line, _, _ in NAMES]
        rows = self.told("--feed", EMPTY, "--steps", "20", self.source(lines))
        self.compare(rows, lines, [want for _, _, want in NAMES])
        # the run executes each word with RUN, and none with NAMED is told as idle: only the entries are
        self.assertEqual({row[:11] for row in rows if "IDLE" in row}, {"START IDLE "})

    def test_roots(self):
        lines = [line for line, _, _ in NAMES]
        first = HEAD.count("\n") + 1
        for words in ((), ("--feed", EMPTY, "--steps", "20")):
            plain, told = (self.told(*words, *roots, self.source(lines)) for roots in ((), ("--roots",)))
            width = 11 if words else 6
            # what stands there without the option stays, and its column is behind the others
            self.assertEqual([row[:width] + row[width + 8 :] for row in told], plain)
            for n, line in enumerate(lines):
                with self.subTest(line):
                    got = {row[width : width + 8] for row in told if re.match(rf" *{first + n} ", row[width + 8 :])}
                    # FARSUB is of the run where there is one, which has no place
                    want = None if words and n in (13, 14) else ROOTED.get(n)
                    self.assertEqual(got, {f"{want} " if want else " " * 8})
            entries = {row[width : width + 7] for row in told if row.endswith("        RESUME")}
            self.assertEqual(entries, {f"02,{0o4000 + 4 * k:o}" for k in range(1, 11)})

    def test_flight(self):
        lines = [line for line, _ in FLIGHT]
        source = self.source(lines, "        SETLOC  400\nCELL    ERASE\n")
        self.compare(self.told("--flight", source), lines, [want for _, want in FLIGHT])

    def test_image(self):
        """An image names no place: where a source has NAMED it has a sign, or DATA."""
        source, image = self.source([line for line, _, _ in NAMES]), f"{self.room}/named.rope"
        self.assertEqual(agcws("asm", source, image)[0], 0)
        told = dict(re.match(r"(\S+) +(\S+)", row).groups()[::-1] for row in self.told("--image", image))
        named = dict(re.match(r"(\S+) +\d+ (\d\d,\d{4})", row).groups()[::-1] for row in self.told(source) if row[0] in "SND-")
        self.assertNotIn("NAMED", told.values())
        for place, kind in named.items():
            with self.subTest(place):
                self.assertIn(told[place], ("-", "DATA") if kind in ("NAMED", "DATA", "-") else (kind,))
