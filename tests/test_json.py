"""Compares the objects of `agcws cover --json` and `run --notes --json` with the texts of the same calls without --json: each text can be made anew of its objects."""
import json
import subprocess
import unittest

from common import EMPTY, EXAMPLES, PROGRAM, Case, agcws, example_runs, write

# The address of the first word of banks that need no FB; that of the others is 2000.
FIRST = {"02": 0o4000, "03": 0o6000}


def figures_of(it):
    """The columns of figures."""
    if it["count"] is None:
        return " " * 22
    return "".join(f"{figure:>10} " for figure in ((it["count"], it["cycles"]) if it["count"] else "--"))


def row_of(it):
    """The row of a profile that an object is."""
    kind, figures = it["kind"], figures_of(it)
    if kind == "line":
        places = f"{it['place'] or '':7} {it['word'] or '':5}"
        return f"{figures}{it['line']:5} {places}{'  ' + it['text'] if it['text'] else ''}"
    if kind == "word":
        return f"{figures}{it['place']} {it['word']} {it['text']}"
    return f"{figures}{it['place'] if kind == 'place' else kind}"


def note_of(it):
    """The line of a note that an object is."""
    if it["kind"] == "INSIDE":
        return f"NOTE INSIDE STEP {it['step']}"
    if it["kind"] == "WAITING":
        return f"NOTE WAITING {it['interrupt']} STEP {it['step']} CYCLES {it['cycles']}"
    what = f"{it['place']:7}  {it['word'] or 'ENTRY':5}  {it['text']:17}  "
    return f"NOTE {it['kind']:9}  {what}STEP {it['step']} CYCLES {it['cycles']} TIMES {it['count']}"


def symbols_of(program, words):
    """The first symbol of each place of fixed memory, by the listing of a source."""
    found = {}
    for line in lines_of(program, "asm", *words, "/dev/null")[0].partition("\nSYMBOLS ")[2].splitlines()[1:]:
        name, kind, value = line[:8].strip(), *line[9:].split()
        if kind == "FIXED":
            bank, offset = value.split(",")
            found.setdefault(f"{bank},{FIRST.get(bank, 0o2000) + int(offset, 8):04o}", name)
    return found


def lines_of(program, *words):
    ran = subprocess.run([program, *words], capture_output=True, text=True, timeout=300)
    return ran.stdout, ran.stderr, ran.returncode


class Beside:
    """Compares objects with the text of the same call."""

    def compare(self, name, options, files, steps):
        """Compares both of a run. Files are a program and its feed, and options stand before them."""
        text, said, status = lines_of(PROGRAM, "cover", *options, *files, steps)
        objects = [json.loads(it) for it in lines_of(PROGRAM, "cover", "--json", *options, *files, steps)[0].splitlines()]
        with self.subTest(f"cover --json of {name}"):
            self.assertTrue((status, said) == (0, "") and [*map(row_of, objects)] == text.splitlines() and len(objects) > 4)
        if "--image" not in options:
            symbols = symbols_of(PROGRAM, [*options, files[0]])
            wrong = [it for it in objects if it.get("word") and it["symbol"] != symbols.get(it["place"])]
            with self.subTest(f"the symbols of cover --json of {name}"):
                self.assertFalse(wrong, f"{wrong[:2]}")
        options = [it for it in options if it != "--symbols" and not it.endswith(".lst")]
        out, text, status = lines_of(PROGRAM, "run", "--notes", *options, *files, steps)
        got = lines_of(PROGRAM, "run", "--notes", "--json", *options, *files, steps)
        objects = [json.loads(it) for it in got[1].splitlines()]
        with self.subTest(f"run --notes --json of {name}"):
            self.assertTrue((got[0], got[2]) == (out, status) and [*map(note_of, objects)] == text.splitlines(), f"{objects[:2]}")


class Objects(Beside, Case):
    """Objects of a program, beside the text of the same call."""

    def test_examples(self):
        for name, files in example_runs():
            self.compare(name, [], files, "2000")

    def test_images(self):
        rope = f"{self.room}/covered.rope"
        agcws("asm", f"{EXAMPLES}/five_plus_five.agc", rope)
        self.compare("an image", ["--image"], [rope, EMPTY], "40")
        names = write(f"{self.room}/covered.lst", b'START 02,4000\nA"B\\C 02,4005\n')
        self.compare("an image with names", ["--image", "--symbols", names], [rope, EMPTY], "40")

    def test_odd_sources(self):
        """A name and a text with all that is escaped, words of two, and each kind of note; and a flight source."""
        odd = b' SETLOC 4000\nA"B\\C TC 1000\n# "\t\\ / <~>\nFAR 2CADR A"B\\C\n\n SETLOC 100\n"\\ ERASE\n'
        self.compare("escaped names", [], [write(f"{self.room}/escaped.agc", odd), EMPTY], "7")
        self.compare("a flight source", ["--flight"], [write(f"{self.room}/flown.agc", b" SETLOC 4000\nX OCT -1\n TC X\n"), EMPTY], "9")


if __name__ == "__main__":
    unittest.main()
