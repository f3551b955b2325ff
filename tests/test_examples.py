"""Runs the examples, and compares what they put out and how they are listed; and what the pages say of them."""
import os
import re
import unittest

from common import EXAMPLES, ROOT, Case, agcws, read, rows_of_runs, text_of, with_ending
from documents import blocks, source_of
from one_processor import second_makers
from session import Session

# How many steps a flight program is run for, and then its cycles and Z.
FLIGHT_ENDS = {"bankcall": (60, b"100 4010"), "downlist": (40, b"73 2013"), "waitlist": (530, b"641 2012")}


def fields_of(line):
    """The label of a line of a source, or '', and its other fields."""
    fields = line.split("#")[0].split()
    return ("", fields) if line[:1] in ("", " ", "\t", "#") else (fields[0], fields[1:])


def operators_in(sources):
    """The operators of some sources."""
    return {others[0] for source in sources for _, others in map(fields_of, source.split("\n")) if others}


def stated_words(line):
    """The words that the comment of a line begins with."""
    stated = re.match(r"[^#]*# ([0-7]{5}(?: [0-7]{5})?)(?=:|$)", line)
    return stated[1].split() if stated else []


def headings(name):
    """The headings of a document, as links name them."""
    found = re.findall(r"^#+ (.+)$", text_of(name), re.M)
    return {re.sub(r"[^a-z0-9 -]", "", it.lower()).replace(" ", "-") for it in found}


class Examples(Case):
    """The examples, those of flight programs, and what names them."""

    def test_examples(self):
        rows = rows_of_runs()
        for name, feed, steps in rows:
            wanted = read(f"{EXAMPLES}/{name}.out")
            with self.subTest(f"examples/{name}"):
                self.assertAnswer(agcws("run", f"{EXAMPLES}/{name}.agc", f"{EXAMPLES}/{feed}", steps), 0, wanted)
        for name in sorted(with_ending(".lst")):
            wanted = read(f"{EXAMPLES}/{name}.lst")
            with self.subTest(f"examples/{name}"):
                self.assertAnswer(agcws("asm", f"{EXAMPLES}/{name}.agc", f"{self.room}/example.rope"), 0, wanted)
        status, out, err = agcws("asm", f"{EXAMPLES}/operators.agc", f"{self.room}/example.rope")
        with self.subTest("examples/operators assembles"):
            self.assertEqual((status, err), (0, b""))
        made = re.findall(r"^ *(\d+) \d\d,\d{4} ([0-7]{5})", out.decode(), re.M)
        for number, line in enumerate(text_of("examples/operators.agc").split("\n"), 1):
            with self.subTest(f"the words of examples/operators, line {number}"):
                self.assertEqual([word for it, word in made if int(it) == number], stated_words(line))
        others = with_ending(".agc") - {row[0] for row in rows} - with_ending(".lst") - {"operators"}
        with self.subTest("each example is run or listed"):
            self.assertFalse(others, " ".join(others))
        others = with_ending(".feed") - {row[1].removesuffix(".feed") for row in rows}
        with self.subTest("each feed is run"):
            self.assertFalse(others, " ".join(others))
    
    def test_flight(self):
        """Programs in the language of flight programs: what they put out, from their sources and from their images; that this language alone takes them; and what --flight goes with."""
        rope, empty = f"{self.room}/flight.rope", f"{EXAMPLES}/empty.feed"
        for name in sorted(it.removesuffix(".agc") for it in os.listdir(f"{EXAMPLES}/flight") if it.endswith(".agc")):
            steps, after = FLIGHT_ENDS[name]
            source, wanted = f"{EXAMPLES}/flight/{name}.agc", read(f"{EXAMPLES}/flight/{name}.out")
            feed = f"{EXAMPLES}/flight/{name}.feed" if os.path.exists(f"{EXAMPLES}/flight/{name}.feed") else empty
            with self.subTest(f"the manual names flight/{name}"):
                self.assertIn(f"](../examples/flight/{name}.agc)", text_of("docs/MANUAL.md"))
            with self.subTest(f"the listing of flight/{name}"):
                self.assertAnswer(agcws("asm", "--flight", source, rope), 0, read(f"{EXAMPLES}/flight/{name}.lst"))
            with self.subTest(f"flight/{name}"):
                self.assertAnswer(agcws("run", "--flight", source, feed, str(steps)), 0, wanted)
            with self.subTest(f"the image of flight/{name}"):
                self.assertAnswer(agcws("run", "--image", rope, feed, str(steps)), 0, wanted)
            with self.subTest(f"flight/{name} beside its image"):
                status, out, err = agcws("compare", "--only", "--flight", source, rope)
                self.assertEqual((status, err), (0, b""))
                self.assertRegex(out, rb"\ACOUNT 0\n(UNCERTAIN 0 OF [1-9]\d*\n(FORM \S+ CONFIRMED [1-9]\d* DENIED 0\n)+)?\Z")
            status, report, _ = agcws("check", "--flight", source)
            with self.subTest(f"a check of flight/{name}"):
                self.assertTrue(status == 0 and re.search(rb"^0 errors, \d+ warnings?\n\Z", report, re.M), f"{status} {report!r}")
            traced = agcws("trace", "--flight", source, feed, str(steps))[1]
            with self.subTest(f"a trace of flight/{name}"):
                self.assertEqual(re.findall(rb"  (\d+ CH \d+ \d+)$", traced, re.M), wanted.split(b"\n")[:-1])
            with self.subTest(f"a profile of flight/{name}"):
                self.assertTrue(agcws("cover", "--flight", source, feed, str(steps))[1].endswith(b"%10d %10d TOTAL\n" % (steps, int(traced.split(b"\n")[steps - 1].split()[1]))))
            session = Session(self, source, feed, "--flight")
            session.ask(f"a session of flight/{name}", b"run %d\n" % steps, wanted + b"AT %d %b\n" % (steps, after))
            session.end(f"a session of flight/{name} ends")
            with self.subTest(f"flight/{name} without --flight"):
                self.assertEqual(agcws("asm", source, rope)[0], 1)
        status, out, _ = agcws("run", "--flight", "--image", rope, empty, "1")
        with self.subTest("--flight of an image"):
            self.assertEqual((status, out), (2, b""))

    def test_expectations(self):
        """Each text of tests stands beside its program, which meets it, but for the one with a planted mistake; and the manual or examples/README.md names it."""
        for name in sorted(with_ending(".expect")):
            with self.subTest(f"examples/{name}.expect has a program"):
                self.assertIn(name, with_ending(".agc"))
            tests = re.findall(r"^TEST +(.*?) *$", text_of(f"examples/{name}.expect"), re.M)
            status, out, err = agcws("expect", f"{EXAMPLES}/{name}.expect")
            lines = out.decode().split("\n")[:-1]
            with self.subTest(f"examples/{name}.expect tells each test"):
                self.assertTrue([re.sub(r"^(ok  |FAIL) |: line \d+, .*", "", it) for it in lines] == tests and err == b"", f"{out!r} {err!r}")
            fails = [it for it in lines if it.startswith("FAIL")]
            with self.subTest(f"examples/{name}.expect"):
                self.assertEqual((status, len(fails)), (1, 1) if name == "lost_sum" else (0, 0), f"{status} {out!r}")

    def test_names(self):
        """What an example calls by a name of names.agc is what that calls so."""
        known = {}
        for name in ["names"] + sorted(with_ending(".agc")):
            for label, others in map(fields_of, text_of(f"examples/{name}.agc").split("\n")):
                if others[:1] == ["EQUALS"]:
                    value = known.setdefault(label, others[1]) if name == "names" else known.get(label, others[1])
                    with self.subTest(f"{label} in examples/{name}.agc"):
                        self.assertEqual(value, others[1], f"{others[1]} and not {value}")

    def test_operators(self):
        """Each operator of the language stands in a source whose words are compared, and each instruction of the machine in a program that is run."""
        operators = re.findall(r'\(codes "([^"]+)"', text_of("crates/yayul/specs/Operators.antt"))
        with self.subTest("the operators of the language are found"):
            self.assertTrue({"SETLOC", "=", "2CADR", "TC", "NOOP"} <= set(operators))
        listed = [text_of(f"examples/{name}.agc") for name in with_ending(".lst") | {"operators"}]
        listed += [source_of(body.decode()) for words, body, _ in blocks(text_of("docs/MANUAL.md")) if words[:2] == ["listing", "alone"]]
        missing = set(operators) - operators_in(listed)
        with self.subTest("each operator's word is compared"):
            self.assertFalse(missing, " ".join(sorted(missing)))
        # (other spellings make the same words, which is proved; EDRUPT has no operator)
        instructions = re.findall(r'^row_of \w+ = row \(codes "(\w+)"\)', text_of("crates/cpu/specs/Codes.antt"), re.M)
        with self.subTest("the instructions of the machine are found"):
            self.assertTrue({"TC", "INDEX", "MP"} <= set(instructions))
        missing = set(instructions) - {"EDRUPT"} - operators_in(text_of(f"examples/{name}.agc") for name in with_ending(".out"))
        with self.subTest("each instruction stands in a program that is run"):
            self.assertFalse(missing, " ".join(sorted(missing)))

    def test_links(self):
        """The manual and the examples name each other; each link of a document leads to a file, and to a heading of it."""
        manual, list_of_examples = text_of("docs/MANUAL.md"), text_of("examples/README.md")
        for name in sorted(with_ending(".agc")):
            with self.subTest(f"the manual names {name}"):
                self.assertIn(f"](../examples/{name}.agc)", manual)
            with self.subTest(f"examples/README.md names {name}"):
                self.assertIn(f"| [`{name}`]({name}.agc) |", list_of_examples)
        for document in ["README.md", "docs/MANUAL.md", "docs/COURSE.md", "docs/WALKS.md", "examples/README.md"]:
            for target in re.findall(r"\]\(([^)]+)\)", text_of(document)):
                path, _, heading = target.partition("#")
                path = os.path.normpath(f"{os.path.dirname(document)}/{path}" if path else document).lstrip("/")
                there = os.path.exists(f"{ROOT}/{path}")
                with self.subTest(f"{document} links to {target}"):
                    self.assertTrue(there and (not heading or heading in headings(path)))

    def test_one_processor(self):
        """A session steps no processor but its own."""
        found = second_makers(f"{ROOT}/crates")
        with self.subTest("no crate makes a second processor"):
            self.assertFalse(found, " ".join(found))


if __name__ == "__main__":
    unittest.main()
