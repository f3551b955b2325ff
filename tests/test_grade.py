"""Tests of views/grade, by a small class."""
import csv
import os
import re
import unittest

from common import EMPTY, EXAMPLES, PROGRAM, write, write_text
from viewing import Page, ViewCase, call, text_at

# The task: each key is added to those before, and the sum goes to channel 011.
MODEL = """ARUPT   EQUALS  10
        SETLOC  100
TOTAL   ERASE
        SETLOC  4000
        RELINT
IDLE    TCF     IDLE
        SETLOC  4024
        DXCH    ARUPT
        TCF     KEY
        SETLOC  4100
KEY     EXTEND
        READ    15
        AD      TOTAL
        TS      TOTAL
        EXTEND
        WRITE   11
        DXCH    ARUPT
        RESUME
"""
ADDED = "        AD      TOTAL\n"
WRITTEN = "        EXTEND\n        WRITE   11\n"
FORGOTTEN = MODEL.replace(ADDED, "")
HAND_INS = {
    "Ada Lovelace.agc": MODEL.replace("        AD      TOTAL\n        TS      TOTAL\n", "        ADS     TOTAL\n"),
    "bob.agc": "# my own work\n" + MODEL.replace("RELINT", "RELINT   # interrupts"),
    "carl.agc": MODEL.replace("TOTAL", "SUM").replace("KEY", "PRESSED"),
    "dora.agc": FORGOTTEN,
    "emil.agc": MODEL.replace("DXCH", "FROB"),
    "fay.agc": MODEL.replace("KEY     EXTEND", "KEY     TCF     KEY\n        EXTEND"),
    "gus.agc": MODEL.replace("        RELINT\n", ""),
    "huge.agc": "# " + "x" * 8_400_000,
    "ida.agc": MODEL.replace("        RESUME\n", "        TC      IDLE\n"),
    "jo.agc": MODEL.replace(WRITTEN, WRITTEN * 2),
    "kim/solution.agc": "# KIM\n\n" + FORGOTTEN.replace("        READ    15", "\tREAD 15\t# the key"),
    "<b>lea&.agc": MODEL.replace(WRITTEN, WRITTEN + WRITTEN.replace("11", "12")),
    "=mo.agc": "",
    "nil.agc": "\0\n\x80",
}
# What is changed in the model solution of a lesson of the course: each line is left out, and of some a word is another.
CHANGES = [("DXCH", "XCH"), ("ADS", "AD"), ("TS", "CS"), ("CA", "CS"), ("DEC     50", "OCT     50"), ("4024", "4020"), ("RELINT", "INHINT"), ("READ    15", "READ    11"), ("WRITE   10", "WRITE   11"), ("WRITE   11", "WRITE   12"), ("CCS", "CA")]
# Three keys, and one: by hand the words 1, 3, 7 and 5.
FEEDS = {"keys": "100 CHAN 15 1\n200 CHAN 15 2\n300 CHAN 15 4\n", "one": "100 CHAN 15 5\n"}
STEPS = "600"


def room_of(room):
    """The class in a folder, and the words that ask for it."""
    for name, text in HAND_INS.items():
        write_text(f"{room}/class/{name}", text)
    write(f"{room}/class/.hidden", b"passed over")
    os.symlink(EMPTY, f"{room}/class/link.agc")
    write_text(f"{room}/model.agc", MODEL)
    for name, text in FEEDS.items():
        write_text(f"{room}/{name}.feed", text)
    return [f"{room}/class", f"{room}/model.agc", STEPS, "--feed", f"{room}/keys.feed", "--feed", f"{room}/one.feed", "--out", f"{room}/graded"]


def changed(source):
    """A source with a line left out, or changed: each with the number of the line. A label stays, with NOOP."""
    lines = source.split("\n")
    for at, line in enumerate(lines):
        code = line.split("#")[0].rstrip()
        if not re.search(r"\s(RELINT|CA|TS|ADS|CCS|TCF|EXTEND|READ|WRITE|DXCH|RESUME|DEC     50|EQUALS 4024)\b", code):
            continue
        rest = lines[at + 1 :]
        if "DEC" not in code and "EQUALS" not in code:
            yield at + 1, "\n".join([*lines[:at], *[f"{code[:8]}NOOP"] * (code[0] != " "), *rest])
        for old, new in CHANGES:
            if re.search(rf"\s{old}(?!\S)", code):
                yield at + 1, "\n".join([*lines[:at], re.sub(rf"(?<=\s){old}(?!\S)", new, code), *rest])


def told_line(line, row):
    """Whether a row tells of a line, or of the one behind it: where it parts from the model, what is refused there, or what is not executed from there on."""
    numbers = re.findall(r"line (\d+)", row["other than the model"]) + re.findall(r"^(\d+):", row["what is wrong first"]) + re.findall(r"\d+", row["never executed, by lines"])
    return any(int(it) in (line - 1, line, line + 1) for it in numbers)


class Grade(ViewCase):
    """A class of hand-ins."""

    def test_class(self):
        """Each hand-in has its row, and no fault of one ends the others."""
        status, out, err = call("grade", *room_of(self.room))
        with self.subTest("the end of grading"):
            self.assertEqual((status, err, out.splitlines()[-1]), (0, "", "14 hand-ins: 4 right, 7 wrong, 2 refused, 1 not judged."))
        heads, *rows = csv.reader(text_at(f"{self.room}/graded/class.csv").splitlines())
        found = {it[0]: dict(zip(heads, it)) for it in rows}
        with self.subTest("the names"):
            self.assertEqual(sorted(found), sorted(it.removesuffix(".agc") if it[0] != "=" else "'=mo" for it in HAND_INS))
        # (by hand: a key comes out after the entry 3, DXCH 3, TCF 1, EXTEND 1, READ 2, AD 2, TS 2, EXTEND 1 and WRITE 2, so the last at 317 and 117; ADS is 2 shorter)
        for name, right, keys, cycles, share in [("Ada Lovelace", "2/2", "yes", "430", "99 %"), ("bob", "2/2", "yes", "434", "100 %"), ("carl", "2/2", "yes", "434", "100 %"), ("dora", "1/2", "no", "", "")]:
            row = found[name]
            with self.subTest(f"the row of {name}"):
                self.assertEqual((row["right"], row["keys"], row["cycles"], row["of the model's"]), (right, keys, cycles, share))
        for name, wanted in [
            ("dora", r"keys: word 2 of CH 011 is 00002 \(2\) at cycle 215, step \d+, and not 00003 \(3\)"),
            ("emil", r"8:9: error E15: .*FROB.*"),
            ("fay", r"keys: word 1 of CH 011 is missing: 00001 \(1\) is wanted, and the run ends at KEY"),
            ("gus", r"keys: word 1 of CH 011 is missing: 00001 \(1\) is wanted, and the run ends at IDLE"),
            ("huge", r"it has 8400002 bytes, and a source 8388608 at most"),
            ("ida", r"keys: word 2 of CH 011 is missing: 00003 \(3\) is wanted, and the run ends at IDLE"),
            ("jo", r"keys: word 2 of CH 011 is 00001 \(1\) at cycle 120, step \d+, and not 00003 \(3\)"),
            ("kim/solution", r"keys: word 2 of CH 011 is 00002 .*"),
            ("<b>lea&", ""),
            ("'=mo", r"keys: word 1 of CH 011 is missing: 00001 \(1\) is wanted, and the run ends at .*"),
            ("nil", r"1:1: error E\d+: .*"),
        ]:
            with self.subTest(f"what {name} has wrong"):
                self.assertTrue(re.fullmatch(wanted, found[name]["what is wrong first"]), f"{found[name]}")
        with self.subTest("who is alike"):
            self.assertEqual({name: it["alike"] for name, it in found.items() if it["alike"]}, {
            "bob": "the same text as the model; the same words as carl",
            "carl": "the same words as bob; the same words as the model",
            "dora": "the same text as kim/solution",
            "kim/solution": "the same text as dora",
        })
        # (of dora AD is missing, of gus RELINT)
        with self.subTest("instructions"):
            self.assertEqual([(found[it]["instructions executed"], found[it]["of"]) for it in ("bob", "dora", "gus")], [("12", "12"), ("11", "11"), ("1", "11")])
        # (of gus all but IDLE, from the line after SETLOC 4024 on; of fay what stands behind KEY TCF KEY)
        with self.subTest("lines that are never executed"):
            self.assertEqual([found[it]["never executed, by lines"] for it in ("bob", "gus", "fay")], ["", "7-17", "12-19"])
        with self.subTest("notes"):
            self.assertTrue("INSIDE" in found["ida"]["notes"] and not found["bob"]["notes"], f"{found['ida']}")
        self.try_sheets(found)

    def try_sheets(self, found):
        """The page of the class leads to a page for each, and these name no other and show what went wrong."""
        text = text_at(f"{self.room}/graded/class.html")
        page = Page(self, text)
        with self.subTest("the rows of the class"):
            self.assertEqual(len([it for it in page.rows if len(it) > 10]), 1 + len(HAND_INS))
        links = dict(re.findall(r'<td class="name"><a href="pages/([^"]+)">([^<]*)</a>', text))
        with self.subTest("a page for each"):
            self.assertEqual(sorted(links), sorted(os.listdir(f"{self.room}/graded/pages")))
        with self.subTest("a name with signs that a page has"):
            self.assertEqual([it for it in links.values() if "lea" in it], ["&lt;b&gt;lea&amp;"])
        names = ["Ada Lovelace", "dora", "emil", "kim", "lea&amp;", "gus", "carl"]
        sheets = {name: text_at(f"{self.room}/graded/pages/{name}") for name in links}
        for file, sheet in sheets.items():
            Page(self, sheet)
            with self.subTest(f"{file} names no other"):
                self.assertTrue(not [it for it in names if it in sheet and it not in links[file]] and "src=" not in sheet and "<script" not in sheet)
        dora = sheets["dora.html"]
        with self.subTest("the chain of a wrong word"):
            self.assertTrue(re.search(r"BY 200 WRITE 011 : CH011 00002 FROM A 000002 IN STEP 193\nBY 197 READ 015 : A 000002 FROM CH015 00002 IN STEP 193\n", dora), dora[:3000])
        with self.subTest("where a run ends"):
            self.assertTrue("WHERE 02,4001 IDLE" in sheets["gus.html"] or "IDLE" in sheets["gus.html"].split("Listing")[0], sheets["gus.html"][:3000])
        with self.subTest("other channels"):
            self.assertIn("Other channels get words too: 012.", sheets["b_lea.html"])
        with self.subTest("what is never executed"):
            self.assertTrue('class="never"' in sheets["gus.html"] and "on the lines" in sheets["gus.html"] and 'class="never"' not in sheets["bob.html"])
        with self.subTest("what several have wrong"):
            self.assertTrue("word 2 of CH 011 is 00002 (2)" in Page(self, text).inside["table"] and ">dora</a>, <a" in text)

    def test_again(self):
        """What is judged is not judged again, another file is, and results of another task are told apart. What has no end is told so."""
        asked, calls, wrapper = room_of(self.room), f"{self.room}/calls", f"{self.room}/counted"
        write(wrapper, f'#!/bin/sh\necho "$*" >> "{calls}"\ncase "$*" in *"slow one"*) exec sleep 20 ;; esac\nexec "{PROGRAM}" "$@"\n'.encode())
        os.chmod(wrapper, 0o755)
        env = {**os.environ, "AGCWS": wrapper}
        first = call("grade", *asked, env=env)
        shown = text_at(f"{self.room}/graded/class.html")
        write(calls, b"")
        with self.subTest("a class that is judged"):
            self.assertEqual((call("grade", *asked, env=env), text_at(f"{self.room}/graded/class.html")), (first, shown))
        with self.subTest("no hand-in is judged again"):
            self.assertNotIn(f"{self.room}/class/", text_at(calls), text_at(calls))
        # (a line that is cut short, and a file that has changed)
        kept = f"{self.room}/graded/results.jsonl"
        write(kept, text_at(kept).encode()[:-9])
        write_text(f"{self.room}/class/bob.agc", HAND_INS["dora.agc"] + "# another\n")
        write_text(f"{self.room}/class/slow one.agc", MODEL + "# slow\n")
        status, out, _ = call("grade", *asked, "--seconds", "1", "--jobs", "2", env=env)
        last = out.splitlines()
        with self.subTest("what has changed"):
            self.assertIn("bob\t1/2\tkeys: word 2 of CH 011 is 00002", out, out)
        with self.subTest("what has no end"):
            self.assertIn("slow one\t0/2\tagcws check has no end within 1 seconds", out, out)
        with self.subTest("the class after that"):
            self.assertEqual((status, last[-1]), (0, "15 hand-ins: 3 right, 8 wrong, 2 refused, 2 not judged."))
        again = [it for it in text_at(calls).splitlines() if f"{self.room}/class/" in it]
        with self.subTest("one that was cut short, and those that are new"):
            self.assertEqual(len({re.search(r"class/.*?\.agc", it)[0] for it in again}), 3, "\n".join(again))
        status, _, err = call("grade", *[it if it != STEPS else "601" for it in asked])
        with self.subTest("results of another task"):
            self.assertEqual((status, err), (2, f"{kept} keeps something else: the results of another source, feed, program or option\n"))

    def test_refused(self):
        asked = room_of(self.room)
        wrong = write(f"{self.room}/wrong.agc", b" FROB 1\n")
        with self.subTest("a model that is refused"):
            self.assertEqual(call("grade", asked[0], wrong, *asked[2:]), (1, "", "the model: agcws: E15 LINE 1\n"))
        with self.subTest("a feed that is refused"):
            self.assertEqual(call("grade", *asked[:3], "--feed", wrong, "--out", f"{self.room}/none"), (1, "", "the model: agcws: E30 LINE 1\n"))
        with self.subTest("no folder"):
            self.assertEqual(call("grade", f"{self.room}/none", *asked[1:]), (3, "", f"grade: {self.room}/none: no such folder\n"))
        os.mkdir(f"{self.room}/empty")
        with self.subTest("no hand-ins"):
            self.assertEqual(call("grade", f"{self.room}/empty", *asked[1:3], "--out", f"{self.room}/of none"), (0, "0 hand-ins: 0 right, 0 wrong, 0 refused, 0 not judged.\n", ""))
        # A program without an end that is slower than the model: its words come in 4 times N steps
        loop = " SETLOC 4000\nL CAF ONE\n EXTEND\n WRITE 10\n{} TCF L\nONE OCT 1\n"
        write_text(f"{self.room}/loops/slow.agc", loop.format(" NOOP\n NOOP\n"))
        write_text(f"{self.room}/loops/fast.agc", loop.format("").replace(" TCF L", " EXTEND\n WRITE 10\n TCF L"))
        fast = write(f"{self.room}/fast.agc", loop.format("").encode())
        status, out, _ = call("grade", f"{self.room}/loops", fast, "40", "--out", f"{self.room}/looped")
        with self.subTest("programs without an end"):
            self.assertEqual((status, out.splitlines()), (0, ["fast\t1/1\t", "slow\t1/1\t", "2 hand-ins: 2 right, 0 wrong, 0 refused, 0 not judged."]))

    def test_noted(self):
        """A right hand-in whose run has a note, of which the model has none, says so."""
        asked = room_of(self.room)
        write_text(f"{self.room}/two/keeps.agc", MODEL)
        write_text(f"{self.room}/two/loses.agc", MODEL.replace("        DXCH    ARUPT\n        RESUME\n", "        RESUME\n"))
        status, out, _ = call("grade", f"{self.room}/two", *asked[1:5], "--out", f"{self.room}/noted")
        with self.subTest("notes of what is right"):
            self.assertEqual((status, out.splitlines()[:2]), (0, ["keeps\t1/1\t", "loses\t1/1\tnotes: NOTKEPT"]))

    def test_changed(self):
        """Of 30 changed solutions of an exercise of the course, at least 26 are told with the line that was changed, or that follows where it is left out."""
        lesson = f"{EXAMPLES}/course/10"
        those = list(changed(text_at(f"{lesson}/model.agc")))
        for number, (line, text) in enumerate(those):
            write_text(f"{self.room}/class/{number:02} {line}.agc", text)
        status, out, err = call("grade", f"{self.room}/class", f"{lesson}/model.agc", "--expect", f"{lesson}/exercise.expect", "--out", f"{self.room}/graded")
        with self.subTest("the end of grading by tests"):
            self.assertEqual((status, err), (0, ""))
        heads, *rows = csv.reader(text_at(f"{self.room}/graded/class.csv").splitlines())
        found = [dict(zip(heads, it)) for it in rows]
        wrong = [it for it in found if it["right"] != "2/2"][:30]
        with self.subTest("so many are wrong"):
            self.assertEqual(len(wrong), 30)
        silent = [it["hand-in"] for it in wrong if not told_line(int(it["hand-in"].split()[1]), it)]
        with self.subTest("the line that was changed is told of 26 at least"):
            self.assertTrue(len(silent) <= 4, f"{silent}")
        with self.subTest("the columns of a class by tests"):
            self.assertEqual(heads[:4], ["hand-in", "right", "each key is echoed", "the sum of 50 to 1, whenever keys come"])
        sheets = [text_at(f"{self.room}/graded/pages/{it}") for it in os.listdir(f"{self.room}/graded/pages")]
        with self.subTest("the claim that fails, and how its word came about"):
            self.assertTrue(any("CHANNEL 011 1275D THEN NOTHING: it is 02316 (1230)" in it and "IN STEP 60" in it for it in sheets))

    def test_by_tests(self):
        """A class by tests alone, without a model; and tests that are refused, or that the model does not meet."""
        asked = room_of(self.room)
        tests = write(f"{self.room}/sum of keys.expect", b"# carriage returns are left out\nSOURCE x.agc\nFEED keys.feed\nSTEPS 600\nTEST sums\n CHANNEL 011 1 3 7\nTEST the total\n AT END TOTAL = 7\n")
        status, out, err = call("grade", asked[0], "--expect", tests, "--out", f"{self.room}/by tests")
        lines = dict(it.split("\t", 1) for it in out.splitlines()[:-1])
        with self.subTest("the end of a class by tests"):
            self.assertEqual((status, err, out.splitlines()[-1].split(":")[0]), (0, "", "14 hand-ins"))
        with self.subTest("one that is right"):
            self.assertEqual(lines["bob"], "2/2\t", out)
        with self.subTest("one that is wrong"):
            self.assertTrue(lines["dora"].startswith("0/2\tsums: CHANNEL 011 1 3 7: it is 00002 (2)"), out)
        with self.subTest("one that has no such cell"):
            self.assertTrue(lines["carl"].startswith("0/2\tline 8 of the tests, AT END TOTAL = 7: an erasable place is asked for"), out)
        with self.subTest("one that is refused"):
            self.assertTrue(lines["emil"].startswith("0/2\t8:9: error E15"), out)
        status, _, err = call("grade", asked[0], f"{self.room}/class/dora.agc", "--expect", tests, "--out", f"{self.room}/none")
        with self.subTest("a model that does not meet the tests"):
            self.assertTrue(status == 1 and err.startswith("the model: sums: CHANNEL 011 1 3 7"), err)
        status, _, err = call("grade", asked[0], "--expect", tests, "--channel", "11", "--out", f"{self.room}/none")
        with self.subTest("a channel beside tests"):
            self.assertTrue(status == 2 and "--expect has a feed, steps and channels of its own" in err, err)
        status, _, err = call("grade", asked[0], "--out", f"{self.room}/none")
        with self.subTest("neither a model nor tests"):
            self.assertTrue(status == 2 and "MODEL and N are asked for, or --expect FILE" in err, err)


if __name__ == "__main__":
    unittest.main()
