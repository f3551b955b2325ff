"""Tests of views/report."""
import os
import re
import unittest

from common import EMPTY, EXAMPLES, PROGRAM, write
import pipe
from viewing import LOST, Page, ViewCase, call, runs, text_at

# Counts down and puts out each count, sets a row of relays, and waits. By hand: CAF ends at 2; a round is TS 2, EXTEND 1, WRITE 2, CCS 2, TCF 1, without the TCF the
# sixth time: the words come at 7, 15, 23, 31, 39 and 47, and 37473 at 49 + 2 + 1 + 2 = 54; then TCF DONE, at 54 for the first time, and 2967 times after 33 steps.
COUNTS = b"""# a first line that is as long as the rules allow, so that no page has room for it in a column of its own beside others
 SETLOC 100
N ERASE
 SETLOC 4000
 CAF FIVE
LOOP TS N
 EXTEND
 WRITE 11
 CCS N
 TCF LOOP
 CAF ROW
 EXTEND
 WRITE 10
DONE TCF DONE
FIVE OCT 5
ROW OCT 37473
 CAF FIVE
"""


class Report(ViewCase):
    """Pages of runs."""

    def test_report(self):
        status, out, err = call("report", *LOST, "22")
        page = Page(self, out)
        is_alone = not page.tags & {"script", "link", "img", "iframe"} and "src" not in page.attributes and "url(" not in out and "//" not in out
        with self.subTest("a page stands alone"):
            self.assertTrue((status, err) == (0, "") and is_alone and {it[1:] for it in page.links} <= page.targets, out)
        # 22 steps by the cycles of the manual: the pulse comes after INDEX of the second turn, and TS of that turn is executed once it was brought back
        for line, wanted in [("13", "1 1"), ("16", "1 2"), ("25", "2 4"), ("27", "2 4"), ("28", "2 4"), ("29", "1 2"), ("32", " "), ("40", " "), ("8", " ")]:
            with self.subTest(f"the account of line {line}"):
                self.assertEqual(page.row(line, 3)[:2], wanted.split(" "))
        with self.subTest("what the other steps were"):
            self.assertEqual([it[:3] for it in page.rows if len(it) == 4][1:], [
            ["words at their places", "19", "35"],
            ["entries of interrupts", "1", "3"],
            ["inputs", "1", "1"],
            ["words that RESUME brought back", "1", "2"],
            ["all", "22", "41"],
        ])
        with self.subTest("a row of the listing"):
            self.assertEqual(page.row("25", 3)[3:], ["25", "02,4104", "54100", "LOOP    TS      COUNT"])
        with self.subTest("the marks"):
            self.assertTrue(any(it.startswith("27 TIME3 PINC") for it in page.texts["title"]) and "30 to 39" in page.texts["title"], f"{page.texts['title']}")
        for source, feed, steps in runs():
            self.try_sums(source, feed, str(min(steps, 6000)))
        self.try_pages()

    def try_sums(self, source, feed, steps):
        """All steps and cycles of a run stand in some account, and all lines on the page."""
        page = Page(self, call("report", source, feed, steps)[1])
        out, end_line = pipe.answer("run", "--end", source, feed, steps)
        placed, *others, whole = [it for it in page.rows if len(it) == 4][1:]
        rows = [it for it in page.rows if len(it) == 7 and it[0].isdigit()]
        for at, total in ((0, end_line.split()[2]), (1, end_line.split()[4])):
            in_rows = sum(int(it[at]) for it in rows)
            elsewhere = sum(int(it[at + 1]) for it in others)
            with self.subTest(f"the accounts of {source}"):
                self.assertEqual((placed[at + 1], whole[at + 1], in_rows + elsewhere), (str(in_rows), total, int(total)))
        texts = page.inside["pre"]
        with self.subTest(f"the lines of {source}"):
            self.assertTrue(texts.endswith(out.rstrip("\n")), f"wanted {out!r}, got {texts!r}")
        notes = pipe.answer("run", "--notes", source, feed, steps)[1].rstrip("\n")
        with self.subTest(f"the notes of {source}"):
            self.assertEqual(texts[: len(texts) - len(out.rstrip("\n"))], notes)

    def try_pages(self):
        """A page in a file, of no steps, of a source with signs that a page has, of a program that leaves its words, and of many lines."""
        file = f"{self.room}/my.html"
        with self.subTest("a page in a file"):
            self.assertEqual(call("report", *LOST, "0", "--out", file), (0, "", ""))
        with self.subTest("a page of no steps"):
            self.assertEqual(Page(self, text_at(file)).row("all", 0), ["all", "0", "0", ""])
        source = write(f"{self.room}/<signs>.agc", b" SETLOC 4000\n<B>&X TCF 5000 # <script>\n")
        page = Page(self, call("report", source, EMPTY, "3")[1])
        with self.subTest("a source with signs that a page has"):
            self.assertEqual((page.row("2", 3)[6], page.texts["h1"]), ("<B>&X TCF 5000 # <script>", ["<signs>.agc over empty.feed"]))
        with self.subTest("what is executed without a word"):
            self.assertEqual([it[:5] for it in page.rows if len(it) == 7][-2:], [["1", "1", "", "", "E0,0000"], ["1", "1", "", "", "02,5000"]])
        page = Page(self, call("report", f"{EXAMPLES}/five_plus_five.agc", EMPTY, "10000")[1])
        with self.subTest("the end of many lines"):
            self.assertEqual(page.texts["pre"][-1].split("\n")[-2:], ["7999 CH 010 00012", ".. and 1000 more"])
        with self.subTest("as many marks as there is room for"):
            self.assertTrue(len(page.texts["title"]) < 1000, f"{len(page.texts['title'])}")
        wrong = write(f"{self.room}/wrong.agc", b" FROB 1\n")
        with self.subTest("a page of a wrong source"):
            self.assertEqual(call("report", wrong, EMPTY, "3"), (1, "", "agcws: E15 LINE 1\n"))

    def test_waiting(self):
        """A program that waits at its end takes no room, words close together do not stand on one another, and constants are no instructions."""
        source = write(f"{self.room}/counts.agc", COUNTS)
        out = call("report", source, EMPTY, "3000")[1]
        page = Page(self, out)
        with self.subTest("the picture is cut"):
            self.assertTrue(any(it == "waits from 0.63 ms on, up to the end at 35.40 ms" for it in page.texts["title"]), f"{page.texts['title']}")
        times = [float(it.removesuffix(" ms")) for it in page.texts["text"] if it.endswith(" ms")]
        with self.subTest("the last time of the picture"):
            self.assertEqual((times[0], times[-1] < 0.9), (0, True))
        with self.subTest("words that have room"):
            self.assertTrue({"00005", "00000", "37473"} <= {*page.texts["text"]}, f"{page.texts['text']}")
        with self.subTest("the row that waits"):
            self.assertEqual(page.row("14", 3)[:2], ["2967", "2967"])
        with self.subTest("its bar"):
            self.assertIn('title="2966 cycles of waiting"', out)
        with self.subTest("bars beside one another"):
            self.assertEqual({it: float(width) for width, it in re.findall(r'style="width: ([0-9.]+)%"[^>]*></div>(?:<div[^>]*></div>)?</td><td id="line(\d+)"', out)}, {"5": 12.5, "6": 75, "7": 37.5, "8": 75, "9": 75, "10": 31.2, "11": 12.5, "12": 6.2, "13": 12.5, "14": 6.2})
        with self.subTest("constants are told apart"):
            self.assertIn("10 of 11 instructions were executed, and 0 of 2 constants.", page.inside["p"], page.inside["p"])
        with self.subTest("words at the end"):
            self.assertTrue("N000000" in page.inside["div"] and "CH010" in page.inside["div"], page.inside["div"][-400:])
        with self.subTest("the display at the end"):
            self.assertIn("+ 23", page.inside["b"], page.inside["b"])
        with self.subTest("no display where none is set"):
            self.assertNotIn("aria-label", call("report", *LOST, "60")[1])
        # (24 words in 10,000 cycles have no room of their own)
        close = write(f"{self.room}/close.agc", b" SETLOC 4000\n" + b" EXTEND\n WRITE 12\n" * 24 + b" TCF 4074\n SETLOC 4074\nL TCF L +1\n TCF L\n" )
        texts = Page(self, call("report", close, write(f"{self.room}/late.feed", b"9000 CHAN 33 1\n"), "9000")[1]).texts["text"]
        with self.subTest("words that have no room"):
            self.assertIn("00000 +23", texts, f"{texts}")
        noted = Page(self, call("report", write(f"{self.room}/noted.agc", b" SETLOC 4000\n TC 5000\n"), EMPTY, "3")[1])
        with self.subTest("notes lead to their rows"):
            self.assertTrue(noted.links and {it[1:] for it in noted.links} <= noted.targets, f"{noted.links}")

    def test_notes(self):
        """What a program with further answers tells stands on the page, and in talk where a source is refused."""
        other = write(f"{self.room}/other", f"""#!/bin/sh
case "$1 $2" in
    "--help ") echo "  check    Tells all faults" ;;
    "run --help") echo "      --notes  Tells what no one meant" ;;
    "run --notes") echo "NOTE <1>" >&2 ;;
    "check "*) echo "$2:1:2: error E15: FROB is no operator"; exit 1 ;;
    *) exec "{PROGRAM}" "$@" ;;
esac
""".encode())
        os.chmod(other, 0o755)
        env = {**os.environ, "AGCWS": other}
        page = Page(self, call("report", *LOST, "22", env=env)[1])
        with self.subTest("notes on a page"):
            self.assertEqual(page.inside["pre"], f"{LOST[0]}:1:2: error E15: FROB is no operator\nNOTE <1>")
        wrong = write(f"{self.room}/wrong.agc", b" FROB 1\n")
        with self.subTest("a refused source in words"):
            self.assertEqual(call("talk", wrong, EMPTY, env=env), (1, "", f"agcws: E15 LINE 1\n{wrong}:1:2: error E15: FROB is no operator\n"))


if __name__ == "__main__":
    unittest.main()
