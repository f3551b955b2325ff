"""Runs 37 programs with a planted mistake each, and the same without it: what tells of it, `agcws check`, `run --notes`, or a test of `expect` of three lines at most."""
import os
import re
import subprocess
import tempfile
import unittest

from common import PROGRAM, ROWS, Case

STEPS = "3000"
# Of mistakes in branches the command of a session that names the step which went wrong, and its first line.
NAMED = {
    "16": ("why CH011 control", "WAY 3 CCS 0100 TO 02,4005 FROM E0,0100 77766"),
    "21": ("why CH011 control", "WAY 3 CCS A TO 02,4006 FROM A 177777"),
    "31": ("why step", "WAY 3000 CCS 0100 TO 02,4003 AGAIN +1 FROM E0,0100 00005"),
    "33": ("why step", "WAY 9 BZMF LOOP TO 02,4011 DONE FROM A 000003"),
    "34": ("why CH011 control", "WAY 6 BZF OFF TO 02,4007 OFF FROM A 000000"),
    "37": ("why TIME3", "BY 499 TIME3 PINC : TIME3 00012 FROM TIME3 00011"),
}
# Of places that the program never comes to, or not once more: what `never` tells of them, its first lines.
NEVER = {
    "05": ("HANDLER", "CAME 25\nINTERRUPT 5 INSIDE\n"),
    "09": ("SHOW", "INTERRUPT 5 INHIBITED\n"),
    "16": ("MINUS", "WAY 3 CCS 0100 TO 02,4005 FROM E0,0100 77766\nBY 2 TS 0100 : E0,0100 77766 FROM A 177766\n"),
    "21": ("SAME", "WAY 3 CCS A TO 02,4006 FROM A 177777\n"),
    "25": ("SHOW", "INTERRUPT 5 INHIBITED\n"),
    "26": ("SHOW", "INTERRUPT 4 NOT ASKED\n"),
    "28": ("SHOW", "INTERRUPT 5 NOT ASKED\n"),
    "30": ("DONE", "WAY 1 TC WAITED TO 02,4005 WAITED FROM NOTHING\nALL\n"),
    "31": ("DONE", "WAY 3000 CCS 0100 TO 02,4003 AGAIN +1 FROM E0,0100 00005\n"),
    "33": ("LOOP", "CAME 3\nWAY 9 BZMF LOOP TO 02,4011 DONE FROM A 000003\n"),
    "34": ("4005", "WAY 6 BZF OFF TO 02,4007 OFF FROM A 000000\n"),
    "37": ("SHOW", "INTERRUPT 3 NOT ASKED\n"),
}


def part(text, sign):
    """The lines of a text that are in both programs, and those of a sign."""
    return "".join(f"{line[1:]}\n" for line in text.splitlines() if line[0] in (" ", sign))


def fed(text, sign):
    """The lines of a feed, of which those of the other sign are left out."""
    return "".join(f"{line.lstrip('+-')}\n" for line in text.splitlines() if line[0] not in "+-".replace(sign, ""))


def rows():
    """Each mistake: its number and name, its source and feed, its test, and what tells of it."""
    with open(f"{ROWS}/planted.txt", encoding="utf-8") as file:
        for block in re.split(r"^== ", file.read(), flags=re.M)[1:]:
            name, rest = block.split("\n", 1)
            source, feed, expect, told = re.fullmatch(r"(.*?\n)(?:feed\n(.*?))?expect\n(.*?)TOLD (.*?)\n\s*", rest, re.S).groups()
            yield name, source, feed or "", expect, told.split()


class Planted(Case):
    """Each mistake, and the program without it."""

    def test_mistakes(self):
        """Tries each mistake, and what is right, of which nothing is told, and how many are told by which way."""
        found = {"check": 0, "notes": 0, "expect": 0, "any": 0}
        with tempfile.TemporaryDirectory() as room:

            def call(*words):
                return subprocess.run([PROGRAM, *words], capture_output=True, text=True, timeout=60, cwd=room)

            def tells(name, sign, source, feed, expect):
                """What tells of a program: what check says first, the kinds of notes, and whether the test fails."""
                for file, text in (("my.agc", part(source, sign)), ("my.feed", fed(feed, sign)), ("my.expect", f"SOURCE my.agc\nFEED my.feed\nSTEPS {STEPS}\n{expect}")):
                    with open(os.path.join(room, file), "w", encoding="utf-8") as out:
                        out.write(text)
                checked = re.findall(r": (?:error|warning) ([EW]\d+)", call("check", "my.agc", "my.feed").stdout)
                ran = call("run", "--notes", "my.agc", "my.feed", STEPS)
                if ran.returncode:
                    return checked[:1], [], False
                kinds = list(dict.fromkeys(re.findall(r"^NOTE (\S+)", ran.stderr, re.M)))
                return checked[:1], kinds, call("expect", "my.expect").stdout.startswith("FAIL")

            for name, source, feed, expect, wanted in rows():
                right = tells(name, "+", source, feed, expect)
                with self.subTest(f"{name}: what is right"):
                    self.assertEqual(right, ([], [], False))
                checked, kinds, fails = tells(name, "-", source, feed, expect)
                got = checked + kinds + ["EXPECT"] * fails
                with self.subTest(f"{name}: is told"):
                    self.assertEqual(sorted(got), sorted(wanted), " ".join(got))
                with self.subTest(f"{name}: has a test of three lines at most"):
                    self.assertTrue(len(expect.splitlines()) <= 3)
                if name[:2] in NAMED:
                    asked, line = NAMED[name[:2]]
                    replies = subprocess.run([PROGRAM, "debug", "--extended", "my.agc", "my.feed"], input=f"run {STEPS}\n{asked}\n", capture_output=True, text=True, timeout=60, cwd=room).stdout
                    with self.subTest(f"{name}: is named by {asked}"):
                        self.assertIn(line, replies.splitlines())
                if name[:2] in NEVER:
                    place, told = NEVER[name[:2]]
                    replies = subprocess.run([PROGRAM, "debug", "--extended", "my.agc", "my.feed"], input=f"run {STEPS}\necho .\nnever {place}\n", capture_output=True, text=True, timeout=60, cwd=room).stdout
                    with self.subTest(f"{name}: never {place}"):
                        self.assertTrue(replies.split("\n.\n", 1)[1].startswith(told), replies)
                for way, tells_so in (("check", checked), ("notes", kinds), ("expect", fails), ("any", got)):
                    found[way] += bool(tells_so)
        with self.subTest("how many of 37 mistakes are told"):
            self.assertEqual(found, {"check": 10, "notes": 19, "expect": 32, "any": 37})


if __name__ == "__main__":
    unittest.main()
