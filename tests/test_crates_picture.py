"""Tests of crates_picture on small lists of crates."""
import os
import re
import subprocess
import tempfile
import unittest

from common import ROOT
from files import write_text

SCRIPT = f"{ROOT}/gate/crates_picture"
CRATES = "# crates\nwords: arrayvec\nspace: words\nrope: words space\nfeed: words\nagcws: words space rope feed\nlow_tests: words\n"
PAGE = "".join(f"| `{name}` | what {name} is | more |\n" for name in ("words", "space", "rope", "feed", "agcws"))


class Pictures(unittest.TestCase):
    def setUp(self):
        self.room = tempfile.TemporaryDirectory()
        self.addCleanup(self.room.cleanup)
        os.makedirs(f"{self.room.name}/docs/pictures")
        self.put(crates=CRATES, page=PAGE)
        self.assertEqual(self.run_script().returncode, 0)

    def put(self, crates=None, page=None):
        for path, text in (("crates.txt", crates), ("docs/ARCHITECTURE.md", page)):
            if text:
                write_text(f"{self.room.name}/{path}", text)

    def run_script(self, *words):
        return subprocess.run([SCRIPT, *words], cwd=self.room.name, capture_output=True, text=True, check=False)

    def drawn(self):
        with open(f"{self.room.name}/docs/pictures/crates.svg", encoding="utf-8") as it:
            return it.read()

    def test_crates_of_the_program_stand_above_those_that_they_use(self):
        places = {name: int(y) for y, name in re.findall(r'y="(\d+)">(\w+)</text><text class="is"', self.drawn())}
        self.assertEqual(set(places), {"words", "space", "rope", "feed", "agcws"})
        self.assertTrue(places["agcws"] < places["rope"] < places["space"] < places["words"])
        # (agcws to rope and feed, rope to space, space and feed to words: the others are reached through these)
        self.assertEqual(self.drawn().count("<path "), 5)
        self.assertIn("what rope is", self.drawn())

    def test_boxes_of_a_row_do_not_meet(self):
        boxes = [tuple(map(int, it)) for it in re.findall(r'<rect class="crate" x="(\d+)" y="(\d+)" width="(\d+)"', self.drawn())]
        for x, y, width in boxes:
            self.assertEqual([it for it in boxes if it[1] == y and x < it[0] < x + width], [])

    def test_a_picture_of_other_crates_is_refused(self):
        self.assertEqual(self.run_script("--check").stdout, "1 passed, 0 failed\n")
        self.put(crates=CRATES.replace("feed: words", "feed: words space"))
        self.assertEqual(self.run_script("--check").stdout.split("\n")[-2], "0 passed, 1 failed")
        self.assertEqual((self.run_script().returncode, self.run_script("--check").returncode), (0, 0))
        self.put(page=PAGE.replace("what feed is", "timed inputs"))
        self.assertEqual(self.run_script("--check").returncode, 1)

    def test_a_crate_without_a_row_is_told(self):
        self.put(page=PAGE.replace("| `feed` |", "| `food` |"))
        ran = self.run_script("--check")
        self.assertEqual((ran.returncode, ran.stdout.split("\n")[0]), (1, "docs/ARCHITECTURE.md: its table has no row of feed"))


if __name__ == "__main__":
    unittest.main()
