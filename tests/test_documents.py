"""What README.md, examples/README.md, docs/MANUAL.md, docs/COURSE.md, docs/WALKS.md and the pages of rows/ show, compared with what the program writes, byte for byte (documents.py says how blocks are read)."""
import re
import unittest

from common import Case, text_of
from documents import Document, settle


class Documents(Case):
    """README.md, the manual, the examples, the course, the walks and the worked rows."""

    def setUp(self):
        super().setUp()
        settle(self.room)

    def test_pages(self):
        for name in ["README.md", "examples/README.md", "docs/COURSE.md", "docs/WALKS.md"]:
            Document(self, name).check()

    def test_worked_rows(self):
        for name in ["tests/rows/sessions.md", "tests/rows/mistakes.md", "tests/rows/long_sessions.md"]:
            Document(self, name).check()

    def test_manual(self):
        Document(self, "docs/MANUAL.md").check()

    def test_lengths(self):
        words = len(text_of("docs/WALKS.md").split())
        with self.subTest("docs/WALKS.md has 900 words at most"):
            self.assertTrue(words <= 900, f"{words}")
        fences = re.findall(r"^```.*$", text_of("docs/MANUAL.md"), re.M)
        with self.subTest("each block of the manual says what it is"):
            self.assertTrue("```" not in fences[::2] and set(fences[1::2]) == {"```"})


if __name__ == "__main__":
    unittest.main()
