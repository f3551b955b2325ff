"""Sources, feeds and tables of names that are refused: the rows of rows/refusals.txt, and those that no short example draws."""
import os
import re
import unittest

from common import EXAMPLES, Case, agcws, text_of, write


def bytes_of(shown):
    """The bytes of a source as a table shows it."""
    text = shown.replace("\\r", "\r").replace("\\f", "\f").encode()
    return re.sub(rb"\\x([0-9A-F]{2})", lambda found: bytes([int(found.group(1), 16)]), text)


class Refusals(Case):
    """Each refusal by its text, its line and its number."""

    def try_refusal(self, number, text, line):
        """A source, or from E30 on a feed, or a table of names, that is refused on a line: one line of error output, and no image."""
        if number == 36:
            with self.subTest("E36 by words"):
                self.assertAnswer(agcws("words", "--symbols", write(f"{self.room}/refused.names", text), f"{EXAMPLES}/empty.feed"), 1, b"", f"agcws: E36 LINE {line}\n".encode())
            return
        source, feed, rope = f"{self.room}/refused.agc", f"{self.room}/refused.feed", f"{self.room}/refused.rope"
        write(source, b"" if number >= 30 else text)
        write(feed, text if number >= 30 else b"")
        error = f"agcws: E{number} LINE {line}\n".encode()
        with self.subTest(f"E{number} by run"):
            self.assertAnswer(agcws("run", source, feed, "1"), 1, b"", error)
        if number < 30:
            with self.subTest(f"E{number} by asm"):
                self.assertAnswer(agcws("asm", source, rope), 1, b"", error)
            with self.subTest(f"E{number} leaves no image"):
                self.assertFalse(os.path.exists(rope))

    def test_refusals(self):
        """The rows of refusals.txt, each with the text that draws it."""
        for row in re.findall(r"^\| E\d+ \|[^|]*\|[^|]*\|[^|]*\|$", text_of("tests/rows/refusals.txt"), re.M):
            if found := re.match(r"\| E(\d+) \|[^|]*\| `([^`]*)` \| (\d+) \|$", row):
                number, shown, line = found.groups()
                self.try_refusal(int(number), bytes_of(shown.replace(";", "\n")) + b"\n", line)
            else:
                with self.subTest(f"refusals.txt draws {row}"):
                    self.assertTrue(re.search(r"\| \(a [^|]*\) \| \|$", row))

    def test_long_texts(self):
        """The refusals that no short example draws."""
        source, feed, empty = f"{self.room}/long.agc", f"{self.room}/long.feed", f"{EXAMPLES}/empty.feed"
        for text, error in [
            (b" OCT 1\r\n", b"agcws: E10 LINE 1\n"),
            (b"#" * 121 + b"\n", b"agcws: E11 LINE 1\n"),
            (b"\n" * 65537, b"agcws: E12 LINE 65537\n"),
            (b"#" * 8388609, b"agcws: E34\n"),
        ]:
            write(source, text)
            with self.subTest(f"a long or wrong source, {error.decode().strip()}"):
                self.assertAnswer(agcws("run", source, empty, "1"), 1, b"", error)
        write(source, b"")
        for text, error in [
            (b"#" * 121 + b"\n", b"agcws: E30 LINE 1\n"),
            (b"0 RUPT 1\n" * 65537, b"agcws: E32\n"),
            (b"EVERY 0 1 1 1 RUPT 1\n" * 17, b"agcws: E35 LINE 17\n"),
            (b"\n" * 8388609, b"agcws: E34\n"),
        ]:
            write(feed, text)
            with self.subTest(f"a long feed, {error.decode().strip()}"):
                self.assertAnswer(agcws("run", source, feed, "1"), 1, b"", error)


if __name__ == "__main__":
    unittest.main()
