"""Tests of ./check: what it counts of its parts, and what it tells at its end."""
import contextlib
import importlib.machinery
import importlib.util
import io
import subprocess
import sys
import unittest
from unittest import mock

from common import ROOT

CHECK = f"{ROOT}/check"
loader = importlib.machinery.SourceFileLoader("check_script", CHECK)
check = importlib.util.module_from_spec(importlib.util.spec_from_loader("check_script", loader))
loader.exec_module(check)


def part(text, status=0, is_beside=False):
    """A part that says a text and ends with a status, and what was shown of it."""
    with contextlib.redirect_stdout(io.StringIO()) as shown:
        made = check.Part("a part", "sh", "-c", f"cat <<'END'\n{text}\nEND\nexit {status}", is_beside=is_beside).end()
    return made, shown.getvalue()


class Parts(unittest.TestCase):
    def test_lines_that_count_are_summed(self):
        for is_beside in (False, True):
            made, shown = part("one: 9 passed, 1 failed\n3 passed, 0 failed\nmore\n4 passed, 0 failed", is_beside=is_beside)
            self.assertEqual(made.counts(), (7, 0))
            self.assertIn("more\n4 passed, 0 failed\n", shown)

    def test_a_part_that_counts_nothing_or_ends_ill_has_failed(self):
        self.assertEqual(part("well")[0].counts(), (0, 1))
        self.assertEqual(part("3 passed, 0 failed", status=1)[0].counts(), (3, 1))
        self.assertEqual(part("3 passed, 2 failed", status=1)[0].counts(), (3, 2))
        self.assertEqual(part("5 passed, 0 failed (words and the crates below alone: not the gate)")[0].counts(), (0, 1))

    def test_edits_tried_and_on_record_are_told_apart_at_the_end(self):
        told = "wrong-edits tried and refused 2; on record 7, refused from 2026-01-01 to 2026-01-02; failed 0"
        parts = [part("3 passed, 0 failed")[0], part(f"{told}\n2 passed, 0 failed")[0]]
        with contextlib.redirect_stdout(io.StringIO()) as shown:
            status = check.tell(parts)
        self.assertEqual((status, shown.getvalue().split("\n")[-3:]), (0, [told, "5 passed, 0 failed", ""]))
        self.assertRegex(shown.getvalue(), r"(?m)^\| a part \| \d+ \| \d+ \|$")
        with contextlib.redirect_stdout(io.StringIO()):
            self.assertEqual(check.tell([*parts, part("0 passed, 1 failed", status=1)[0]]), 1)

    def test_when_each_crate_is_proved(self):
        shown = part("rt: words proved\nrt: words is kept\nrt: feed: its tests are NOT PROVED\n1 passed, 0 failed")[1]
        for line in (r"    0 s  rt: words proved", r"rt: words is kept", r"    0 s  rt: feed: its tests are NOT PROVED"):
            self.assertRegex(shown, f"(?m)^{line}$")

    def test_some_commands_beside_others(self):
        with contextlib.redirect_stdout(io.StringIO()):
            made = check.beside("some", ["echo", "'1 passed, 0 failed'"], ["false"], ["echo", "'2 passed, 0 failed'"]).end()
        self.assertEqual(made.counts(), (3, 1))

    def test_proofs_side_by_side_by_processors_and_memory(self):
        sys.path.insert(0, f"{ROOT}/gate")
        import toolchain

        for processors, free, wanted in ((4, 22e9, 4), (4, 14e9, 2), (4, 3e9, 1), (2, 22e9, 2)):
            with self.subTest(processors=processors, free=free), mock.patch.multiple(toolchain, processors=lambda: processors, free=lambda: free):
                self.assertEqual(check.proofs_at_once(), wanted)

    def test_other_words(self):
        ran = subprocess.run([sys.executable, CHECK, "--fast"], capture_output=True, text=True, check=False)
        self.assertEqual((ran.returncode, ran.stdout), (2, ""))
        self.assertIn("./check --quick", ran.stderr)


if __name__ == "__main__":
    unittest.main()
