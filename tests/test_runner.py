"""Tests of gate/tests: what it counts, what it tells, and which tests a name means."""
import subprocess
import sys
import unittest

from common import ROOT, Case, write_text

SOUND = """import unittest

class Two(unittest.TestCase):
    def test_rows(self):
        for it in range(3):
            with self.subTest(it):
                self.assertLess(it, 3)

    def test_alone(self):
        pass
"""
WRONG = """import unittest

class Wrong(unittest.TestCase):
    def test_rows(self):
        for it in range(3):
            with self.subTest(it):
                self.assertLess(it, 2)

    @unittest.skip("it is Monday")
    def test_skipped(self):
        pass

class Error(unittest.TestCase):
    def test_error(self):
        raise ValueError("of this kind")
"""


class Runner(Case):
    def setUp(self):
        super().setUp()
        write_text(f"{self.room}/tests/test_sound.py", SOUND)

    def ran(self, *words):
        """The status, the last line, and all that was said."""
        ran = subprocess.run([sys.executable, f"{ROOT}/gate/tests", *words], cwd=self.room, capture_output=True, text=True, timeout=300)
        return ran.returncode, (ran.stdout.splitlines() or [""])[-1], ran.stdout + ran.stderr

    def test_subtests_and_tests_without_any_are_counted(self):
        self.assertEqual(self.ran()[:2], (0, "4 passed, 0 failed"))
        self.assertEqual(self.ran("test_sound.Two.test_rows")[:2], (0, "3 passed, 0 failed"))
        self.assertEqual(self.ran("tests/test_sound.py")[:2], (0, "4 passed, 0 failed"))

    def test_what_fails_and_what_is_skipped_is_told(self):
        write_text(f"{self.room}/tests/test_wrong.py", WRONG)
        status, last, said = self.ran()
        self.assertEqual((status, last), (1, "6 passed, 2 failed"))
        for it in ("test_rows (test_wrong.Wrong", "2 not less than 2", "ValueError: of this kind", "it is Monday", "test_wrong.Wrong: 2 passed, 1 failed"):
            self.assertIn(it, said)
        self.assertEqual(self.ran("--but", "test_wrong")[:2], (0, "4 passed, 0 failed"))

    def test_a_file_that_cannot_be_loaded_has_failed(self):
        write_text(f"{self.room}/tests/test_wrong.py", "import nowhere\n")
        status, last, said = self.ran()
        self.assertEqual((status, last), (1, "4 passed, 1 failed"))
        self.assertIn("No module named 'nowhere'", said)

        write_text(f"{self.room}/tests/test_wrong.py", "[][0]\n")
        status, last, said = self.ran()
        self.assertEqual((status, last), (1, "4 passed, 1 failed"))
        self.assertIn("IndexError", said)

    def test_a_process_that_ends_by_itself_has_failed(self):
        write_text(f"{self.room}/tests/test_wrong.py", WRONG.replace('raise ValueError("of this kind")', "__import__('os').abort()"))
        self.assertEqual(self.ran("test_wrong.Error")[:2], (1, "0 passed, 1 failed"))

    def test_other_names(self):
        for words in (["test_none"], ["--all"], ["views"]):
            with self.subTest(words):
                self.assertEqual(self.ran(*words)[0], 1)


if __name__ == "__main__":
    unittest.main()
