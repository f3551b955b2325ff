"""Tests of views/new."""
import os
import subprocess
import tempfile
import unittest

from common import write
import pipe
from viewing import ViewCase, call, text_at

FILES = ("lamp.agc", "lamp.feed", "lamp.expect")
# By hand: a key at cycle 100 interrupts TCF IDLE. The entry takes 3 cycles, DXCH 3, TCF 1, EXTEND and QXCH 3, EXTEND and READ 3, EXTEND and WRITE 3.
LINES = "116 CH 010 00021\n216 CH 010 00001\n"
# What brings A and L back at the end of the handler.
BACK = "        DXCH    ARUPT\n        RESUME\n"


def call_program(*words):
    """The status of the program, and what it writes to standard output."""
    ran = subprocess.run([pipe.program(), *words], capture_output=True, text=True, timeout=120, check=False)
    return ran.returncode, ran.stdout


class New(ViewCase):
    """Programs to begin with."""

    def test_new(self):
        """What is made is right: check finds nothing, a run has no note, and its tests are met."""
        with tempfile.TemporaryDirectory(prefix="agcws-") as room:
            status, out, error = call("new", "lamp", cwd=room)
            with self.subTest("a program is made"):
                self.assertTrue(status == 0 and not error and all(it in out for it in FILES), out + error)
            with self.subTest("its files"):
                self.assertEqual(sorted(os.listdir(room)), sorted(FILES))
            source, feed, tests = (f"{room}/{it}" for it in FILES)
            with self.subTest("check finds nothing"):
                self.assertEqual(pipe.answer("check", "--unused", source, feed), ("0 errors, 0 warnings\n", ""))
            with self.subTest("its run has no note"):
                self.assertEqual(pipe.answer("run", "--notes", source, feed, "300"), (LINES, ""))
            said = pipe.answer("expect", tests)[0]
            with self.subTest("its tests are met"):
                self.assertTrue(said.count("ok   ") == 3 and "FAIL" not in said, said)
            text = text_at(source)
            with self.subTest("each interrupt has its place"):
                self.assertTrue(all(text.count(f"        SETLOC  {0o4000 + 4 * it:o}") == 1 for it in range(11)))
            with self.subTest("what brings A back stands once"):
                self.assertEqual(text.count(BACK), 1)
            write(source, text.replace(BACK, "        RESUME\n").encode())
            status, said = call_program("expect", tests)
            with self.subTest("a handler that loses A fails"):
                self.assertTrue(status == 1 and "FAIL what a key interrupts finds A, L and Q as they were: line 10" in said, said)

    def test_kept(self):
        """A file that is there stays as it is, and nothing is made beside it."""
        with tempfile.TemporaryDirectory(prefix="agcws-") as room:
            for name in FILES:
                path = write(f"{room}/{name}", b"mine\n")
                with self.subTest(f"{name} is there"):
                    self.assertEqual(call("new", "lamp", cwd=room), (2, "", f"new: {name} is there already, and nothing is made\n"))
                with self.subTest(f"{name} stays alone"):
                    self.assertEqual((os.listdir(room), text_at(path)), ([name], "mine\n"))
                os.remove(path)
            os.symlink("nowhere", f"{room}/lamp.feed")
            with self.subTest("a link that leads nowhere is there too"):
                self.assertEqual(call("new", "lamp", cwd=room)[0], 2)
            os.remove(f"{room}/lamp.feed")
            for name in ("", "la mp", "a.b", "..", "x/-y", "lamp/"):
                status, out, error = call("new", "--", name, cwd=room)
                with self.subTest(f"the name {name!r} is refused"):
                    self.assertTrue(status == 2 and not out and "a name is of letters" in error and not os.listdir(room), error)
            status, _, error = call("new", "nowhere/lamp", cwd=room)
            with self.subTest("a folder that is not there"):
                self.assertTrue(status == 3 and "nowhere/lamp.agc" in error, error)


if __name__ == "__main__":
    unittest.main()
