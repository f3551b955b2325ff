"""Tests of sessions (session.py) and of terminals (terminal.py): a wrong reply is told at once, and the replies after it are told apart."""
import contextlib
import os
import time
import unittest
from unittest import mock

import common
from common import Case, write
import session
from terminal import CTRL_C, Terminal

# Replies to each line with the line, but for a few.
PROGRAM = b"""#!/usr/bin/env python3
import sys
for line in sys.stdin:
    while line == "on and on\\n":
        print("7 CH 010 00014", flush=True)
    while line == "busy\\n":
        pass
    if line == "slow\\n":
        sum(range(30_000_000))
    if line == "quit\\n":
        break
    if line != "silent\\n":
        print("reply to", line, end="", flush=True)
"""
# The most seconds until a wrong reply is told.
MOST_SECONDS = 20


class Recorder:
    """Takes the place of a test, and keeps whether what it is asked to compare is equal."""

    def __init__(self):
        self.found = []

    def subTest(self, label):
        return contextlib.nullcontext()

    def assertEqual(self, got, wanted):
        self.found.append(got == wanted)


class Sessions(Case):
    """Sessions over a stand-in of the program."""

    def setUp(self):
        super().setUp()
        self.program = write(f"{self.room}/program", PROGRAM)
        os.chmod(self.program, 0o755)
        patch = mock.patch.dict(vars(common), PROGRAM=self.program)
        patch.start()
        self.addCleanup(patch.stop)

    def asked(self, it, command, replies):
        """What a session tells of a command: whether it is well, and whether that took long."""
        started, it.test = time.monotonic(), Recorder()
        it.ask("", command, replies)
        return it.test.found, time.monotonic() - started > MOST_SECONDS

    def test_replies(self):
        it = session.Session(self, "source", "feed")
        for command, replies, is_well in [
            (b"one\n", b"reply to one\n", True),
            (b"slow\n", b"reply to slow\n", True),
            (b"two\n", b"reply to tow\n", False),
            (b"three\n", b"reply to three\nAT 1 2 4001\n", False),
            (b"silent\n", b"reply to silent\n", False),
            (b"four\nfive\n", b"reply to four\nreply to five\n", True),
            (b"quit\n", b"reply\n", False),
            (b"six\n", b"reply to six\n", False),
        ]:
            with self.subTest(f"a session is asked {command!r}"):
                self.assertEqual(self.asked(it, command, replies), ([is_well], False))
        it.test = self
        it.end("the end of a session")

    def test_replies_without_an_end(self):
        it = session.Session(self, "source", "feed")
        self.assertEqual(self.asked(it, b"on and on\n", b"7 CH 010 00012\n"), ([False], False))
        self.assertLess(it.ran.wait(10), 0)

    def test_a_reply_that_does_not_come_in_time(self):
        with mock.patch.object(session, "WAIT_LATER", 0.5), mock.patch.object(session.Session, "longest", 0.5):
            it = session.Session(self, "source", "feed")
            self.assertEqual(self.asked(it, b"busy\n", b"reply to busy\n"), ([False], False))
            self.assertLess(it.ran.wait(10), 0)

    def test_a_terminal_on_which_much_is_shown(self):
        started, at = time.monotonic(), Terminal(self.program, "debug")
        shown = at.type(b"on and on\n", b"00012")
        self.assertIn(b"00014", shown)
        self.assertLess(time.monotonic() - started, MOST_SECONDS)
        at.type(CTRL_C)
        self.assertNotEqual(at.end(), 0)


if __name__ == "__main__":
    unittest.main()
