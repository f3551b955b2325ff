"""Tests of `agcws whatif --notes`: which notes come and go with an input more."""
import os
import re
import unittest

from common import EMPTY, EXAMPLES, Case, write
import pipe

LOST = f"{EXAMPLES}/lost_sum.agc"
# By hand: EXTEND takes a cycle, and READ has what stands on channel 33 after the inputs up to cycle 1. Of 0 CCS goes to CAF: 37777 and 1 overflow, and TS skips.
SKIPS = b""" SETLOC 100
X ERASE
 SETLOC 4000
 EXTEND
 READ 33
 CCS 0
 TCF DONE
 CAF MOST
 AD ONE
 TS X
 NOOP
DONE TCF DONE
MOST OCT 37777
ONE OCT 1
"""
# READ as above; then TC leads to a word of erasable memory, which is 0 and leads to A, and 0 there to itself. An input is a step of its own.
LEADS = b""" SETLOC 100
X ERASE +1
 SETLOC 4000
 EXTEND
 READ 33
 CCS 0
 TC X +1
 TC X
"""


def noted(words, feed, steps):
    """The kinds and places of the notes of a run that come at a step, in their order."""
    told = pipe.answer("run", "--notes", *words, "/dev/stdin", str(steps), given=feed)[1]
    return re.findall(r"NOTE (\S+) +(\S+) .*STEP \d+ CYCLES \d+ TIMES \d+\n", told)


def trials_of(text):
    """The notes of the run without a trial; and of each trial those that come, and those that go."""
    without, trials = [], []
    for line in text.splitlines():
        word, *fields = line.split()
        if word == "NOTE":
            without.append(tuple(fields))
        elif word == "FROM":
            trials += [({"MORE": [], "LESS": []}, int(fields[-1]))]
        else:
            trials[-1][0][word].append(tuple(fields))
    return without, [it for it, count in trials for _ in range(count)]


class WhatIfNotes(Case):
    """Trials of inputs, by the notes that they change."""

    def told(self, source, feed, steps, trials, *options):
        ran = pipe.answer("whatif", "--notes", *options, source, feed, str(steps), "/dev/stdin", given="".join(f"{it}\n" for it in trials))
        return ran[0]

    def test_come(self):
        """lost_sum.agc tells by hand why its handler loses what A had: where A is needed NOTKEPT comes."""
        with self.subTest("a note that comes"):
            told = self.told(LOST, EMPTY, 200, ["26 TIME3 PINC", "27 TIME3 PINC"])
            self.assertEqual(told, "FROM 26 TO 27 COUNT 2\nMORE NOTKEPT 02,4016\n")
        with self.subTest("no trial"):
            self.assertEqual(self.told(LOST, EMPTY, 200, []), "")
        keys = write(f"{self.room}/keys.feed", b"5 CHAN 15 21\n")
        idle = write(f"{self.room}/idle.agc", b" SETLOC 4000\nDONE TCF DONE\n SETLOC 4024\n RESUME\n")
        with self.subTest("a note of an input, which has no place"):
            self.assertEqual(self.told(idle, keys, 40, ["3 CHAN 33 1", "9 CHAN 15 22"]), "FROM 3 TO 3 COUNT 1\nFROM 9 TO 9 COUNT 1\nMORE OVERWRITTEN -\n")

    def test_go(self):
        source = write(f"{self.room}/skips.agc", SKIPS)
        with self.subTest("a note that goes"):
            wanted = "NOTE SKIP 02,4006\nFROM 0 TO 1 COUNT 2\nLESS SKIP 02,4006\nFROM 2 TO 9 COUNT 2\n"
            self.assertEqual(self.told(source, EMPTY, 20, [f"{it} CHAN 33 1" for it in (0, 1, 2, 9)]), wanted)
        with self.subTest("a run that ends before"):
            self.assertEqual(self.told(source, EMPTY, 3, ["0 CHAN 33 1"]), "FROM 0 TO 0 COUNT 1\n")
        source = write(f"{self.room}/leads.agc", LEADS)
        with self.subTest("a note of the same kind at another place"):
            told = self.told(source, EMPTY, 7, ["0 CHAN 33 1"])
            self.assertEqual(told, "NOTE ERASABLE E0,0100\nNOTE ERASABLE E0,0000\nFROM 0 TO 0 COUNT 1\nMORE ERASABLE E0,0101\nLESS ERASABLE E0,0100\n")

    def test_as_run(self):
        """Each trial changes what two calls of run --notes differ in."""
        for name, text in (("lost_sum", "TIME3 PINC"), ("key_echo", "CHAN 15 21"), ("audited", "RUPT 5"), ("audited", "RUPT 2"), ("waitlist", "RUPT 3")):
            source, feed = f"{EXAMPLES}/{name}.agc", f"{EXAMPLES}/{name}.feed"
            with open(feed, encoding="utf-8") as file:
                given = file.read()
            cycles = range(2, 400, 7)
            without, trials = trials_of(self.told(source, feed, 600, [f"{it} {text}" for it in cycles]))
            usual = noted([source], given, 600)
            with self.subTest(f"{name}: the run without {text}"):
                self.assertEqual(without, usual)
            for cycle, trial in zip(cycles, trials, strict=True):
                now = noted([source], pipe.with_input(given, cycle, text), 600)
                wanted = {"MORE": [it for it in now if it not in usual], "LESS": [it for it in usual if it not in now]}
                with self.subTest(f"{name}: {text} at {cycle}"):
                    self.assertEqual(trial, wanted)

    def test_session(self):
        """In a session the trials at each of some steps, with the notes since the start, are told as those at their cycles."""
        for name, text in (("lost_sum", "TIME3 PINC"), ("key_echo", "CHAN 15 21"), ("audited", "RUPT 5"), ("division", "CHAN 33 1"), ("bank_sum", "CHAN 16 1")):
            source, feed = f"{EXAMPLES}/{name}.agc", f"{EXAMPLES}/{name}.feed"
            feed = feed if os.path.exists(feed) else EMPTY
            cycles = [0] + [it.cycles for it in pipe.steps(source, feed, "90")]
            with pipe.Session(source, feed) as session:
                session.ask("run 90")
                for first, last, more in ((0, 0, 500), (0, 90, 400), (20, 60, 0), (31, 47, 12)):
                    with self.subTest(f"{name}: {text} at {first} to {last}"):
                        told = session.ask(f"whatif notes since 0 {text} {more} from {first} to {last}")
                        wanted = self.told(source, feed, last + more, [f"{it} {text}" for it in cycles[first : last + 1]])
                        self.assertEqual(told, wanted.splitlines())

    def test_refused(self):
        with self.subTest("cycles that fall"):
            with self.assertRaisesRegex(pipe.Refused, "E31"):
                self.told(LOST, EMPTY, 9, ["5 RUPT 3", "4 RUPT 3"])
        many = write(f"{self.room}/many.feed", b"1 RUPT 3\n" * 65_536)
        with self.subTest("as many inputs as there can be"):
            with self.assertRaisesRegex(pipe.Refused, "E32"):
                self.told(LOST, many, 9, ["5 RUPT 3"])


if __name__ == "__main__":
    unittest.main()
