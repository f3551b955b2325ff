"""Tests of views/shake."""
import os
import unittest

from common import EXAMPLES, PROGRAM, VIEWS, write
import pipe
from batch import value_of
from terminal import Terminal
from viewing import LOST, ViewCase, call, text_at

# The handler leaves 0 in Q. By hand: WRITE ends at 6, and then TC SUB, two NOOP, TC 2, the word at Q and TCF LOOP take a cycle each. A pulse at 7, 8 and 9 comes
# between TC SUB and TC 2, which then leads to the word 0 at Q, and so to the one at A, for ever.
DIES = b""" SETLOC 4000
 RELINT
 CAF FIVE
 EXTEND
 WRITE 10
LOOP TC SUB
 TCF LOOP
SUB NOOP
 NOOP
 TC 2
FIVE OCT 5
ZERO OCT 0
 SETLOC 4024
 CAF ZERO
 TS 2
 RESUME
"""
# Puts out X in the handler, which has A from it. By hand: RELINT ends at 1, CAF at 3, TS at 5: before that X is 0, and A too where the handler comes behind CAF.
ANSWERS = b""" SETLOC 100
X ERASE
 SETLOC 4000
 RELINT
 CAF FIVE
 TS X
DONE TCF DONE
FIVE OCT 5
 SETLOC 4024
 CA X
 EXTEND
 WRITE 10
 RESUME
"""
# X is 1 at the end, or 2 where the handler counts too; 1 where that is lost. By hand: RELINT ends at 1, CA at 3, AD at 5, TS at 7: a handler that comes behind CA
# or AD, for an input at 2 to 5, counts in vain.
COUNTS = b""" SETLOC 100
X ERASE
 SETLOC 4000
 RELINT
 CA X
 AD ONE
 TS X
DONE TCF DONE
ONE OCT 1
 SETLOC 4024
 INCR X
 RESUME
"""
# Puts out X, makes it 1, and puts that out. By hand: the steps end at 2, 3, 5, 7, 9, 11, 12 and 14.
PUTS = b""" SETLOC 100
X ERASE
 SETLOC 4000
 CA X
 EXTEND
 WRITE 10
 CAF ONE
 TS X
 CAF ONE
 EXTEND
 WRITE 11
DONE TCF DONE
ONE OCT 1
"""


class Shake(ViewCase):
    """Inputs that are moved."""

    def test_shake(self):
        # lost_sum.agc tells by hand why a pulse at 27 leaves 75; without one the sum is 62, at 77
        status, out, _ = call("shake", LOST[0], "200", "TIME3 PINC")
        lines = out.splitlines()
        with self.subTest("an input that does harm"):
            self.assertTrue(status == 1 and lines[0] == "without it: CH 012 00062" and sum(int(it.split()[0]) for it in lines[1::2]) == 77, out)
        at = lines.index("6 of 77 cycles: CH 012 word 1 is 00075 in place of 00062; NOTE NOTKEPT 02,4016 50017 RESUME")
        with self.subTest("where it does so"):
            self.assertEqual(lines[at + 1], "  26-29 37-38")
        wanted = "without it: CH 012 00075\n1 of 1 cycles: the same\n  60\n"
        with self.subTest("a second pulse, with a feed"):
            self.assertEqual(call("shake", LOST[0], "200", "TIME3 PINC", "--feed", LOST[1], "--from", "60", "--to", "60", "--jobs", "1"), (0, wanted, ""))
        # A loop without an end, and a routine that is RESUME alone: the last words of N steps come later
        source = write(f"{self.room}/loop.agc", b"X EQUALS 100\n SETLOC 4000\n RELINT\nLOOP INCR X\n CA X\n EXTEND\n WRITE 10\n TCF LOOP\n SETLOC 4024\n RESUME\n")
        status, out, _ = call("shake", source, "40", "CHAN 15 21", "--to", "30")
        with self.subTest("words that come later"):
            self.assertEqual((status, out.splitlines()[1:]), (0, ["30 of 30 cycles: the same", "  1-30"]), out)
        # A word of its own, and one that is put out before or after that of the routine
        source = write(f"{self.room}/two.agc", b" SETLOC 4000\n RELINT\n CAF FIVE\n EXTEND\n WRITE 10\nDONE TCF DONE\nFIVE OCT 5\n SETLOC 4024\n EXTEND\n WRITE 11\n RESUME\n")
        other = "without it: CH 010 00005\n6 of 6 cycles: CH 011 word 1 is 00005 in place of none\n  1-6\n"
        status, out, _ = call("shake", source, "50", "CHAN 15 21", "--channel", "10")
        with self.subTest("one channel alone"):
            self.assertEqual((status, out.splitlines()[-2:]), (0, ["6 of 6 cycles: the same", "  1-6"]), out)
        status, out, _ = call("shake", source, "50", "CHAN 15 21", "--from", "4")
        with self.subTest("words of the routine"):
            self.assertEqual((status, out), (0, other.replace("6 of 6", "3 of 3").replace("1-6", "4-6")))
        status, out, _ = call("shake", source, "50", "RUPT 2", "--from", "2", "--to", "2")
        with self.subTest("a routine that is not there"):
            self.assertEqual((status, out.splitlines()[1]), (1, "1 of 1 cycles: CH 010 word 1 is none in place of 00005; NOTE NOHANDLER 02,4010 ENTRY T5RUPT and 4 more"))
        status, out, _ = call("shake", f"{EXAMPLES}/five_plus_five.agc", "10", "CHAN 33 1")
        with self.subTest("up to the last word"):
            self.assertEqual(out.splitlines()[1:], ["15 of 15 cycles: the same", "  1-15"])
        # The input comes after the one of its cycle, and before later ones
        source = write(f"{self.room}/read.agc", b" SETLOC 4000\n NOOP\n NOOP\n NOOP\n EXTEND\n READ 33\n EXTEND\n WRITE 10\nDONE TCF DONE\n")
        feed = write(f"{self.room}/read.feed", b"# 7 inputs\nEVERY 0 1 1 1 RUPT 1\n1 CHAN 33 1\n\n2 CHAN 33 3\n")
        status, out, _ = call("shake", source, "20", "CHAN 33 2", "--feed", feed, "--to", "3")
        wanted = "without it: CH 010 00003\n1 of 3 cycles: the same\n  1\n2 of 3 cycles: CH 010 word 1 is 00002 in place of 00003\n  2-3\n"
        with self.subTest("an input among others"):
            self.assertEqual((status, out), (1, wanted))
        with self.subTest("an input that is refused"):
            self.assertEqual(call("shake", LOST[0], "200", "TIME3 MINC"), (1, "", "TIME3 MINC: agcws: E33 LINE 1\n"))
        with self.subTest("a feed that is refused"):
            self.assertEqual(call("shake", LOST[0], "200", "RUPT 1", "--feed", LOST[0]), (1, "", "agcws: E30 LINE 4\n"))
        silent = write(f"{self.room}/silent.agc", b" SETLOC 4000\nDONE TCF DONE\n")
        with self.subTest("nothing is put out"):
            self.assertEqual(call("shake", silent, "9", "RUPT 1"), (0, "without it: nothing is put out\n9 of 9 cycles: the same\n  1-9\n", ""))
        rope = f"{self.room}/shaken.rope"
        pipe.answer("asm", silent, rope)
        with self.subTest("an image"):
            self.assertEqual(call("shake", "--image", rope, "9", "RUPT 1"), (0, "without it: nothing is put out\n9 of 9 cycles: the same\n  1-9\n", ""))

    def test_notes_of_runs(self):
        """A program that dies without another word is not the same; a run that ends within an interrupt is, where a longer one does not."""
        source = write(f"{self.room}/dies.agc", DIES)
        asked = ["shake", source, "60", "RUPT 5", "--from", "7", "--to", "12"]
        wanted = "without it: CH 010 00005\n3 of 6 cycles: NOTE NOTKEPT 02,4026 50017 RESUME and 1 more\n  7-9\n3 of 6 cycles: NOTE NOTKEPT 02,4026 50017 RESUME\n  10-12\n"
        with self.subTest("a program that dies"):
            self.assertEqual(call(*asked), (1, wanted, ""))
        with self.subTest("its words alone"):
            self.assertEqual(call(*asked, "--no-notes"), (0, "without it: CH 010 00005\n6 of 6 cycles: the same\n  7-12\n", ""))
        # (step 9 is TS, in the midst of the handler that was entered at 10 or 11)
        with self.subTest("a run that ends within an interrupt"):
            self.assertEqual(call("shake", source, "12", "RUPT 5", "--from", "10", "--to", "12"), (0, "without it: CH 010 00005\n3 of 3 cycles: the same\n  10-12\n", ""))
        stays = write(f"{self.room}/stays.agc", b" SETLOC 4000\n RELINT\nDONE TCF DONE\n SETLOC 4024\nHERE TCF HERE\n")
        with self.subTest("a handler that does not end"):
            self.assertEqual(call("shake", stays, "20", "RUPT 5", "--to", "2"), (1, "without it: nothing is put out\n2 of 2 cycles: NOTE INSIDE\n  1-2\n", ""))

    def test_most_often(self):
        """Where nothing is put out without the input, most of the runs are the measure."""
        source = write(f"{self.room}/answers.agc", ANSWERS)
        wanted = "without it: nothing is put out\nmost often: CH 010 00005\n17 of 20 cycles: the same\n  4-20\n1 of 20 cycles: CH 010 word 1 is 00000 in place of 00005\n  1\n"
        wanted += "2 of 20 cycles: CH 010 word 1 is 00000 in place of 00005; NOTE NOTKEPT 02,4027 50017 RESUME\n  2-3\n"
        with self.subTest("nothing is put out without the input"):
            self.assertEqual(call("shake", source, "60", "RUPT 5", "--to", "20"), (1, wanted, ""))
        with self.subTest("no cycles"):
            self.assertEqual(call("shake", source, "60", "RUPT 5", "--from", "3", "--to", "2"), (0, "without it: nothing is put out\n", ""))

    def test_state(self):
        """A word that nothing puts out is looked at too; what it is most often is right."""
        source = write(f"{self.room}/counts.agc", COUNTS)
        wanted = "without it: X 00001\nmost often: X 00002\n5 of 9 cycles: the same\n  1 6-9\n4 of 9 cycles: X is 00001 in place of 00002\n  2-5\n"
        with self.subTest("a word of memory"):
            self.assertEqual(call("shake", source, "60", "RUPT 5", "--to", "9", "--state", "X"), (1, wanted, ""))
        with self.subTest("no word of memory"):
            self.assertEqual(call("shake", source, "60", "RUPT 5", "--to", "9"), (0, "without it: nothing is put out\n9 of 9 cycles: the same\n  1-9\n", ""))
        status, out, err = call("shake", source, "60", "RUPT 5", "--to", "9", "--state", "NONE")
        with self.subTest("a place that is none"):
            self.assertTrue((status, out) == (2, "") and "NONE" in err, f"{status} {out} {err}")

    def test_two(self):
        """A second input at each of some cycles. By hand as above: with one at 6 X is 2 before, so that the first makes it 3, or 2 where it is lost or comes while the other is asked for."""
        source = write(f"{self.room}/counts.agc", COUNTS)
        status, out, err = call("shake", source, "60", "RUPT 5", "--to", "9", "--second", "RUPT 6", "--second-at", "20-22", "--no-notes")
        with self.subTest("two inputs"):
            self.assertTrue((status, err) == (0, "") and out.startswith("RUPT 6 at 20-22\n  without it: nothing is put out\n  9 of 9 cycles: the same\n"), f"{status} {out} {err}")
        with self.subTest("a span that is backwards"):
            self.assertEqual(call("shake", source, "60", "RUPT 5", "--second", "RUPT 6", "--second-at", "9-3")[0], 2)
        with self.subTest("a second input without its cycles"):
            self.assertEqual(call("shake", source, "60", "RUPT 5", "--second", "RUPT 6")[0], 2)
        with self.subTest("a second input that is refused"):
            self.assertEqual(call("shake", source, "60", "RUPT 5", "--second", "RUPT 66", "--second-at", "1-2"), (1, "", "RUPT 66: agcws: E30 LINE 1\n"))

    def test_each_interrupt(self):
        """Each interrupt that has a handler comes at each place of the main program, without a word about where to look."""
        status, out, err = call("shake", LOST[0], "60", "--each-interrupt", "--feed", LOST[1])
        with self.subTest("the status where an interrupt does harm"):
            self.assertEqual((status, err), (1, ""))
        with self.subTest("the interrupt and how many places"):
            self.assertTrue("\nRUPT 3: 3 of 16 places give the same\n" in out and out.count("RUPT") == 1, out)
        with self.subTest("the places where it does, as one"):
            self.assertTrue(out.count("    at ") == 1 and "02,4107 AD TABLE +4, 02,4110 TS SUM, " in out.replace("\n    ", " "), out)
        keeps = write(f"{self.room}/keeps.agc", text_at(LOST[0]).replace("        CAF     ONE\n        ADS     TICKS\n", "        INCR    TICKS\n").encode())
        wanted = "without it: CH 012 00062\nRUPT 3: 16 of 16 places give the same\n"
        with self.subTest("a handler that keeps all"):
            self.assertEqual(call("shake", keeps, "100", "--each-interrupt"), (0, wanted, ""))
        with self.subTest("an input and each interrupt"):
            self.assertEqual(call("shake", keeps, "100", "RUPT 3", "--each-interrupt")[0], 2)
        with self.subTest("an input at each place"):
            self.assertEqual(call("shake", keeps, "100", "RUPT 3", "--each-place"), (0, wanted, ""))
        status, found, _ = call("shake", LOST[0], "60", "RUPT 3", "--each-place", "--feed", LOST[1])
        with self.subTest("an input at each place that does harm"):
            self.assertEqual((status, found), (1, out))
        with self.subTest("each place of no input"):
            self.assertEqual(call("shake", keeps, "100", "--each-place")[0], 2)
        with self.subTest("each place of an input that is refused"):
            self.assertEqual(call("shake", keeps, "100", "TIME3 MINC", "--each-place"), (1, "", "TIME3 MINC: agcws: E33 LINE 1\n"))

    def test_audited(self):
        """Two of the faults of audited.agc, without a word about where they are. By hand: T5RUPT leaves SPEED, 1, in TMP, where LXCH has put twice that for CA; KEYRUPT1
        loses Q, which is the only one that knows the way back from TC UPDATE to the first QXCH RTRN, and from the second to TC Q."""
        status, out, err = call("shake", f"{EXAMPLES}/audited.agc", "300", "--each-interrupt")
        with self.subTest("the status of an audit"):
            self.assertEqual((status, err), (1, ""))
        with self.subTest("a word that two levels use"):
            self.assertIn("places give the same\n  CH 011 word 1 is 00001 in place of 00002\n    at 02,4122 CA TMP\nRUPT 4:", out)
        key = out.partition("RUPT 5:")[2]
        with self.subTest("a way back that is lost"):
            self.assertTrue("CH 011 word 1 is none in place of 00002; NOTE NOTKEPT" in key and "    at 02,4111 EXTEND, 02,4131 QXCH RTRN, 02,4132 TC Q\n" in key, out)

    def test_audited_with_feed(self):
        """The same two with its feed. In 2,000 steps its own interrupts come to the same wherever they are moved; in 3,000 they do not, and what an interrupt does itself
        stands before. NOTKEPT is noted without it too, since the feed has keys; the way back that is lost leads to the word at L."""
        for steps in ("2000", "3000"):
            status, out, err = call("shake", f"{EXAMPLES}/audited.agc", steps, "--each-interrupt", "--feed", f"{EXAMPLES}/audited.feed")
            with self.subTest("the status", steps=steps):
                self.assertEqual((status, err), (1, ""))
            second, key = out.partition("RUPT 2:")[2].partition("RUPT 4:")[0], out.partition("RUPT 5:")[2]
            with self.subTest("a word that two levels use", steps=steps):
                self.assertRegex(second, r"^ \d+ of 29 places give the same\n  CH 011 word 1 is 00001 in place of 00002(; NOTE .*)?\n    at 02,4122 CA TMP\n")
            with self.subTest("a way back that is lost", steps=steps):
                self.assertRegex(key, r"^ \d+ of 29 places give the same\n  CH 011 word 1 is none in place of 00002; NOTE .*\n    at 02,4111 EXTEND, 02,4131 QXCH RTRN, 02,4132 TC Q\n")

    def test_restart(self):
        """A restart after each step. By hand: PUTS puts out X at 5 and 1 at 14; X is 1 from 9 on. Each restart puts both out again."""
        source = write(f"{self.room}/puts.agc", PUTS)
        wanted = "without it: CH 010 00000; CH 011 00001\n2 of 8 steps: the same\n  2-3 02,4001 EXTEND to 02,4002 WRITE 010\n"
        wanted += "2 of 8 steps: CH 010 word 2 is 00000 in place of none\n  5-7 02,4003 CA ONE to 02,4004 TS X\n"
        wanted += "3 of 8 steps: CH 010 word 2 is 00001 in place of none\n  9-12 02,4005 CA ONE to 02,4007 WRITE 011\n"
        wanted += "1 of 8 steps: CH 010 word 2 is 00001 in place of none; CH 011 word 2 is 00001 in place of none\n  14 02,4010 TCF DONE\n"
        with self.subTest("each step"):
            self.assertEqual(call("shake", source, "60", "RESTART"), (1, wanted, ""))
        with self.subTest("a channel that a restart does not change"):
            self.assertEqual(call("shake", source, "60", "RESTART", "--channel", "11", "--to", "12")[1].splitlines()[1], "7 of 7 steps: the same")
        for words in (["--each-place"], ["--state", "X"], ["--second", "RUPT 1", "--second-at", "1-2"]):
            with self.subTest(" ".join(words)):
                self.assertEqual(call("shake", source, "60", "RESTART", *words)[0], 2)

    def test_kept(self):
        """What is kept is not made again, also after a line that was cut short; and what is kept of something else is refused."""
        counted, calls = f"{self.room}/counted", f"{self.room}/calls"
        write(counted, f'#!/bin/sh\necho "$*" >> "{calls}"\nexec "{PROGRAM}" "$@"\n'.encode())
        os.chmod(counted, 0o755)
        env = {**os.environ, "AGCWS": counted}
        kept = f"{self.room}/kept.jsonl"
        asked = ["shake", LOST[0], "200", "TIME3 PINC", "--to", "30", "--keep", kept]
        first = call(*asked, env=env)
        lines = text_at(kept).splitlines()
        with self.subTest("what is not kept"):
            self.assertEqual(call(*asked[:-2]), first)
        write(kept, "\n".join([*lines[:-9], lines[-9][:7]]).encode())
        with self.subTest("what goes on"):
            self.assertEqual(call(*asked, env=env), first)
        cycles = [it["cycle"] for it in map(value_of, text_at(kept).splitlines()[1:]) if it and "cycle" in it]
        with self.subTest("each cycle once"):
            self.assertEqual(sorted(cycles), list(range(1, 31)))
        write(calls, b"")
        with self.subTest("what is all kept"):
            self.assertEqual(call(*asked, env=env), first)
        # (all that is awaited for the steps of a second N is asked for again)
        with self.subTest("what is kept is not asked for"):
            self.assertFalse(any(it.startswith("whatif") and " 200 " in it for it in text_at(calls).splitlines()), text_at(calls))
        other = call("shake", LOST[0], "201", *asked[3:], env=env)
        with self.subTest("what is kept of something else"):
            self.assertEqual(other[::2], (2, f"{kept} keeps something else: the results of another source, feed, program or option\n"))
        mine = write(f"{self.room}/mine.txt", b"a letter\n")
        with self.subTest("what is no such file"):
            self.assertEqual((call(*asked[:-1], mine)[0], text_at(mine)), (2, "a letter\n"))
        at = Terminal(f"{VIEWS}/shake", LOST[0], "800000", "TIME3 PINC", "--to", "30", "--jobs", "1")
        shown = at.type(b"", b"s left")
        with self.subTest("progress at a terminal"):
            self.assertIn(b" of 30, ", shown, f"{shown!r}")
        at.type(b"", b"in place of")
        with self.subTest("the end at a terminal"):
            self.assertEqual(at.end(), 1)


if __name__ == "__main__":
    unittest.main()
