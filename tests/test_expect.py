"""What `agcws expect` tells of claims, by hand."""
import unittest

from common import Case, agcws, write

# A program of a routine that is called twice (TC Q takes two steps: the word in Q leads back), and one in which an interrupt puts off the word at LOOP; worked by hand, with the cycles of each instruction.
TWICE = b""" SETLOC 4000
START CA TWO
 TC TWICE
 TC TWICE
 EXTEND
 WRITE 10
DONE TCF DONE
TWICE AD TWO
 TC Q
Q EQUALS 2
TWO DEC 2
"""
PUT_OFF = b" SETLOC 100\nCOUNT ERASE\n SETLOC 4000\n RELINT\nLOOP INCR COUNT\n TCF LOOP\n SETLOC 4024\n RESUME\n"
# Tests of the first: claims, and what is told of each after its name.
CLAIMED = [
    ("AT START A = 0", ""),
    ("AT START +1 A = 2", ""),
    ("CALLS TWICE 2", ""),
    ("CALLS TWICE WITHIN 4 CYCLES", ""),
    ("AT END Q +0 <> 0", ""),
    ("AT START A = 1", ": line {}, step 0, cycle 0: it is 00000 (0); wanted = 00001 (1)"),
    ("AT TWO A = 2", ": line {}, step 20, cycle 24: nothing came; wanted = 00002 (2)"),
    ("COVERED 8", ""),
    ("COVERED 9", ": line {}, step 20, cycle 24: it executes 8 instructions; wanted 9 or more"),
    ("CALLS TWICE 3", ": line {}, step 20, cycle 24: it is called 2 times; wanted 3"),
    ("CALLS TWICE 1", ": line {}, step 6, cycle 8: it is called 2 times; wanted 1"),
    ("CALLS TWO WITHIN 9 CYCLES", ": line {}, step 20, cycle 24: it is not called; wanted within 9 cycles"),
    ("CALLS TWICE WITHIN 3 CYCLES", ": line {}, step 5, cycle 7: a call takes longer; wanted within 3 cycles"),
    ("CHANNEL 010 7", ": line {}, step 11, cycle 15: it is 00006 (6); wanted 00007 (7)"),
    ("CHANNEL 010 6 -1D", ": line {}, step 20, cycle 24: nothing came; wanted 77776 (-1)"),
    ("CHANNEL 010 WITHIN 14 CYCLES 6", ": line {}, step 11, cycle 15: it is 00006 (6); wanted within 14 cycles"),
    ("CHANNEL 010 NOTHING", ": line {}, step 11, cycle 15: it is 00006 (6); wanted no word"),
    ("NEVER A = 4", ": line {}, step 3, cycle 5: it is 00004 (4); wanted not = 00004 (4)"),
    ("ALWAYS A < 4", ": line {}, step 3, cycle 5: it is 00004 (4); wanted < 00004 (4)"),
]
# One in which TS skips (16383 + 16383 overflows), and an interrupt that is asked for at cycle 4 waits for more than 853 cycles.
# Steps, with the cycles after each: CA 2, AD 4, the input 4, TS 6, TCF 7, and 1 for each TCF after it.
NOTED = b""" SETLOC 100
SUM ERASE
 SETLOC 4000
START CA MOST
 AD MOST
 TS SUM
 TC START
NOISE TCF NOISE
MOST DEC 16383
"""
SKIPS = "NOTE SKIP       02,4002  54100  TS SUM             STEP 4 CYCLES 6 TIMES 1"
WAITS = "NOTE WAITING KEYRUPT1 STEP 3 CYCLES 4"
UNREAD = "NOTE UNREAD CHAN 015 CYCLES 4"
NOTES = [
    ("NOTES SKIP WAITING UNREAD", ""),
    ("NOTES UNREAD WAITING SKIP SKIP", ""),
    ("NOTES NONE", SKIPS),
    ("NOTES UNREAD", SKIPS),
    ("NOTES SKIP UNREAD", WAITS),
    ("NOTES SKIP WAITING", UNREAD),
    ("NOTES SKIP AT START +2 WAITING UNREAD", ""),
    ("NOTES UNREAD WAITING SKIP AT 02,4002", ""),
    ("NOTES SKIP AT START SKIP AT START +2 UNREAD WAITING", ""),
    ("NOTES SKIP AT NOISE WAITING UNREAD", SKIPS),
    ("NOTES SHARED AT START +2 WAITING UNREAD", SKIPS),
    ("NOTES SKIP WAITING AT START UNREAD", WAITS),
]
# A source of which `check` has two warnings, and one of which it has none.
WARNED = b" SETLOC 4000\n CA 5\n CA 5\nDONE TCF DONE\n"
CLEAN = b" SETLOC 4000\nDONE TCF DONE\n"
# Runs that end where the program idles, worked by hand: a source, a feed, what STEPS says, a claim, and what is told of it.
# TWICE comes to DONE in step 12; 16 is the first power of two from there on. NOTED comes to NOISE in step 3, and takes the input in step 98, so it is 128; one that puts out goes on; and so does one that is only to make its steps. A word of DEC is no instruction, though it is executed.
PUTS = b" SETLOC 4000\nLOOP EXTEND\n WRITE 10\n TCF LOOP\n"
RUNS_ON = b" SETLOC 4000\n CA TWO\nTWO DEC 2\n"
IDLING = [
    (TWICE, b"", "1000 UNTIL IDLE", "COVERED 9", "step 17, cycle 21: it executes 8 instructions; wanted 9 or more"),
    (TWICE, b"", "16 UNTIL IDLE", "COVERED 9", "step 16, cycle 20: it executes 8 instructions; wanted 9 or more"),
    (TWICE, b"", "1000", "COVERED 9", "step 1000, cycle 1004: it executes 8 instructions; wanted 9 or more"),
    (NOTED, b"100 CHAN 15 1\n", "1000 UNTIL IDLE", "COVERED 5", "step 129, cycle 131: it executes 4 instructions; wanted 5 or more"),
    (PUTS, b"", "900 UNTIL IDLE", "COVERED 4", "step 900, cycle 1200: it executes 3 instructions; wanted 4 or more"),
    (RUNS_ON, b"", "2", "COVERED 2", "step 2, cycle 3: it executes 1 instructions; wanted 2 or more"),
]
# Lines of STEPS that are refused, with their columns and what is asked for.
REFUSED_STEPS = [
    ("STEPS UNTIL IDLE", 1, "STEPS and a number of steps, at most 1099511627774, are asked for"),
    ("STEPS 9 9", 9, "UNTIL IDLE or the end of the line is asked for"),
    ("STEPS 9 UNTL IDLE", 9, "UNTIL IDLE or the end of the line is asked for; UNTIL is near"),
    ("STEPS 9 UNTIL IDLE 9", 9, "UNTIL IDLE or the end of the line is asked for"),
]
# Lines that are refused, with their columns and what is asked for.
REFUSED_CLAIMS = [
    ("CALLS", 6, "a label or a place is asked for"),
    ("CALLS NOWHERE 2", 7, "a label or a place is asked for"),
    ("CALLS TWICE", 12, "a number of calls or WITHIN is asked for"),
    ("CALLS TWICE WITHN 5 CYCLES", 13, "a number of calls or WITHIN is asked for; WITHIN is near"),
    ("CALLS TWICE WITHIN 5 CYCLE", 22, "CYCLES is asked for; CYCLES is near"),
    ("CALLS TWICE 2 3", 15, "the end of the line is asked for"),
    ("AT START +2000 A = 0", 10, "a number of words after + is asked for, in octal, which stays in the bank"),
    ("NEVER Q +8 = 0", 9, "a number of words after + is asked for, in octal, which stays in the bank"),
    ("CALS TWICE 2", 1, "TEST, CHANNEL, AT, ALWAYS, NEVER, CALLS, NOTES, CHECK or COVERED is asked for; CALLS is near"),
    ("NOTES", 6, "NONE or a kind of notes, as run --notes tells them, is asked for"),
    ("NOTES SKIPP", 7, "a kind of notes is asked for, as run --notes tells them; SKIP is near"),
    ("NOTES SKIP QUOTENT", 12, "a kind of notes is asked for, as run --notes tells them; QUOTIENT is near"),
    ("NOTES NONE SKIP", 12, "the end of the line is asked for"),
    ("NOTES SKIP ATT START", 12, "a kind of notes is asked for, as run --notes tells them; AT is near"),
    ("NOTES SKIP AT", 14, "a label or a place is asked for"),
    ("NOTES SKIP AT NOWHERE", 15, "a label or a place is asked for"),
    ("NOTES SKIP AT START +2000", 21, "a number of words after + is asked for, in octal, which stays in the bank"),
    ("NOTES SKIP AT START +2 +2", 24, "a kind of notes is asked for, as run --notes tells them"),
    ("NOTES" + " SKIP AT START" * 8 + " SKIP AT TWO +1 SKIP", 131, "no line lists notes at more than 8 places"),
    ("CHECK ALL", 7, "the end of the line is asked for"),
    ("COVERED", 8, "how many instructions are executed at least is asked for"),
    ("COVERED all", 9, "how many instructions are executed at least is asked for"),
]


class Expect(Case):
    """Claims that are met and that are not, lines that are refused, and verdicts as TAP and JUnit."""

    def test_claims(self):
        """What is told of claims that are met and that are not, of lines that are refused, and as TAP and JUnit do."""
        write(f"{self.room}/my.agc", TWICE)
        tests = [f"SOURCE my.agc", "STEPS 20", *[line for number, (claim, _) in enumerate(CLAIMED, 1) for line in (f"TEST {number} & more", f" {claim}")]]
        for ends in ("\n", "\r\n"):
            file = write(f"{self.room}/my.expect", ends.join([*tests, ""]).encode())
            wanted = [f"{'FAIL' if said else 'ok  '} {number} & more{said.format(2 + 2 * number)}" for number, (_, said) in enumerate(CLAIMED, 1)]
            status, out, err = agcws("expect", file)
            with self.subTest(f"claims in lines that end with {ends!r}"):
                self.assertEqual((status, out.decode().splitlines(), err), (1, wanted, b""), f"{out!r} {err!r}")
        short = write(f"{self.room}/short.expect", b"SOURCE my.agc\nSTEPS 20\nTEST \\<1>\n CALLS TWICE 2\nTEST 2\n CHANNEL 10 7\n")
        none = write(f"{self.room}/none.expect", b"SOURCE\n")
        said = "line 6, step 11, cycle 15: it is 00006 (6); wanted 00007 (7)"
        tap = f'TAP version 14\nok 1 - \\\\<1>\nnot ok 2 - 2\n  ---\n  file: "{short}"\n  message: "{said}"\n  ...\nnot ok 3 - {none}\n  ---\n  message: "it is refused"\n  ...\n1..3\n'
        status, out, err = agcws("expect", "--tap", short, none)
        with self.subTest("verdicts as TAP"):
            self.assertTrue((status, out.decode()) == (2, tap) and b"SOURCE and a path are asked for" in err, f"{out!r} {err!r}")
        case = f'<testcase classname="{short}" name='
        xml = f'<?xml version="1.0" encoding="UTF-8"?>\n<testsuites>\n<testsuite name="{short}" tests="2" failures="1" errors="0">\n{case}"\\&lt;1&gt;"/>\n{case}"2"><failure message="{said}"/></testcase>\n</testsuite>\n'
        xml += f'<testsuite name="{none}" tests="1" failures="0" errors="1">\n<testcase classname="{none}" name="{none}"><error message="it is refused"/></testcase>\n</testsuite>\n</testsuites>\n'
        status, out, err = agcws("expect", "--junit", short, none)
        with self.subTest("verdicts as JUnit"):
            self.assertEqual((status, out.decode()), (2, xml), f"{out!r} {err!r}")
        with self.subTest("both forms at once"):
            self.assertEqual(agcws("expect", "--tap", "--junit", short)[0], 2)
        for line, column, asked in REFUSED_CLAIMS:
            file = write(f"{self.room}/refused.expect", f"SOURCE my.agc\nSTEPS 20\nTEST 1\n{line}\n".encode())
            status, out, err = agcws("expect", file)
            with self.subTest(f"{line} is refused"):
                self.assertEqual((status, out, err.decode().splitlines()[:1]), (2, b"", [f"{file}:4:{column}: error: {asked}"]), f"{out!r} {err!r}")
        write(f"{self.room}/my.agc", NOTED)
        write(f"{self.room}/my.feed", b"4 CHAN 15 1\n")
        tests = ["SOURCE my.agc", "FEED my.feed", "STEPS 900", *[line for number, (claim, _) in enumerate(NOTES, 1) for line in (f"TEST {number}", f" {claim}")]]
        file = write(f"{self.room}/my.expect", "\n".join([*tests, ""]).encode())
        status, out, err = agcws("expect", file)
        wanted = [f"FAIL {number}: line {3 + 2 * number}, step 900, cycle 902: {said}; wanted no other note" if said else f"ok   {number}" for number, (_, said) in enumerate(NOTES, 1)]
        with self.subTest("claims of notes"):
            self.assertEqual((status, out.decode().splitlines(), err), (1, wanted, b""), f"{out!r} {err!r}")
        for source, said in ((WARNED, ": line 4, step 9, cycle 11: check: errors 0, warnings 2: my.agc:2:5: warning "), (CLEAN, "")):
            write(f"{self.room}/my.agc", source)
            file = write(f"{self.room}/my.expect", b"SOURCE my.agc\nSTEPS 9\nTEST clean\n CHECK\n")
            status, out, err = agcws("expect", file)
            with self.subTest("claims of what check tells"):
                self.assertTrue(status == bool(said) and out.decode().startswith(f"FAIL clean{said}" if said else "ok   clean\n"), f"{out!r} {err!r}")
                self.assertEqual(out.endswith(b"; wanted none\n"), bool(said), out)
        for source, feed, steps, claim, said in IDLING:
            write(f"{self.room}/my.agc", source)
            write(f"{self.room}/my.feed", feed)
            file = write(f"{self.room}/my.expect", f"SOURCE my.agc\nFEED my.feed\nSTEPS {steps}\nTEST it\n {claim}\n".encode())
            status, out, err = agcws("expect", file)
            with self.subTest(f"{steps} steps of {source[:40]!r}"):
                self.assertEqual((status, out.decode(), err), (1, f"FAIL it: line 5, {said}\n", b""))
        for line, column, asked in REFUSED_STEPS:
            file = write(f"{self.room}/refused.expect", f"SOURCE my.agc\n{line}\nTEST 1\n".encode())
            status, out, err = agcws("expect", file)
            with self.subTest(f"{line} is refused"):
                self.assertEqual((status, out, err.decode().splitlines()[:1]), (2, b"", [f"{file}:2:{column}: error: {asked}"]), f"{out!r} {err!r}")
        # (steps: RELINT, INCR, TCF, the input, the entry, RESUME, INCR out of BRUPT, TCF, INCR, TCF)
        write(f"{self.room}/my.agc", PUT_OFF)
        write(f"{self.room}/my.feed", b"4 CHAN 15 1\n")
        file = write(f"{self.room}/my.expect", b"SOURCE my.agc\nFEED my.feed\nSTEPS 10\nTEST each\n CALLS LOOP 4\n AT END COUNT = 3\n AT LOOP COUNT < 4\n")
        with self.subTest("a word that RESUME brings back"):
            self.assertEqual(agcws("expect", file), (0, b"ok   each\n", b""))


if __name__ == "__main__":
    unittest.main()
