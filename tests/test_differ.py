"""Tries `agcws differ`: where two runs part, of pairs of runs that were worked out by hand."""
import subprocess
import unittest

from common import EXAMPLES, PROGRAM, Case, read, write

# What the tick of lost_sum.agc spoils is A: INCR counts it without A. The tick comes as step 16, after INDEX of the second round, and is served
# from step 18 on: CAF, ADS and RESUME there, INCR and RESUME here. So TS SUM, which BRUPT holds, is step 22 there and 21 here, and so on.
TICK, MENDED = "        CAF     ONE\n        ADS     TICKS\n", "        INCR    TICKS\n"
# KEY calls BUMP, and does not keep Q. TC SUB is step 3, at cycle 3, and leaves 4102 in Q; EXTEND and QXCH, steps 4 and 5, keep that. A key at
# cycle 3 is step 4, its interrupt steps 5 to 13: of them RETURN is two, TC to Q and the TC 4110 that stands there, at 2, which leaves 3 in Q. So
# EXTEND is step 14 then, and QXCH 15. At cycle 8, after CA ONE, Q is kept already.
KEEPS_NOT = """\
ARUPT   EQUALS  10
        SETLOC  100
RTRN    ERASE
KEYS    ERASE
        SETLOC  4000
        TCF     START
        SETLOC  4024
        DXCH    ARUPT
        TCF     KEY
        SETLOC  4100
START   RELINT
LOOP    TC      SUB
        TCF     LOOP
SUB     EXTEND
        QXCH    RTRN
        CA      ONE
        TC      RTRN
KEY     TC      BUMP
        DXCH    ARUPT
        RESUME
BUMP    INCR    KEYS
        RETURN
ONE     OCT     1
"""
# An interrupt of a key sets FLAG; outside of it the program begins.
KEY_SETS_FLAG = """\
        SETLOC  4000
        TCF     START
        SETLOC  4024
        DXCH    ARUPT
        CA      ONE
        TS      FLAG
        TCF     REST
        SETLOC  4100
START   RELINT
"""
# Waits for a key, in rounds of CCS and TCF, and puts out a word then.
WAITS = f"""\
ARUPT   EQUALS  10
        SETLOC  100
FLAG    ERASE
{KEY_SETS_FLAG}WAIT    CCS     FLAG
        TCF     GO
        TCF     WAIT
GO      CA      ONE
        EXTEND
        WRITE   11
DONE    TCF     DONE
REST    DXCH    ARUPT
        RESUME
ONE     OCT     1
"""
# Tests what its interrupt sets: CCS leaves 0 in A of 1 and of 0. TCF NEXT is step 3, at cycle 3. A key then is step 4, its interrupt steps 5 to 11, of which 8 is
# TS FLAG, so that CCS is step 12 and TCF SET 13; without it CCS is step 4, and TCF CLEAR 5.
TESTS = f"""\
ARUPT   EQUALS  10
        SETLOC  100
FLAG    ERASE
KEPT    ERASE
{KEY_SETS_FLAG}        TCF     NEXT
NEXT    CCS     FLAG
        TCF     SET
        TCF     CLEAR
SET     CA      ONE
        TS      KEPT
DONE    TCF     DONE
CLEAR   CS      ONE
        TS      KEPT
        TCF     DONE
REST    DXCH    ARUPT
        RESUME
ONE     OCT     1
"""
KEY = "CHAN 15 22\n"


def number(text):
    """The number of a step, or None."""
    return int(text) if text.isdigit() else None


class Differ(Case):
    """Pairs of runs, and calls that are refused."""

    def whys(self, words, wanted):
        """Compares what `differ --why` tells below each of the three: cells with the steps that wrote them, and at last where the runs part, or MORE."""
        ran = subprocess.run([PROGRAM, "differ", "--why", *words], capture_output=True, timeout=300)
        told, lines = [], iter(it.split() for it in ran.stdout.decode().splitlines())
        for line in lines:
            if line[0] in ("FIRST", "NO"):
                told.append([])
            elif line[0] == "WHY":
                told[-1].append((line[1], number(next(lines)[0]), number(next(lines)[0])))
            elif line[0] == "PART":
                told[-1].append((number(line[2]), number(line[4])))
            elif line[0] == "MORE":
                told[-1].append("MORE")
        with self.subTest(f"differ --why {words}"):
            self.assertEqual((ran.returncode, ran.stderr, told), (0, b"", wanted))
        # (without --why the rest is told alone)
        plain = subprocess.run([PROGRAM, "differ", *words[1:]], capture_output=True, timeout=300).stdout.decode().splitlines()
        left = [it for it in ran.stdout.decode().splitlines() if it in plain]
        with self.subTest(f"differ without --why {words}"):
            self.assertEqual([it for it in left if "READS" not in it], plain)

    def try_whys(self, lost, tick, mended, empty):
        """Back from the wrong sum to A, which the interrupt has written: each round is TS SUM, AD TABLE, CA SUM."""
        cells = ["CH012", "A", *["SUM", "A", "A"] * 3, "SUM", "A"]
        one = [47, 45, 43, 42, 40, 36, 35, 33, 29, 28, 26, 22, 20]
        # without a tick each is five steps earlier; the mended one has a step less in its interrupt. The last is AD TABLE +3, before the interrupt
        for other, feed, steps, state in ((lost, empty, [*(it - 5 for it in one[:-1]), 16], ("A", 14, 16)), (mended, tick, [*(it - 1 for it in one[:-1]), 17], ("A", 19, 17))):
            output = list(zip(cells, one, steps))
            part = (one[-1], steps[-1])
            self.whys(["16", lost, tick, "60", "--with", other, feed], [[*output, part], [state, state[1:]], [*output[-2:], part]])
            self.whys(["13", lost, tick, "60", "--with", other, feed], [[*output, part], [state, state[1:]], [*output[-2:], part]])
            self.whys(["12", lost, tick, "60", "--with", other, feed], [[*output[:12], "MORE"], [state, state[1:]], [*output[-2:], part]])
            self.whys(["1", lost, tick, "60", "--with", other, feed], [[output[0], "MORE"], [state, state[1:]], [output[-2], "MORE"]])
        self.whys(["999", lost, tick, "46", "--with", mended, tick], [[], [("A", 19, 17), (19, 17)], [*list(zip(cells, one, [it - 1 for it in one]))[-2:-1], ("A", 20, 17), (20, 17)]])
        self.whys(["16", lost, tick, "60", "--with", lost, tick], [[], [], []])

    def try_branch(self, empty):
        """Back from a branch to what it has tested."""
        source, key = write(f"{self.room}/tests.agc", TESTS.encode()), write(f"{self.room}/tests.feed", f"3 {KEY}".encode())
        self.whys(["16", source, key, "40", "--with", source, empty], [[], [("Z", 3, 4), (3, 4)], [("Z", 12, 4), ("FLAG", 8, None), (8, None)]])
        self.whys(["16", source, empty, "40", "--with", source, key], [[], [("Z", 4, 3), (4, 3)], [("Z", 4, 12), ("FLAG", None, 8), (None, 8)]])

    def test_pairs(self):
        """The three pairs of runs of which one part or none differs, what one run has alone, and what is refused."""
        empty = f"{EXAMPLES}/empty.feed"

        def differ(one, feed, steps, other, other_feed, *options):
            """Returns the lines of a call, each as its fields."""
            ran = subprocess.run([PROGRAM, "differ", *options, one, feed, str(steps), "--with", other, other_feed], capture_output=True, timeout=300)
            with self.subTest(f"differ of {one} and {other} is done"):
                self.assertEqual((ran.returncode, ran.stderr), (0, b""), f"{ran.returncode} {ran.stderr}")
            return [it.split() for it in ran.stdout.decode().splitlines()]

        def same(what, got, want):
            with self.subTest(f"differ: {what}"):
                self.assertEqual(got, want, f"{got}, not {want}")

        lost, tick = f"{EXAMPLES}/lost_sum.agc", f"{EXAMPLES}/lost_sum.feed"
        text = read(lost).decode()
        mended = write(f"{self.room}/mended_sum.agc", text.replace(TICK, MENDED).encode())
        lines = differ(lost, tick, 60, mended, tick)
        words = "02,4115 01012 WRITE 012".split()
        with self.subTest("another word put out"):
            self.assertEqual(lines[:3], [["FIRST", "OUTPUT", "1"], ["47", "87", *words, "CH012=00075", "87", "CH", "012", "00075"], ["46", "85", *words, "CH012=00062", "85", "CH", "012", "00062"]])
        with self.subTest("A of the handler's first step"):
            self.assertEqual(lines[3], "FIRST STATE A 000001 WITH 177765".split())
        with self.subTest("the handler's first steps"):
            self.assertEqual([it[:2] + it[4:] for it in lines[4:6]], [["19", "35", "CA", "ONE", "A=000001"], ["19", "35", "INCR", "TICKS", "TICKS=00001"]])
        with self.subTest("the sum that is lost"):
            self.assertEqual(lines[6:], [["FIRST", "STEP"], "22 41 BRUPT 54101 TS SUM SUM=00001".split(), "21 39 BRUPT 54101 TS SUM SUM=77765".split()])
        lines = differ(lost, tick, 46, mended, tick)
        with self.subTest("a word that one has alone"):
            self.assertEqual([it[:1] for it in lines[:3]], [["FIRST"], ["NONE"], ["46"]])
        lines = differ(mended, tick, 46, lost, tick)
        with self.subTest("a word that the other has not"):
            self.assertEqual([it[:1] for it in lines[:3]], [["FIRST"], ["46"], ["NONE"]])

        self.try_whys(lost, tick, mended, empty)
        source = write(f"{self.room}/keeps_not.agc", KEEPS_NOT.encode())
        early, late = (write(f"{self.room}/key_at_{it}.feed", f"{it} {KEY}".encode()) for it in (3, 8))
        lines = differ(source, early, 40, source, empty)
        with self.subTest("no word put out"):
            self.assertEqual(lines[0], "NO OUTPUT DIFFERS IN 40 STEPS".split())
        with self.subTest("Z where one has an input"):
            self.assertEqual(lines[1], "FIRST STATE Z 04103 WITH 04104".split())
        kept = ("02,4104", "22100", "QXCH", "RTRN")
        with self.subTest("the step that keeps the lost Q"):
            self.assertEqual([[*it[:1], *it[2:6], it[-1]] for it in lines[5:]], [["15", *kept, "RTRN=00003"], ["5", *kept, "RTRN=04102"]])
        # (the word at Q is that of 4110; the other's Q is of TC SUB)
        self.whys(["16", source, early, "40", "--with", source, empty], [[], [("Z", 3, 4), (3, 4)], [("RTRN", 15, 5), ("Q", 11, 3), (11, 3)]])
        with self.subTest("a key that spoils nothing"):
            self.assertEqual(differ(source, late, 40, source, empty)[-1], "NO STEP DIFFERS IN 40 STEPS".split())
        none = [f"NO {it} DIFFERS IN 40 STEPS".split() for it in ("OUTPUT", "STATE", "STEP")]
        with self.subTest("a run beside itself"):
            self.assertEqual(differ(source, early, 40, source, early), none)

        source = write(f"{self.room}/waits.agc", WAITS.encode())
        early, late = (write(f"{self.room}/waits_to_{it}.feed", f"{it} {KEY}".encode()) for it in (20, 41))
        for one, other in ((early, late), (late, early)):
            lines = differ(source, one, 90, source, other)
            with self.subTest("rounds of waiting"):
                self.assertEqual([lines[0], lines[-1]], ["NO OUTPUT DIFFERS IN 90 STEPS".split(), "NO STEP DIFFERS IN 90 STEPS".split()])

        self.try_branch(empty)
        wrong = write(f"{self.room}/frob.agc", b" FROB 1\n")
        for words, error in (((lost, "none.feed", "9", "--with", lost, tick), (3, b"agcws: E6\n")), ((lost, tick, "9", "--with", "none.agc", tick), (3, f"none.agc or {tick}: E6\n".encode())), ((lost, tick, "9", "--with", lost, f"{EXAMPLES}/five_plus_five.agc"), (1, f"{EXAMPLES}/five_plus_five.agc: E30 LINE 2\n".encode())), ((lost, tick, "9", "--with", wrong, tick), (1, f"{wrong}: E15 LINE 1\n".encode())), ((wrong, tick, "9", "--with", lost, tick), (1, b"agcws: E15 LINE 1\n")), ((lost, tick, "9", "--with", lost, self.room), (3, f"{lost} or {self.room}: E6\n".encode()))):
            ran = subprocess.run([PROGRAM, "differ", *words], capture_output=True, timeout=300)
            with self.subTest(f"differ of {words} is refused"):
                self.assertEqual((ran.returncode, ran.stderr, ran.stdout), (*error, b""), f"{ran.returncode} {ran.stderr} {ran.stdout}")


if __name__ == "__main__":
    unittest.main()
