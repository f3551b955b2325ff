"""Tests of views/chain, and of the rounds of a loop in what talk tells."""
import re
import unittest

from common import EMPTY, write
import links
from viewing import LOST, ViewCase, call

# Counts: INCR is each odd step, and the word after it half of what stands behind the step, so 12 (octal) after step 19.
COUNTS = b"""\
 SETLOC 100
N ERASE
 SETLOC 4000
LOOP INCR N
 TCF LOOP
"""
# Adds a word of channel 15, which comes as step 2, at the end of CA; N is 5 and the word, and one more.
READS = b"""\
 SETLOC 100
N ERASE
 SETLOC 4000
 CA FIVE
 TS N
 EXTEND
 READ 15
 AD N
 TS N
 INCR N
DONE TCF DONE
FIVE OCT 5
"""


def steps_in(drawn):
    return [int(it) for it in re.findall(r'class="step"[^>]*>(\d+)<', drawn)]


class Chain(ViewCase):
    """Chains as pictures, and their lines."""

    def test_lines(self):
        """Choices by their lines; names may be the words of a line."""
        for line, wanted in [
            ("WAY 37 CCS COUNT TO 02,4112 LOOP +6 FROM COUNT 00001", (37, "CCS COUNT", "02,4112 LOOP +6", [("COUNT", "00001")])),
            ("WAY 18 INTERRUPT 3 TO 02,4014 FROM NOTHING", (18, "INTERRUPT 3", "02,4014", [])),
            ("WAY 614 TC A +4132 TO 02,4132 RED FROM NOTHING", (614, "TC A +4132", "02,4132 RED", [])),
            ("WAY 6 CCS TO TO E3,1400 FROM +1 FROM FROM 00001", (6, "CCS TO", "E3,1400 FROM +1", [("FROM", "00001")])),
            ("START", None),
        ]:
            with self.subTest(line):
                self.assertEqual(links.way_of(line), wanted)
        self.assertEqual(links.link_of("BY 20 ADS TICKS : A 000001 FROM A 000001 TICKS 00000 IN STEP 18"), (20, "ADS TICKS", [("A", "000001")], [("A", "000001"), ("TICKS", "00000")], "18"))

    def test_rounds(self):
        """Rounds by hand: where each begins, how many it has, and how often it stands there."""
        for text, wanted in [("", []), ("aaa", []), ("aaaa", [(0, 1, 4)]), ("xababababa", [(1, 2, 4)]), ("abcabcabcab", []), ("aabaabaabaab", [(0, 3, 4)]), ("aaaabbbbb", [(0, 1, 4), (4, 1, 5)])]:
            with self.subTest(text):
                self.assertEqual(list(links.rounds_in(text)), wanted)
        rounds = [f"BY {9 - i} AD TABLE +{i} : A 00000{i} FROM A 000000 02,410{i} 00001" for i in range(4)]
        with self.subTest("by how much INDEX moved an operand does not count"):
            self.assertEqual(links.folded_links([*rounds, "ALL"]), [rounds[0], "..  rounds 2 to 4 of 1 link, steps 8 to 6", "ALL"])
        with self.subTest("an interrupt counts"):
            told = [*rounds[:2], f"{rounds[2]} IN STEP 3", rounds[3]]
            self.assertEqual(links.folded_links(told), told)

    def test_talk(self):
        source = write(f"{self.room}/counts.agc", COUNTS)
        status, out, err = call("talk", source, EMPTY, given="run 20\nwhy N 99\nwhy N 3\n")
        told = [it for it in out.splitlines() if it.startswith(("BY", "..", "START", "MORE"))]
        with self.subTest("rounds of a loop"):
            self.assertEqual((status, err, told[:3]), (0, "", ["BY 19 INCR N : N 00012 FROM N 00011", "..  rounds 2 to 10 of 1 link, steps 17 to 1", "START N 00000"]))
        with self.subTest("three rounds are told"):
            self.assertEqual(told[3:], ["BY 19 INCR N : N 00012 FROM N 00011", "BY 17 INCR N : N 00011 FROM N 00010", "BY 15 INCR N : N 00010 FROM N 00007", "MORE 1"])

    def test_folded(self):
        source = write(f"{self.room}/counts.agc", COUNTS)
        status, drawn, err = call("chain", source, EMPTY, "20", "N", "--most", "99")
        with self.subTest("rounds are one row"):
            self.assertEqual((status, err, steps_in(drawn), re.findall(r'class="rounds"[^>]*>([^<]*)<', drawn), re.findall(r'class="word"[^>]*>(\d+)<', drawn)), (0, "", [1, 3], ["rounds 2 to 10 of 1 link", "to step 19"], ["00001", "00012"]))
        with self.subTest("a marked step is never one of them"):
            self.assertEqual(steps_in(call("chain", source, EMPTY, "20", "N", "--most", "99", "--mark", "9")[1]), [1, 3, 9, 11, 13])
        with self.subTest("the whole chain"):
            self.assertEqual(steps_in(call("chain", source, EMPTY, "20", "N", "--most", "99", "--whole")[1]), list(range(1, 20, 2)))

    def test_choices(self):
        """By the manual: COUNT was 4, 3, 2 and 1 where steps 11, 23, 30 and 37 chose; step 18 entered the interrupt."""
        status, drawn, err = call("chain", *LOST, "60", "SUM", "--control")
        with self.subTest("each choice"):
            self.assertEqual((status, err, steps_in(drawn)), (0, "", [11, 18, 19, 20, 22, 23, 26, 28, 29, 30, 33, 35, 36, 37, 40, 42, 43]))
        with self.subTest("where each led, and by what"):
            told = re.findall(r'<text class="way"[^>]*>([^<]+)<', drawn)
            self.assertEqual(told, ["00004", "to LOOP +6", "to 02,4014", "00003", "to LOOP +6", "00002", "to LOOP +6", "00001", "to LOOP +6"])
        with self.subTest("the steps that each led to"):
            self.assertEqual(len(re.findall('class="led" cx="(?!30")', drawn)), 12)
        drawn = call("chain", *LOST, "60", "SUM", "--control", "43")[1]
        with self.subTest("one choice, and what it was made by"):
            self.assertEqual(steps_in(drawn), sorted([43, 42, 40, 36, 35, 33, 29, 28, 26, 22, 20, 19, 37, 32, 30, 25, 23, 13, 11, 6, 5]))
        with self.subTest("a choice of no step of the chain"):
            self.assertEqual(call("chain", *LOST, "60", "SUM", "--most", "2", "--control", "20"), (2, "", "step 20 is none of the chain: --control takes one of 42, 43\n"))

    def test_two_runs(self):
        source = write(f"{self.room}/reads.agc", READS)
        three, four = (write(f"{self.room}/{it}.feed", f"1 CHAN 15 {it}\n".encode()) for it in (3, 4))
        status, drawn, err = call("chain", source, three, "20", "N", "--with", source, four)
        rows = re.findall(r'<g class="(both|plain)">(?:<text class="step" x="10"[^>]*>(\d+)</text>)?(?:<text class="step" x="56"[^>]*>(\d+)</text>)?<text x="108"[^>]*>([^<]*)<', drawn)
        with self.subTest("links in common stand once"):
            self.assertEqual((status, err, rows), (0, "", [("both", "1", "1", "CA FIVE"), ("plain", "2", "", "CHAN 015 00003"), ("plain", "", "2", "CHAN 015 00004"), ("both", "3", "3", "TS N"), ("plain", "5", "5", "READ 015"), ("plain", "6", "6", "AD N"), ("plain", "7", "7", "TS N"), ("plain", "8", "8", "INCR N")]))
        with self.subTest("the words of each"):
            self.assertEqual(re.findall(r'class="word"[^>]*>(\d+)<', drawn), ["000005", "00003", "00004", "00005", "000003", "000004", "000010", "000011", "00010", "00011", "00011", "00012"])
        with self.subTest("where they part"):
            self.assertEqual(drawn.count("they part here"), 1)
        same = call("chain", source, three, "20", "N", "--with", source, three)[1]
        with self.subTest("a run beside itself"):
            self.assertEqual((same.count('<g class="both">'), same.count('<g class="plain">'), same.count("they part")), (8, 0, 0))
        with self.subTest("another run that is refused"):
            self.assertEqual(call("chain", source, three, "20", "N", "--with", source, f"{self.room}/none.feed")[0], 3)


if __name__ == "__main__":
    unittest.main()
