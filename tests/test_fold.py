"""Tests of views/fold."""
import subprocess
import unittest

from common import EMPTY, VIEWS
import pipe
from folding import folded
from viewing import ViewCase, call

# A loop of two steps and one of one, and what ends each; the count of rounds is by hand.
SOURCE = """\
 SETLOC 100
N ERASE
 SETLOC 4000
 CA ZERO
LOOP TS N
 TCF LOOP
ZERO OCT 0
"""


def line(number, text):
    """A line of a trace."""
    return f"{number:<8}  {2 * number:<8}  02,4000  00000  {text:<17}  -"


def lines(texts):
    return [line(i, text) for i, text in enumerate(texts, 1)]


class Fold(ViewCase):
    """Folded lines."""

    def test_folding(self):
        """Rounds by hand: steps by letters, and which are shown."""
        for texts, shown in [
            ("", []),
            ("abc", ["a", "b", "c"]),
            ("aab", ["a", "a", "b"]),
            ("aaa", ["a", "this step 2 times more, to step 3"]),
            ("xaaaay", ["x", "a", "this step 3 times more, to step 5", "y"]),
            ("ab" + "c" * 10, ["a", "b", "c", "this step 9 times more, to step 12"]),
            ("ababababc", ["a", "b", "this round of 2 steps 3 times more, to step 8", "c"]),
            ("abcabcabcab", ["a", "b", "c", "this round of 3 steps 2 times more, to step 9", "a", "b"]),
            ("aabaabaab", ["a", "a", "b", "this round of 3 steps 2 times more, to step 9"]),
            ("aaaabbbb", ["a", "this step 3 times more, to step 4", "b", "this step 3 times more, to step 8"]),
            ("abcdefghijklmnopq" * 4, list("abcdefghijklmnopq" * 4)),
        ]:
            wanted = [f"..        {it}" if len(it) > 1 else it for it in shown]
            got = [it if it.startswith("..") else it.split()[4] for it in folded(lines(texts))]
            with self.subTest(f"the rounds of {texts[:20]}"):
                self.assertEqual(got, wanted)
        put_out = [f"{line(i, 'WRITE 010')[:-1]}CH010=00012  {2 * i} CH 010 00012" for i in range(1, 4)]
        with self.subTest("the cycles of what is put out are passed over"):
            self.assertEqual(folded(put_out), [put_out[0], "..        this step 2 times more, to step 3"])
        reply = ["MEM 00005", *lines("aaa"), "AT 3 6 02,4000"]
        with self.subTest("other lines are no steps"):
            self.assertEqual(folded(reply), [reply[0], reply[1], "..        this step 2 times more, to step 3", reply[-1]])

    def test_fold(self):
        """A trace that is folded, and the last of a run that is cut within a round."""
        source = f"{self.room}/fold.agc"
        with open(source, "w", encoding="ascii") as file:
            file.write(SOURCE)
        for option in ((), ("--say",), ("--reads",)):
            traced = pipe.answer("trace", *option, source, EMPTY, "30")[0]
            got = call("fold", given=traced)
            rows = traced.splitlines()
            with self.subTest(f"a folded trace {option}"):
                self.assertEqual(got, (0, "\n".join([*rows[:3], "..        this round of 2 steps 13 times more, to step 29", rows[29]]) + "\n", ""))

    def test_unwritten(self):
        """An output that cannot be written is told in a line; one that nobody reads is not."""
        with open("/dev/full", "wb") as full:
            ran = subprocess.run([f"{VIEWS}/fold"], input="a line\n", stdout=full, stderr=subprocess.PIPE, text=True, timeout=120, check=False)
            with self.subTest("a full device"):
                self.assertEqual((ran.returncode, ran.stderr), (3, "fold: the output: No space left on device\n"))
        with subprocess.Popen([f"{VIEWS}/fold"], stdin=subprocess.PIPE, stdout=subprocess.PIPE, stderr=subprocess.PIPE) as ran:
            ran.stdout.close()
            with self.subTest("an output that nobody reads"):
                self.assertEqual((ran.communicate(b"a line\n")[1], ran.returncode), (b"", 3))


if __name__ == "__main__":
    unittest.main()
