"""Tests of whatif RESTART in a session; what an input would change is tried in tests/rows/long_sessions.md."""
import unittest

from common import EMPTY, write
import pipe
from viewing import ViewCase

# By hand: X is put out at 5, CAF ends at 7, and then the input of 6 is taken, step 5; TS ends at 9, RELINT at 10. The handler puts out 5.
ASKED = b""" SETLOC 100
X ERASE
 SETLOC 4000
 CA X
 EXTEND
 WRITE 10
 CAF FIVE
 TS X
 RELINT
DONE TCF DONE
FIVE OCT 5
 SETLOC 4024
 CAF FIVE
 EXTEND
 WRITE 11
 RESUME
"""
# Puts out what a channel holds, and writes 5 there: 7 steps.
HOLDS = """ SETLOC 4000
 EXTEND
 READ {0}
 EXTEND
 WRITE 34
 CAF FIVE
 EXTEND
 WRITE {0}
DONE TCF DONE
FIVE OCT 5
"""
# Puts out A, which is 0 at first and 5 at the end.
KEEPS = b" SETLOC 4000\n EXTEND\n WRITE 10\n CAF FIVE\nDONE TCF DONE\nFIVE OCT 5\n"


class Restart(ViewCase):
    """Restarts that are tried."""

    def told(self, source, feed, steps, *asked):
        """What a session tells after so many steps."""
        lines = pipe.answer("debug", "--extended", source, feed, given="".join(f"{it}\n" for it in (f"run {steps}", "echo now", *asked)))[0].splitlines()
        return lines[lines.index("now") + 1 :]

    def test_requests(self):
        """What was asked for is forgotten; what is still to come stays so."""
        source, feed = write(f"{self.room}/asked.agc", ASKED), write(f"{self.room}/asked.feed", b"6 RUPT 5\n")
        without = ["WITHOUT WORDS 1", "END 02,4006"]
        wanted = [*without, "FROM 7 TO 7 COUNT 1 ALIKE 0 OTHERS 2", "CH 010 00000", "END 02,4006", "FROM 7 TO 7 COUNT 1 ALIKE 0 OTHERS 1", "CH 010 00000", "END 02,4006"]
        wanted += ["FROM 9 TO 10 COUNT 2 ALIKE 0 OTHERS 1", "CH 010 00005", "END 02,4006"]
        with self.subTest("each of some steps"):
            self.assertEqual(self.told(source, feed, 20, "whatif RESTART 100 from 4 to 7"), wanted)
        with self.subTest("one step, with all words"):
            wanted = [*without, "FROM 7 TO 7 COUNT 1 ALIKE 0 OTHERS 2", "CH 010 00000", "CH 011 00005", "END 02,4006"]
            self.assertEqual(self.told(source, feed, 20, "whatif RESTART 100 from 4 to 4"), wanted)
        with self.subTest("the session stays"):
            shown = self.told(source, feed, 20, "regs all", "chans", "whatif RESTART 9 from 1 to 20", "echo now", "regs all", "chans")
            at = shown.index("WITHOUT WORDS 2")
            self.assertEqual(shown[:at], shown[shown.index("now") + 1 :])
        with self.subTest("the step is among the last"):
            self.assertEqual(self.told(source, feed, 4, "whatif RESTART 0", "step 1")[2:4], ["FROM 7 TO 7 COUNT 1 ALIKE 0 OTHERS 0", "END 02,4000"])

    def test_channels(self):
        """Channels 5, 6, 10 to 14, 34 and 35 hold 0; another holds what it did."""
        for channel in (5, 6, 0o10, 0o11, 0o12, 0o13, 0o14, 0o35):
            source = write(f"{self.room}/holds.agc", HOLDS.format(f"{channel:o}").encode())
            with self.subTest(f"channel {channel:o}"):
                self.assertIn("CH 034 00000", self.told(source, EMPTY, 9, "whatif RESTART 9"))
        for channel in (0o15, 0o16, 0o33, 0o77):
            source = write(f"{self.room}/holds.agc", HOLDS.format(f"{channel:o}").encode())
            with self.subTest(f"channel {channel:o}"):
                self.assertIn("CH 034 00005", self.told(source, EMPTY, 9, "whatif RESTART 9"))

    def test_registers(self):
        """A stays; extracode does not."""
        source = write(f"{self.room}/keeps.agc", KEEPS)
        with self.subTest("A"):
            self.assertEqual(self.told(source, EMPTY, 9, "whatif RESTART 9")[2:4], ["FROM 11 TO 11 COUNT 1 ALIKE 0 OTHERS 1", "CH 010 00005"])
        # (with extracode in force 4000, EXTEND, would be another instruction)
        with self.subTest("extracode"):
            self.assertEqual(self.told(source, EMPTY, 1, "whatif RESTART 2")[2:], ["FROM 1 TO 1 COUNT 1 ALIKE 1 OTHERS 0", "END 02,4002"])


if __name__ == "__main__":
    unittest.main()
