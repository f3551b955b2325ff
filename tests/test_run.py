"""What `agcws run` tells of its end and of its progress, and that lines are handed on while it goes."""
import fcntl
import os
import select
import signal
import subprocess
import sys
import termios
import time
import unittest

from common import EXAMPLES, PROGRAM, Case, agcws, read, write
from session import WAIT, Session
from terminal import CTRL_C, Terminal


class Run(Case):
    """Ends, progress, and lines of long runs."""

    def test_end(self):
        """The line that tells how a run has ended: only where it is asked for and all steps are made."""
        source, empty, wrong = f"{EXAMPLES}/five_plus_five.agc", f"{EXAMPLES}/empty.feed", f"{self.room}/wrong.agc"
        line = b"7 CH 010 00012\n"
        with self.subTest("a run's end"):
            self.assertAnswer(agcws("run", "--end", source, empty, "4"), 0, line, b"END STEPS 4 CYCLES 7 OUTPUTS 1 Z 4004\n")
        with self.subTest("a run's end, asked for last"):
            self.assertAnswer(agcws("run", source, empty, "0", "--end"), 0, b"", b"END STEPS 0 CYCLES 0 OUTPUTS 0 Z 4000\n")
        with self.subTest("a run's end that is not asked for"):
            self.assertAnswer(agcws("run", source, empty, "4"), 0, line)
        write(wrong, b" FROB 1\n")
        with self.subTest("a refused run's end"):
            self.assertAnswer(agcws("run", "--end", wrong, empty, "4"), 1, b"", b"agcws: E15 LINE 1\n")
        with open("/dev/full", "wb") as full:
            ran = subprocess.run([PROGRAM, "run", "--end", source, empty, "4"], stdout=full, stderr=subprocess.PIPE, timeout=300)
            with self.subTest("the end of a run that cannot be written"):
                self.assertEqual((ran.returncode, ran.stderr), (3, b"agcws: E7\n"))
            ran = subprocess.run([PROGRAM, "run", "--end", source, empty, "4"], stdout=subprocess.PIPE, stderr=full, timeout=300)
            with self.subTest("an end that cannot be told"):
                self.assertEqual((ran.returncode, ran.stdout), (3, line))

    def test_progress(self):
        """The lines that tell how many steps were made: at each multiple of 2^20, on standard error alone; a failure there is no fault of the run."""
        source, feed = f"{self.room}/silent.agc", f"{EXAMPLES}/empty.feed"
        write(source, b" SETLOC 4000\n CA FIVE\n EXTEND\n WRITE 10\nDONE TCF DONE\nFIVE OCT 5\n")
        line, lines = b"5 CH 010 00005\n", b"agcws: STEPS 1048576\nagcws: STEPS 2097152\n"
        for steps, wanted in (("1048575", b""), ("1048576", lines[:21]), ("2097151", lines[:21]), ("2097152", lines), ("2100000", lines)):
            with self.subTest(f"the progress of {steps} steps"):
                self.assertAnswer(agcws("run", "--progress", source, feed, steps), 0, line, wanted)
        traced = ("--from", "2097150", "--to", "2097152")
        with self.subTest("the progress of a trace"):
            self.assertAnswer(agcws("trace", "--progress", source, feed, "2097152", *traced), 0, agcws("trace", source, feed, "2097152", *traced)[1], lines)
        with self.subTest("the progress of a profile"):
            self.assertAnswer(agcws("cover", "--progress", source, feed, "2097152"), 0, agcws("cover", source, feed, "2097152")[1], lines)
        with self.subTest("a run that ends where the program idles: its steps are CA, EXTEND, WRITE, and two TCF, of which the first is step 4"):
            self.assertAnswer(agcws("run", "--until-idle", "--progress", "--end", source, feed, "2097152"), 0, line, b"END STEPS 5 CYCLES 7 OUTPUTS 1 Z 4003\n")
        with self.subTest("a run that ends before the program idles"):
            self.assertAnswer(agcws("run", "--until-idle", "--end", source, feed, "4"), 0, line, b"END STEPS 4 CYCLES 6 OUTPUTS 1 Z 4003\n")
        with self.subTest("notes of a run that ends where the program idles"):
            self.assertEqual(agcws("run", "--until-idle", "--notes", source, feed, "4")[0], 2)
        with self.subTest("progress, and then the end"):
            self.assertAnswer(agcws("run", "--progress", "--end", source, feed, "1048576"), 0, line, lines[:21] + b"END STEPS 1048576 CYCLES 1048578 OUTPUTS 1 Z 4003\n")
        with open("/dev/full", "wb") as full:
            ran = subprocess.run([PROGRAM, "run", "--progress", source, feed, "2097152"], stdout=subprocess.PIPE, stderr=full, timeout=300)
            with self.subTest("progress that cannot be told"):
                self.assertEqual((ran.returncode, ran.stdout), (0, line))
        with self.subTest("no progress that is not asked for"):
            self.assertAnswer(agcws("run", source, feed, "1048576"), 0, line)
        self.try_progress_while_it_goes(source, feed, lines[:21])

    def try_progress_while_it_goes(self, source, feed, line):
        """A line of progress comes once its steps are made, and none before: of a run without an end the first is soon there, and few after it."""
        most = "1099511627774"
        for words in (["run"], ["run", "--notes"], ["trace", "--from", most], ["cover"]):
            call = [PROGRAM, *words, "--progress", source, feed, most]
            with subprocess.Popen(call, stdin=subprocess.DEVNULL, stdout=subprocess.DEVNULL, stderr=subprocess.PIPE) as ran:
                got = os.read(ran.stderr.fileno(), len(line)) if select.select([ran.stderr], [], [], 20)[0] else b""
                time.sleep(0.2)
                more = int.from_bytes(fcntl.ioctl(ran.stderr, termios.FIONREAD, bytes(4)), sys.byteorder)
                with self.subTest(f"the progress of agcws {words[0]} while it goes, {len(words)} words"):
                    self.assertTrue((got, ran.poll()) == (line, None) and more < 20000, f"{got!r}, and then {more} bytes")
                ran.kill()

    def test_handed_on(self):
        """The lines of a long run are handed on while it goes: one that is broken off has written them."""
        source, feed = f"{self.room}/silent.agc", f"{EXAMPLES}/empty.feed"
        write(source, b" SETLOC 4000\n CA FIVE\n EXTEND\n WRITE 10\nDONE TCF DONE\nFIVE OCT 5\n")
        line = b"5 CH 010 00005\n"
        with subprocess.Popen([PROGRAM, "run", source, feed, "1099511627774"], stdin=subprocess.DEVNULL, stdout=subprocess.PIPE) as ran:
            got = os.read(ran.stdout.fileno(), 100) if select.select([ran.stdout], [], [], 10)[0] else b""
            with self.subTest("a line of a long run comes while it goes"):
                self.assertEqual((got, ran.poll()), (line, None))
            ran.kill()
        self.try_handed_on_by_a_session(source, feed, line)
        out = f"{self.room}/broken.out"
        with open(out, "wb") as file, subprocess.Popen([PROGRAM, "run", source, feed, "1099511627774"], stdin=subprocess.DEVNULL, stdout=file) as ran:
            for _ in range(100):
                if read(out):
                    break
                time.sleep(0.1)
            ran.kill()
        with self.subTest("a long run that is broken off has written its line"):
            self.assertEqual(read(out), line)
        with open("/dev/full", "wb") as full:
            ran = subprocess.run([PROGRAM, "run", source, feed, "1099511627774"], stdin=subprocess.DEVNULL, stdout=full, stderr=subprocess.PIPE, timeout=300)
        with self.subTest("a long run whose lines cannot be written ends"):
            self.assertEqual((ran.returncode, ran.stderr), (3, b"agcws: E7\n"))

    def try_handed_on_by_a_session(self, source, feed, line):
        """The lines of a long command are handed on while it goes, to a pipe and to a terminal."""
        session = Session(self, source, feed)
        session.ask("a line of a long command comes while it goes", b"run 1000000000000\n", line)
        with self.subTest("the long command goes on"):
            self.assertTrue(session.ran.poll() is None)
        session.ran.kill()
        with self.subTest("nothing else of it has come"):
            self.assertEqual(session.ran.communicate(timeout=WAIT), (b"", b""))
        with open("/dev/full", "wb") as full:
            ran = subprocess.run([PROGRAM, "debug", source, feed], input=b"run 1000000000000\n", stdout=full, stderr=subprocess.PIPE, timeout=WAIT)
        with self.subTest("a long command whose lines cannot be written ends"):
            self.assertEqual((ran.returncode, ran.stderr), (3, b"agcws: E7\n"))
        at = Terminal(PROGRAM, "debug", source, feed)
        shown = at.type(b"run 1000000000000\n", line.strip(), most_seconds=10)
        with self.subTest("at a terminal a line of a long command comes while it goes"):
            self.assertTrue(line.strip() in shown and b"AT" not in shown, f"{shown!r}")
        at.type(CTRL_C)
        with self.subTest("Ctrl-C ends a session"):
            self.assertEqual(at.end(), -signal.SIGINT)


if __name__ == "__main__":
    unittest.main()
