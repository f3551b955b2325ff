"""Sessions of `agcws debug`, through pipes and at a terminal."""
import os
import random
import re
import subprocess
import time
import unittest

from common import EXAMPLES, PROGRAM, Case, agcws, read, text_of, write
from session import WAIT, Session, asked
from terminal import CTRL_C, Terminal

# What a session over five plus five replies, line by line.
FIVE_PLUS_FIVE = """> break at 4002
BREAK 1
> run 20
HIT 1
AT 2 4 4002
> run 20
7 CH 010 00012
HIT 1
AT 7 12 4002
> seek
HIT 1
AT 2 4 4002
> seek
NONE
> back 5
AT 0 0 4000
> tail
7 CH 010 00012
TAIL 1
> run 1
AT 8 13 4003
> sym FIVE
SYM FIXED 02,0005
> mem FIVE
MEM 00005
> chan 10
CHAN 00012
> last 0
LAST 7
> goto 9
E41 NOT YET
> break word FIVE 5
E50 COMMAND
> # nothing is asked for
> regs
A 000012 L 00000 Q 000000 Z 4003 EB 0 FB 00 SUP 0 EXT 1 INH 1 INT 0
NEXT 01010 WRITE 010
> clear
CLEAR
"""


def replies_of(source, feed, *parts):
    """Returns what an extended session replies to each of some lists of commands."""
    commands = "".join(f"{it}\n" for part in parts for it in [*part, "echo ----"])
    words = [PROGRAM, "debug", "--extended", source, feed]
    ran = subprocess.run(words, input=commands.encode(), capture_output=True, timeout=WAIT)
    return ran.stdout.decode().split("----\n")[:-1]


class Debug(Case):
    """Replies, a command at a time."""

    def test_sessions(self):
        """Sessions through pipes, a command at a time."""
        source, empty = f"{EXAMPLES}/five_plus_five.agc", f"{EXAMPLES}/empty.feed"
        session = Session(self, source, empty)
        for command, replies in asked(FIVE_PLUS_FIVE):
            session.ask("five plus five", command, replies)
        for number in range(1, 17):
            session.ask("sixteen breakpoints", b"break at 4002\n", b"BREAK %d\n" % number)
        session.ask("sixteen breakpoints", b"break at 4002\n", b"E52 FULL\n")
        session.ask("a long line", b"#" * 81 + b"\n", b"E51 LONG\n")
        session.ask("a line of 80 bytes", b"step 0" + b" " * 74 + b"\n", b"AT 8 13 4003\n")
        session.ask("two lines at once", b"clear\nback 9\n", b"CLEAR\nAT 0 0 4000\n")
        session.end("the end of the input")
        self.try_long_reply(source, empty)
        ran = subprocess.run([PROGRAM, "debug", source, empty], input=b"step 1\nstep 1", capture_output=True, timeout=WAIT)
        with self.subTest("a last line without a line feed"):
            self.assertAnswer((ran.returncode, ran.stdout, ran.stderr), 0, b"AT 1 2 4001\nAT 2 4 4002\n")
        ran = subprocess.run([PROGRAM, "debug", source, empty], input=b"\n # step 1\nstep\t1#2\nstep 1 #\xff\nquit\r\nadd 5 TIME1 PINC #\xff\nquit\nstep 1\n", capture_output=True, timeout=WAIT)
        with self.subTest("bytes that are no text"):
            self.assertAnswer((ran.returncode, ran.stdout, ran.stderr), 0, b"AT 1 2 4001\nAT 2 4 4002\nE50 COMMAND\nE50 COMMAND\n")
        ran = subprocess.run([PROGRAM, "debug", source, empty], input=b"step 1\nquit\nstep 1\n", capture_output=True, timeout=WAIT)
        with self.subTest("quit"):
            self.assertAnswer((ran.returncode, ran.stdout, ran.stderr), 0, b"AT 1 2 4001\n")
        ran = subprocess.run([PROGRAM, "debug", source, empty], input=b"\n" * 16777211 + b"tail\ntail\n", capture_output=True, timeout=4 * WAIT)
        with self.subTest("the most bytes of commands"):
            self.assertAnswer((ran.returncode, ran.stdout, ran.stderr), 0, b"TAIL 0\n", b"agcws: commands end after 16777216 bytes\n")
        with open("/dev/full", "wb") as full:
            ran = subprocess.run([PROGRAM, "debug", source, empty], input=b"step 1\n", stdout=full, stderr=subprocess.PIPE, timeout=WAIT)
        with self.subTest("replies that cannot be written"):
            self.assertEqual((ran.returncode, ran.stderr), (3, b"agcws: E7\n"))
        folder = os.open(self.room, os.O_RDONLY)
        ran = subprocess.run([PROGRAM, "debug", source, empty], stdin=folder, capture_output=True, timeout=WAIT)
        os.close(folder)
        with self.subTest("commands that cannot be read"):
            self.assertAnswer((ran.returncode, ran.stdout, ran.stderr), 3, b"", b"agcws: E6\n")
        with self.subTest("a session over no source"):
            self.assertAnswer(agcws("debug", f"{self.room}/none", empty), 3, b"", b"agcws: E6\n")
        write(f"{self.room}/wrong.agc", b" FROB 1\n")
        with self.subTest("a session over a refused source"):
            self.assertAnswer(agcws("debug", f"{self.room}/wrong.agc", empty), 1, b"", b"agcws: E15 LINE 1\n")
        with self.subTest("a session without a command"):
            self.assertAnswer(agcws("debug", source, empty), 0, b"")

    def test_inputs(self):
        """What `inputs` tells makes the run again: added before the first step, and at the end of the feed."""
        source, feed, both = f"{EXAMPLES}/lost_sum.agc", f"{EXAMPLES}/lost_sum.feed", f"{self.room}/both.feed"
        kinds = ["TIME3 PINC", "TIME1 PINC", "PIPAX MINC", "RUPT 3", "RUPT 5", "CHAN 15 21"]
        for seed in range(8):
            draw = random.Random(seed)
            adds = [f"add {draw.randrange(28, 300)} {draw.choice(kinds)}" for _ in range(8)]
            made = [line for add in adds for line in (f"run {draw.randrange(1, 9)}", add)]
            traced = ["goto 200", "trace 200"]
            _, told_inputs, trace = replies_of(source, feed, made + ["run 200"], ["inputs"], traced)
            lines = told_inputs.splitlines()[:-1]
            added = replies_of(source, feed, [f"add {line}" for line in lines], ["run 200"], traced)
            with self.subTest(f"inputs {seed} are added"):
                self.assertTrue(added[0] == "ADDED\n" * len(lines) and len(lines) > 2, added[0])
            with self.subTest(f"inputs {seed} make the run again"):
                self.assertTrue(added[2] == trace != "")
            write(both, read(feed) + "".join(f"{line}\n" for line in lines).encode())
            with self.subTest(f"inputs {seed} at the end of the feed"):
                self.assertEqual(replies_of(source, both, ["run 200"], traced)[1], trace)

    def try_long_reply(self, source, empty):
        """A reply of 20,000 lines takes few calls of the system."""
        session = Session(self, source, empty)
        lines = b"".join(b"%d CH 010 00012\n" % (8 * round + 7) for round in range(20000))
        session.ask("a long reply", b"run 100000\n", lines + b"AT 100000 160000 4000\n")
        with self.subTest("a long reply takes few writes"):
            self.assertTrue(session.writes() < 1000, f"{session.writes()} writes")
        session.end("the end of a long reply")

    def test_made_anew(self):
        """A session whose commands were typed through tee, and that Ctrl-C has ended, is made anew from what tee has kept."""
        source, feed, kept = f"{EXAMPLES}/five_plus_five.agc", f"{EXAMPLES}/empty.feed", f"{self.room}/my.session"
        at = Terminal("/bin/bash", "-c", f"tee '{kept}' | '{PROGRAM}' debug '{source}' '{feed}'")
        shown = at.type(b"break at 4002\n", b"BREAK 1") + at.type(b"run 20\n", b"AT 2 4 4002")
        shown += at.type(b"step 1000000000000\n", b"7 CH 010 00012")
        # (tee hands a line on before it keeps it)
        for _ in range(100):
            if read(kept).endswith(b"step 1000000000000\n"):
                break
            time.sleep(0.1)
        at.type(CTRL_C)
        with self.subTest("Ctrl-C ends a session behind tee"):
            self.assertTrue(at.end() != 0 and b"AT 2 4 4002" in shown, f"{shown!r}")
        typed = read(kept)
        with self.subTest("tee has kept the commands"):
            self.assertEqual(typed, b"break at 4002\nrun 20\nstep 1000000000000\n")
        ran = subprocess.run([PROGRAM, "debug", source, feed], input=b"".join(typed.splitlines(True)[:-1]) + b"run 20\n", capture_output=True, timeout=WAIT)
        with self.subTest("a session made anew"):
            self.assertAnswer((ran.returncode, ran.stdout, ran.stderr), 0, b"BREAK 1\nHIT 1\nAT 2 4 4002\n7 CH 010 00012\nHIT 1\nAT 7 12 4002\n")

    def test_counted_outputs(self):
        """While it is quiet a command's channel lines are counted, in their place; all other lines are as ever, those of `tail` too."""
        line = r"^\d+ CH \d{3} \d{5}\n"
        for name, feed in ("five_plus_five", "empty"), ("lost_sum", "lost_sum"), ("waitlist", "waitlist"):
            files = f"{EXAMPLES}/{name}.agc", f"{EXAMPLES}/{feed}.feed"
            draw = random.Random(name)
            moves = ["run", "step", "on", "until", "over", "out", "back", "goto"]
            parts = [[f"{draw.choice(moves)} {draw.randrange(200)}"] for _ in range(300)] + [["break at 4004"], ["run 1000"], ["clear"]]
            loud, quiet = replies_of(*files, *parts, ["tail", "tail 9 steps"]), replies_of(*files, ["quiet on"], *parts, ["tail", "tail 9 steps"])
            with self.subTest(f"{name} tells each"):
                self.assertEqual((quiet[0], quiet[-1], len(quiet)), ("QUIET on\n", loud[-1], len(loud) + 1))
            with self.subTest(f"{name} counts each"):
                counts = [re.subn(line, "", it, flags=re.M) for it in loud[:-1]]
                self.assertEqual(quiet[1:-1], [rest if count == 0 else f"WORDS {count}\n{rest}" for rest, count in counts])
            # on and off in turn
            both = [[f"quiet {draw.choice(['on', 'off'])}", *part] for part in parts]
            with self.subTest(f"{name} tells some and counts others"):
                told = [("".join(re.findall(line, it, re.M)), sum(int(n) for n in re.findall(r"^WORDS (\d+)$", it, re.M))) for it in replies_of(*files, *both)]
                mine = ["".join(re.findall(line, it, re.M)) for it in loud[:-1]]
                want = [("", it.count("\n")) if part[0] == "quiet on" else (it, 0) for part, it in zip(both, mine)]
                self.assertEqual(told, want)
        with self.subTest("a session that is not extended"):
            ran = subprocess.run([PROGRAM, "debug", *files], input=b"quiet on\nrun 0\n", capture_output=True, timeout=WAIT)
            self.assertAnswer((ran.returncode, ran.stdout, ran.stderr), 0, b"E50 COMMAND\nAT 0 0 4000\n")

    def test_each_command_is_told(self):
        """Each command that `help` tells of stands in the help of `agcws debug`, and in a table of section 7 of the manual."""
        names = re.findall(r"^HELP (\w+) takes", replies_of(f"{EXAMPLES}/lost_sum.agc", f"{EXAMPLES}/empty.feed", ["help"])[0], re.M)
        section = re.search(r"^## 7\. .*?(?=^## 8\. )", text_of("docs/MANUAL.md"), re.M | re.S)[0]
        for it in [*names, "frob"]:
            with self.subTest(f"{it} in tests/help/debug.txt"):
                self.assertEqual(bool(re.search(rf"^  (?:[a-z]+, )?{it}\b", text_of("tests/help/debug.txt"), re.M)), it != "frob")
            with self.subTest(f"{it} in the manual"):
                self.assertEqual(bool(re.search(rf"^\|.*`{it}[` ]", section, re.M)), it != "frob")

    def test_likely_mistakes(self):
        """What section 8 of the manual says of an operand that is an address, and of an interrupt that enters where no handler stands."""
        source, feed = f"{self.room}/slip.agc", f"{self.room}/slip.feed"
        # Z, which CA 5 reads, leads to the word after it: 4001. CA takes 2 cycles, EXTEND 1 and WRITE 2.
        write(source, b" SETLOC 4000\n CA 5\n EXTEND\n WRITE 10\n")
        with self.subTest("CA 5 reads Z"):
            self.assertAnswer(agcws("run", source, "/dev/null", "3"), 0, b"5 CH 010 04001\n")
        # RELINT and four jumps take 5 cycles. The input is a step without any, and the entry at 4000 + 4 * 3 takes 3.
        write(source, b" SETLOC 4000\n RELINT\nLOOP TCF LOOP\n")
        write(feed, b"5 RUPT 3\n")
        session = Session(self, source, feed)
        session.ask("an interrupt without a handler", b"break at 4014\n", b"BREAK 1\n")
        session.ask("an interrupt without a handler", b"run 100\n", b"HIT 1\nAT 7 8 4014\n")
        session.ask("an interrupt without a handler", b"regs\n", b"A 000000 L 00000 Q 000000 Z 4014 EB 0 FB 00 SUP 0 EXT 0 INH 0 INT 1\nNEXT 00000 TC 0000\n")
        session.end("the end of a session over an interrupt without a handler")


if __name__ == "__main__":
    unittest.main()
