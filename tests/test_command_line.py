"""Help, wrong command lines, and what a person at a terminal is told besides."""
import re
import unittest

from common import EXAMPLES, PROGRAM, ROOT, TESTS, Case, agcws, read, write
from terminal import Terminal


def at_terminal(*words):
    """What a call shows at a terminal, and its exit status."""
    at = Terminal(PROGRAM, *words)
    shown = at.type(b"", b"no such text", most_seconds=30)
    return shown.replace(b"\r\n", b"\n"), at.end()


class CommandLine(Case):
    """Help, wrong words, and hints at a terminal."""

    def test_command_line(self):
        """Help, and command lines that are wrong, against the texts of examples/help; and the version."""
        for name in ["agcws", "asm", "run", "trace", "cover", "reach", "bound", "access", "delays", "whatif", "differ", "debug", "check", "expect", "explain", "upgrade", "words", "compare", "align", "find", "sums", "parity", "damages"]:
            got = agcws(*([] if name == "agcws" else [name]), "--help")
            with self.subTest(f"the help of {name}"):
                self.assertAnswer(got, 0, read(f"{TESTS}/help/{name}.txt"))
            with self.subTest(f"the width of the help of {name}"):
                self.assertTrue(all(len(it) <= 80 for it in got[1].decode().split("\n")))
            with self.subTest(f"agcws help for {name}"):
                self.assertAnswer(agcws("help", *([] if name == "agcws" else [name])), *got)
        with self.subTest("a subcommand that is none"):
            self.assertAnswer(agcws("fly"), 2, b"", read(f"{TESTS}/help/unknown_subcommand.txt"))
        with self.subTest("a subcommand that a view is"):
            self.assertAnswer(agcws("new", "lamp"), 2, b"", read(f"{TESTS}/help/no_new.txt"))
        with self.subTest("a missing argument"):
            self.assertAnswer(agcws("run", "five.agc", "empty.feed"), 2, b"", read(f"{TESTS}/help/missing_argument.txt"))
        with self.subTest("a missing --image"):
            self.assertAnswer(agcws("run", "--rope", "1", "five.rope", "empty.feed", "100"), 2, b"", read(f"{TESTS}/help/missing_image.txt"))
        with self.subTest("a session without --image"):
            self.assertTrue(agcws("debug", "--symbols", "five.lst", "five.rope", "empty.feed")[2].endswith(read(f"{TESTS}/help/missing_image.txt").split(b"\n\n")[-1]))
        with self.subTest("a missing feed"):
            self.assertAnswer(agcws("run", "five.agc", "100"), 2, b"", read(f"{TESTS}/help/missing_feed.txt"))
        with self.subTest("a session without a feed"):
            self.assertAnswer(agcws("debug", "five.agc"), 2, b"", read(f"{TESTS}/help/missing_feed_of_session.txt"))
        with self.subTest("a trace without a feed"):
            self.assertTrue(agcws("trace", "five.agc", "100")[2].endswith(read(f"{TESTS}/help/missing_feed.txt").split(b"\n\n")[-1]))
        with self.subTest("a number below zero"):
            self.assertAnswer(agcws("run", "five.agc", "empty.feed", "-5"), 2, b"", read(f"{TESTS}/help/negative_number.txt"))
        with self.subTest("an option that is none"):
            self.assertAnswer(agcws("--verbose"), 2, b"", read(f"{TESTS}/help/unknown_option.txt"))
        with self.subTest("an option of run that is none"):
            self.assertAnswer(agcws("run", "--verbose", "five.agc", "empty.feed", "5"), 2, b"", read(f"{TESTS}/help/unknown_option_of_run.txt"))
        with self.subTest("a bank that is none"):
            self.assertAnswer(agcws("words", "my.rope", "44"), 2, b"", read(f"{TESTS}/help/unknown_bank.txt"))
        version = re.search(rb'PROGRAM_VERSION: &str = "(.*)";', read(f"{ROOT}/crates/command_line/src/top.rt")).group(1)
        with self.subTest("agcws --version"):
            self.assertAnswer(agcws("--version"), 0, b"agcws " + version + b"\n")
        source, empty = f"{EXAMPLES}/five_plus_five.agc", f"{EXAMPLES}/empty.feed"
        for words in [[], ["fly"], ["asm", source], ["asm", "--sums", source], ["run", source, empty], ["run", source, empty, "-1"], ["run", source, empty, "1099511627775"], ["asm", "--rope", "3", source, "x"], ["debug", source], ["upgrade", source], ["words"], ["words", source, "44"], ["words", source, "8"], ["words", source, "002"], ["compare", source], ["sums"], ["parity"], ["damages"], ["words", "--parity", "odd", source], ["words", "--symbols", source], ["words", "--octal", "--symbols", source, source], ["trace", "--symbols", source, source, empty, "4"], ["sums", "--forms", "--parity", "ignore", source], ["sums", "--forms", "--form", "hardware", source], ["run", "--parity", "ignore", source, empty, "4"], ["run", "--rope", "1", source, empty, "4"], ["differ", source, empty, "4"], *(["differ", "--why", it, source, empty, "4", "--with", source, empty] for it in ("0", "1000", "x"))]:
            status, out, err = agcws(*words)
            with self.subTest(f"agcws {' '.join(words[:1])} with {len(words)} words"):
                self.assertTrue((status, out) == (2, b"") and err)
        with self.subTest("+4 steps"):
            self.assertAnswer(agcws("run", source, empty, "+4"), 0, b"7 CH 010 00012\n")
        with self.subTest("an argument that is no text"):
            self.assertAnswer(agcws("asm", source, b"\xff"), 2, b"", b"error: an argument is not valid UTF-8\n")

    def test_hints(self):
        """A person at a terminal is told what tells more of a refusal, and that a run was cut off by N; a pipe has the lines alone, as the other checks see."""
        good, bad = f"{self.room}/good.agc", f"{self.room}/bad.agc"
        write(good, b" SETLOC 4000\n CA FIVE\n EXTEND\n WRITE 10\nDONE TCF DONE\nFIVE DEC 5\n")
        write(bad, b" CA FIVE\n")
        with self.subTest("a refused source at a terminal"):
            self.assertEqual(at_terminal("run", bad, "/dev/null", "9"), (b"agcws: E17 LINE 1\nagcws check SRC FEED tells in words what is wrong, and how it is mended.\n", 1), str(at_terminal("run", bad, "/dev/null", "9")))
        unread = (b"agcws: E6\nagcws explain and the number tell what it means.\n", 3)
        with self.subTest("a file that is not there at a terminal"):
            self.assertEqual(at_terminal("trace", f"{self.room}/none.agc", "/dev/null", "9"), unread)
        for steps, end in (("2", b"END STEPS 2 CYCLES 3 OUTPUTS 0 Z 4002\n"), ("3", b"END STEPS 3 CYCLES 5 OUTPUTS 1 Z 4003\n")):
            lines = b"5 CH 010 00005\n" * (steps == "3")
            with self.subTest(f"a run of {steps} steps at a terminal"):
                self.assertEqual(at_terminal("run", good, "/dev/null", steps), (lines + b"All N steps are made. A larger N goes on from here:\n" + end, 0), str(at_terminal("run", good, "/dev/null", steps)))
            with self.subTest(f"--end of {steps} steps at a terminal"):
                self.assertEqual(at_terminal("run", "--end", good, "/dev/null", steps), (lines + end, 0))


if __name__ == "__main__":
    unittest.main()
