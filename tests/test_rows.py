"""Runs the built program on the rows of rows/: sources, feeds, and programs of a few words, each with what the program answers. Each file says in its first lines
what its rows are."""
import os
import re
import subprocess
import unittest

from common import PROGRAM, ROWS, Case, write

SYMBOLS = b"X EQUALS 100\nF EQUALS 4100\n"


def rows_of(name):
    """The rows of a file, each as its parts, which stand between bars. Other lines say what the rows below them show."""
    with open(f"{ROWS}/{name}.txt", encoding="utf-8") as file:
        for line in file:
            if " | " in line:
                yield line.rstrip("\n").split(" | ")


def text_of(shown):
    """The bytes of a text as a row shows it, with a line feed at the end."""
    text = shown.replace(";", "\n").replace("\\r", "\r").encode() + b"\n"
    return re.sub(rb"\\x([0-9A-F]{2})", lambda found: bytes([int(found[1], 16)]), text)


def command_of(reading):
    """The command that shows the word at a place or of a channel, where a reading is of one."""
    if re.fullmatch(r"\d{4}", reading):
        return f"mem {reading}"
    return f"chan {reading[2:]}" if reading.startswith("CH") else None


def shown_by(said, asked):
    """What the replies to a step, to regs and to what is asked beside say, by the names of rows."""
    _, cycles, _ = re.search(r"^AT (\d+) (\d+) (\S+)$", said, re.M).groups()
    registers = re.search(r"^A .*$", said, re.M)[0].split()
    shown = dict(zip(registers[::2], registers[1::2]))
    words = re.findall(r"^(?:MEM|CHAN) (\d{5})$", said, re.M)
    return {**shown, **dict(zip(asked, words)), "CYCLES": cycles, "NEXT": re.search(r"^NEXT (\d{5})", said, re.M)[1]}


def lines_to(bank):
    """A thousand references to LAST."""
    return b" BANK %o\n" % bank + b" TCF LAST\n" * 1000


def long_sources():
    """Sources too long for a row, each with a name and what is answered."""
    return [
        ("65,536 lines", b"\n" * 65536, "-"),
        ("65,537 lines", b"\n" * 65537, "E12 LINE 65537"),
        ("a comment after 65,536 lines", b"\n" * 65536 + b"# end", "E12 LINE 65537"),
        ("a bad byte after 65,536 lines", b"\n" * 65536 + b"\x7f", "E10 LINE 65537"),
        ("a long line after 65,536 lines", b"\n" * 65536 + b"#" * 121, "E11 LINE 65537"),
        ("a fault on line 65,536", b"\n" * 65535 + b" FROB\n\n", "E15 LINE 65536"),
        ("a line of 120 bytes", b"#" * 120, "-"),
        ("a line of 121 bytes", b"#" * 121, "E11 LINE 1"),
        ("8,388,608 bytes", b"\n" * 8388608, "E12 LINE 65537"),
        ("8,388,609 bytes", b"\n" * 8388609, "E34"),
        ("a symbol of line 65,536", b" SETLOC 4000\n TCF LAST\n" + b"\n" * 65533 + b"LAST OCT 7\n", "02,4000 14001"),
        ("one line more", b" SETLOC 4000\n TCF LAST\n" + b"\n" * 65533 + b"LAST OCT 7\n\n", "E12 LINE 65537"),
        *((f"30,000 references, {place}", b"".join(map(lines_to, range(4, 34))) + b" SETLOC 4000\nLAST OCT 7\n", f"{place} {word}")
          for place, word in (("02,4000", "00007"), ("04,2000", "14000"), ("20,2500", "14000"), ("41,3747", "14000"))),
    ]


def long_feeds():
    """Feeds too long for a row, likewise."""
    series = b"EVERY 1 1 1 2 RUPT 3\n" * 16
    requests = b"7 RUPT 3\n" * 32768
    return [
        ("a line of 120 bytes", b"#" * 120, "-"),
        ("a line of 121 bytes", b" " * 121, "E30 LINE 1"),
        ("8,388,608 bytes in a line", b"#" * 8388608, "E30 LINE 1"),
        ("8,388,609 bytes in a line", b"#" * 8388609, "E34"),
        ("8,388,608 lines", b"\n" * 8388608, "-"),
        ("8,388,609 lines", b"\n" * 8388609, "E34"),
        *((f"65,536 inputs and {end}", requests * 2 + end, wanted) for end, wanted in (
            (b"\n#", "-"), (b"7 RUPT 1\n", "E32"), (b"7 RUPT 1\nX\n", "E32"), (b"6 RUPT 1\n", "E31 LINE 65537"), (b"6 TIME6 PINC\n", "E33 LINE 65537"),
            (b"#\nX\n7 RUPT 1\n", "E30 LINE 65538"))),
        *((f"65,536 inputs about a series, and {end}", requests + b"EVERY 0 1 1 999999999 TIME1 PINC\n" + requests + end, wanted) for end, wanted in (
            (b"EVERY 3 1 1 9 RUPT 1\n", "-"), (b"8 RUPT 1\n", "E32"), (b"6 RUPT 1\n", "E31 LINE 65538"))),
        *((f"sixteen series and {end}", series + end, wanted) for end, wanted in (
            (b"", "-"), (b"5 RUPT 1\n", "-"), (b"EVERY 0 1 1 1 RUPT 1\n", "E35 LINE 17"), (b"#\nEVERY 0 1 1 1 RUPT 1\nX\n", "E35 LINE 18"),
            (b"EVERY 0 1 1 1 RUPT 0\n", "E30 LINE 17"), (b"EVERY 0 1 1 1 CDUX PINC\n", "E33 LINE 17"), (b"X\nEVERY 0 1 1 1 RUPT 1\n", "E30 LINE 17"),
            (b"5 RUPT 1\n4 RUPT 1\nEVERY 0 1 1 1 RUPT 1\n", "E31 LINE 18"), (b"5 RUPT 1\nEVERY 0 1 1 1 RUPT 1\n4 RUPT 1\n", "E35 LINE 18"))),
    ]


# Programs that execute everything: INDEX of A before another, TC 2 where Q holds 2 and then TC 2, exchanges of Z, divisions by zero, banks without words;
# each with words that stand for it: where they come to be executed, under extracode or not, and in which fixed bank.
PROGRAMS = [
    (" INDEX 0; INDEX 0; AD ONE; TCF 4000;ONE OCT 1", [("4001", "50000", "0")]),
    (" CA TWO; TS 2; TC 2;TWO OCT 2", [("0002", "00002", "0")]),
    (" EXTEND; DCA ON; DTCF; EXTEND; DCA START; DTCB;ON OCT 0; OCT 4003;START OCT 4000; OCT 0", [("4002", "52005", "0"), ("4005", "52006", "0")]),
    (" CA FIVE; EXTEND; DV 100; TCF 4001;FIVE OCT 5", [("4002", "10100", "1")]),
    (" CA SUPB; EXTEND; WRITE 7" + "".join(f"; EXTEND; DCA BANK{it}; DTCB" for it in (44, 45, 46, 47)) + "; TCF 4003;SUPB OCT 100"
     + "".join(f";BANK{it} OCT 2000; OCT {bank}" for it, bank in ((44, 70000), (45, 72000), (46, 74000), (47, 76000))), [("2000", "00000", "0", fb) for fb in ("34", "35", "36", "37")]),
]
INPUTS = b"""3 TIME1 PINC
10 CHAN 015 00021
40 RUPT 3
60 TIME6 DINC
60 PIPAX MINC
90 CDUX MCDU
120 INLINK SHANC
121 INLINK SHINC
200 CHAN 016 00037
300 RUPT 10
500 TIME3 PINC
501 TIME4 PINC
502 TIME5 PINC
900 CHAN 7 00100
1000 RUPT 1
1500 OPTY PCDU
2000 RUPT 2
2500 CHAN 030 77777
3000 RUPT 4
4000 RUPT 5
5000 RUPT 6
6000 RUPT 7
7000 RUPT 8
8000 RUPT 9
9000 TIME2 PINC
9999 RUPT 3
"""
STEPS = 10_000
# The first steps, and others without an order.
SHOWN = sorted({*range(20), *(it * 7919 % (STEPS + 1) for it in range(100)), STEPS})


def bank_of_words(state):
    """A source that allows interrupts and then fills a bank with words of a generator."""
    lines = [b" RELINT\n"]
    for _ in range(1023):
        state = (state * 1664525 + 1013904223) % 2**32
        lines.append(b" OCT %05o\n" % (state >> 16 & 0o77777))
    return b"".join(lines)


class OnRows:
    """What both ways of keeping images are tried by."""

    def setUp(self):
        super().setUp()
        self.source, self.feed, self.rope = (f"{self.room}/row.{it}" for it in ("agc", "feed", "rope"))

    def ran(self, *words, commands=""):
        """The status of the program, its output and its error output."""
        ran = subprocess.run([PROGRAM, *words], input=commands.encode(), capture_output=True, timeout=300)
        return ran.returncode, ran.stdout.decode(), ran.stderr.decode()

    def session(self, commands):
        """What a session over the source and the feed of a row replies to some lines of commands."""
        return self.ran("debug", self.source, self.feed, commands="".join(f"{it}\n" for it in commands))

    def is_refused(self, got, wanted):
        return got == (1, "", f"agcws: {wanted}\n")

    def assemble(self, label, source, wanted):
        """A source that is refused, with no image, or whose listing has a word at a place."""
        write(self.source, source)
        status, out, err = got = self.ran("asm", self.source, self.rope)
        if wanted.startswith("E"):
            with self.subTest(label):
                self.assertTrue(self.is_refused(got, wanted) and not os.path.exists(self.rope), f"wanted {wanted}, got {got}")
        else:
            words = set(re.findall(r"^ *\d+ (\d\d,\d{4} \d{5})(?:  |$)", out, re.M))
            with self.subTest(label):
                self.assertTrue((status, err) == (0, "") and (wanted == "-" or wanted in words), f"wanted {wanted}, got {got}")
            os.remove(self.rope)

    def shown_at(self, commands_of):
        """What a session shows at each of some steps, which commands lead to: where it stands, its registers, and in each twentieth all words and channels."""
        everything = [f"mem {it:o}" for it in range(2048)] + [f"chan {it:o}" for it in range(512)]
        asked = [[*commands_of(it), "regs", *(everything if at % 20 == 0 else [])] for at, it in enumerate(SHOWN)]
        _, out, err = self.session([it for part in asked for it in [*part, "sym"]])
        found = [[line for line in said.split("\n") if " CH " not in line] for said in out.split("E50 COMMAND\n")[:-1]]
        return found if not err else []

    def test_programs_that_execute_everything(self):
        """Programs that execute everything: at each step that is shown all is as in a session that only goes forward, and the words that a row names are executed."""
        write(self.feed, INPUTS)
        programs = [(text_of(shown), wanted) for shown, wanted in PROGRAMS] + [(bank_of_words(it), [("4000", "00003", "0")]) for it in (7, 1969, 65537)]
        for number, (source, wanted) in enumerate(programs):
            write(self.source, b" SETLOC 4000\n" + source)
            before = [0, *SHOWN]
            forward = self.shown_at(lambda it: [f"step {it - before[SHOWN.index(it)]}"])
            back = self.shown_at(lambda it: [*([f"step {STEPS}"] if it == 0 else []), f"goto {it}"])
            back = [it[1:] if at == 0 else it for at, it in enumerate(back)]
            with self.subTest(f"program {number} of those that execute everything is shown as it was"):
                self.assertTrue(len(forward) == len(SHOWN) and back == forward)
            met = {(it[0].split()[-1], it[2].split()[1], it[1].split()[15], it[1].split()[11]) for it in forward}
            met |= {it[:3] for it in met}
            with self.subTest(f"program {number} executes what it is for"):
                self.assertTrue(set(wanted) <= met, f"{set(wanted) - met}")

    def test_added_inputs(self):
        """Inputs that are added: each step is as in a run that had them from the start. Before each new step the first is shown."""
        write(self.source, b" SETLOC 4000\n TCF 4000\n")
        everywhere = [it for t in range(41) for it in (f"goto {t}", "regs", "mem 25")]
        shown = []
        for feed, added in ((b"", ["add 30 TIME1 PINC", "add 25 TIME1 PINC", "add 30 TIME1 PINC"]), (b"25 TIME1 PINC\n30 TIME1 PINC\n30 TIME1 PINC\n", [])):
            write(self.feed, feed)
            status, out, err = self.session(["run 20", *added, *(it for _ in range(20) for it in ("goto 0", "run 1")), "clear", *everywhere])
            shown.append((status, out.partition("CLEAR\n")[2], err))
        with self.subTest("inputs added change nothing past"):
            self.assertTrue(shown[0] == shown[1] and shown[0][::2] == (0, "") and shown[0][1].endswith("MEM 00003\n"), f"{shown}")
        write(self.source, b" CA FIVE\n AD FIVE\n EXTEND\n WRITE 10\n TCF 4000\nFIVE OCT 5\n")
        write(self.feed, b"")
        got = self.session([it for _ in range(23) for it in ("goto 0", "run 1")])
        lines = [it for it in got[1].split("\n") if " CH " in it]
        with self.subTest("steps after the start was shown"):
            self.assertEqual(lines, [f"{8 * it + 7} CH 010 00012" for it in range(4)])


class Rows(OnRows, Case):
    """The rows, and sources, feeds and programs that are too long for one."""

    def test_sources(self):
        for shown, wanted in rows_of("sources"):
            self.assemble(f"the source {shown}", text_of(shown), wanted)
        for shown, wanted in rows_of("symbols"):
            self.assemble(f"{shown}, and then its symbols", text_of(shown) + SYMBOLS, wanted)
            self.assemble(f"{shown}, after its symbols", SYMBOLS + text_of(shown), wanted)

    def test_feeds(self):
        write(self.source, b"")
        for shown, wanted in rows_of("feeds"):
            write(self.feed, text_of(shown))
            got = self.ran("run", self.source, self.feed, "0")
            with self.subTest(f"the feed {shown}"):
                self.assertTrue(self.is_refused(got, wanted) if wanted != "-" else got == (0, "", ""), f"wanted {wanted}, got {got}")

    def test_steps(self):
        for words, feed, *groups in rows_of("steps"):
            write(self.source, b" SETLOC 4000\n" + "".join(f" OCT {it}\n" for it in words.split() if it != "-").encode())
            write(self.feed, b"" if feed == "-" else text_of(feed))
            self.try_groups(words, groups)

    def try_groups(self, words, groups):
        """What a session shows after each of some steps."""
        before, commands, wanted = 0, [], []
        for step, readings in (it.split(": ") for it in groups):
            wanted.append(dict(it.split("=") for it in readings.split()))
            commands += [f"step {int(step) - before}", "regs", *(command_of(it) for it in wanted[-1] if command_of(it)), "sym #"]
            before = int(step)
        status, out, err = self.session(commands)
        with self.subTest(f"the session of {words}"):
            self.assertEqual((status, err), (0, ""), f"{status} {err}")
        for said, group, readings in zip(out.split("E50 COMMAND\n"), groups, wanted):
            shown = shown_by(said, [it for it in readings if command_of(it)])
            got = {it: shown.get(it) for it in readings}
            with self.subTest(f"{words}, after {group.split(':')[0]} steps"):
                self.assertEqual(got, readings)

    def test_long_sources_and_feeds(self):
        for name, source, wanted in long_sources():
            self.assemble(f"a source of {name}", source, wanted)
        write(self.source, b"")
        for name, feed, wanted in long_feeds():
            write(self.feed, feed)
            got = self.ran("run", self.source, self.feed, "0")
            with self.subTest(f"a feed of {name}"):
                self.assertTrue(self.is_refused(got, wanted) if wanted != "-" else got == (0, "", ""), f"wanted {wanted}, got {got}")

    def test_many_added_inputs(self):
        """The 65,537th input that is added is refused, and a cycle that is too early before that."""
        write(self.source, b" CA FIVE\n AD FIVE\n EXTEND\n WRITE 10\n TCF 4000\nFIVE OCT 5\n")
        write(self.feed, b"")
        got = self.session(["step 1", *(f"add {1000 + it} TIME1 PINC" for it in range(65536)), "add 1000 TIME1 PINC", "add 2 TIME1 PINC", "step 1"])
        with self.subTest("65,537 inputs added"):
            self.assertEqual(got, (0, "AT 1 2 4001\n" + 65536 * "ADDED\n" + "E32 TOO MANY\nE42 TOO EARLY\nAT 2 4 4002\n", ""), got[1][-200:])


if __name__ == "__main__":
    unittest.main()
