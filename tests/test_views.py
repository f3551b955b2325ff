"""Tests of the views on the built program, and of what README.md shows of them."""
import importlib.machinery
import importlib.util
import json
import os
import re
import signal
import socket
import subprocess
import sys
import tempfile
import time
import unittest

from common import EMPTY, EXAMPLES, PROGRAM, ROOT, VIEWS, text_of, with_ending, write
import pipe
from documents import Document
from terminal import CTRL_C, Terminal
from test_examples import fields_of
from viewing import LOST, ViewCase, call, refusal, runs, text_at

# (`check` is that of examples/)
sys.path[:1] = [f"{ROOT}/examples", f"{ROOT}/gate", VIEWS]
UNITS_PER_CYCLE = 1_171_875
# What a part takes, at most.
MOST_SECONDS = 120


def talking(*words, **more):
    """A session of talk that goes on."""
    return subprocess.Popen([f"{VIEWS}/talk", *words], stdin=subprocess.PIPE, stdout=subprocess.PIPE, stderr=subprocess.STDOUT, text=True, **more)


def until(ran, text, command):
    """The lines of a session after a command up to one with a text, or all."""
    ran.stdin.write(f"{command}\n")
    ran.stdin.flush()
    lines = []
    while not lines or text not in lines[-1]:
        lines.append(ran.stdout.readline())
        if not lines[-1]:
            break
    return lines


class Dump:
    """What a value change dump says: the first value of each signal, and its changes by cycle."""

    def __init__(self, test, text):
        self.test = test
        head, body = text.split("$enddefinitions $end\n")
        self.names, group = {}, None
        for line in head.splitlines():
            words = line.split()
            if words[0] == "$scope":
                group = words[2]
            elif words[0] == "$var":
                self.names[words[3]] = (group, words[4])
        self.changes = {name: [] for name in self.names.values()}
        self.times = []
        for line in body.replace("$dumpvars\n", "").replace("$end\n", "").splitlines():
            self.take(line)
        with self.test.subTest("times are whole cycles, and rise"):
            self.test.assertTrue(all(a < b == int(b) for a, b in zip([-1, *self.times], self.times)), f"{self.times}")

    def take(self, line):
        if line[0] == "#":
            self.times.append(int(line[1:]) / UNITS_PER_CYCLE)
        else:
            value, code = line[1:].split() if line[0] in "bs" else (line[0], line[1:])
            self.changes[self.names[code]].append((self.times[-1], value if line[0] in "sx" else int(value, 2)))


# What a session is asked for the word of a signal.
# The cells that an interrupt writes, which a session takes by their numbers.
SPECIAL = {"ZRUPT": "15", "BRUPT": "17", "ARUPT": "10", "LRUPT": "11", "QRUPT": "12"}
ASKED = {"channels": lambda it: f"chan {it[2:]}", "cells": lambda it: f"mem {SPECIAL.get(it, it.replace('+', ' +'))}", "registers": lambda it: f"mem {'A L Q EB FB Z BB'.split().index(it)}"}
# Puts out each word of channel 032 that is new, with that of CDUX; a key, and a word of the uplink, in their interrupts.
HEARS = b""" SETLOC 4000
 RELINT
 TCF SEEN
 SETLOC 4024
 XCH 10
 TCF KEY
 SETLOC 4034
 XCH 10
 TCF UPLINK
 SETLOC 4100
KEY EXTEND
 READ 15
 EXTEND
 WRITE 10
 EXTEND
 WRITE 11
 XCH 10
 RESUME
UPLINK CA 45
 EXTEND
 WRITE 13
 CAF ZERO
 TS 45
 XCH 10
 RESUME
SEEN EXTEND
 READ 32
 EXTEND
 RXOR 14
 EXTEND
 BZF SEEN
 EXTEND
 READ 32
 EXTEND
 WRITE 14
 CA 32
 EXTEND
 WRITE 30
 TCF SEEN
ZERO OCT 0
"""


class Display:
    """A display and keyboard at a socket, by packets of its own making: 00u and the channel's bits 8 to 4, 01 and its lower three with the word's upper three,
    10 and 11 with six bits of the word each."""

    def __init__(self, test, port):
        self.test = test
        self.connection, self.words = socket.create_connection(("127.0.0.1", port), timeout=300), []

    def send(self, channel, word, mask=""):
        bits = f"{channel:08b}{word:015b}"
        groups = [f"00{1 if mask else 0}{bits[:5]}", f"01{bits[5:11]}", f"10{bits[11:17]}", f"11{bits[17:]}"]
        self.connection.sendall(bytes(int(it, 2) for it in groups))

    def until(self, channel, word):
        """The packets up to that of a word on a channel, as pairs."""
        got = []
        while not got or got[-1] != (channel, word):
            bits = "".join(f"{it:08b}" for it in self.some(4))
            with self.test.subTest("the marks of a packet"):
                self.test.assertEqual((bits[:3], bits[8:10], bits[16:18], bits[24:26]), ("000", "01", "10", "11"))
            got.append((int(bits[3:8] + bits[10:13], 2), int(bits[13:16] + bits[18:24] + bits[26:], 2)))
        return got

    def some(self, count):
        data = b""
        while len(data) < count:
            part = self.connection.recv(count - len(data))
            if not part:
                raise EOFError("the bridge has ended")
            data += part
        return data


# The groups of operators, as the grammar and the editors' files name them.
GROUPS = ["directive", "constant", "instruction", "extracode"]
EDITORS = f"{VIEWS}/editors"


def operators_of_manual():
    """The operators that the tables of sections 2 and 4 name, but for those of flight programs alone, and EQUALS and =, which stand in a sentence."""
    manual = text_of("docs/MANUAL.md")
    sections = re.findall(r"^## [24]\. .*?(?=^## |^### Forms of flight programs)", manual, re.M | re.S)
    cells = re.findall(r"^\| ([^|]*) \|", "".join(sections), re.M)
    return {*(it.split()[0] for it in re.findall(r"`([^`]+)`", " ".join(cells))), *re.search(r"^`(EQUALS) K`, or `(=) K`", manual, re.M).groups()}


class Grammar:
    """The scopes of a TextMate grammar without rules of several lines."""

    def __init__(self, path):
        self.grammar = json.loads(text_at(path))

    def rules(self, patterns):
        for it in patterns:
            if "include" in it:
                found = self.grammar["repository"][it["include"].lstrip("#")]
                yield from self.rules(found["patterns"]) if "patterns" in found else [found]
            else:
                yield it

    def scopes(self, line, start=0, patterns=None):
        """The texts of a line that have a scope, with the second word of it."""
        rules = list(self.rules(patterns or self.grammar["patterns"]))
        while start < len(line):
            found = [(match.start(), i, match) for i, it in enumerate(rules) if (match := re.compile(it["match"]).search(line, start)) and match[0]]
            if not found:
                return
            _, i, match = min(found)
            yield from self.named(rules[i], match, 0)
            for group, it in rules[i].get("captures", {}).items():
                yield from self.named(it, match, int(group))
            start = match.end()

    def named(self, rule, match, group):
        if "name" in rule and match[group]:
            yield rule["name"].split(".")[2], match[group]
        if "patterns" in rule:
            yield from self.scopes(match.string[: match.end(group)], match.start(group), rule["patterns"])


def grammar_in(room):
    """The grammar that `editors/make` writes."""
    subprocess.run([f"{EDITORS}/make", "--grammar", f"{room}/grammar.json"], check=True)
    return Grammar(f"{room}/grammar.json")


# The first request of a client of the debug adapter.
INITIALIZE = b'Content-Length: 54\r\n\r\n{"seq": 1, "type": "request", "command": "initialize"}'


class Views(ViewCase):
    """What all views do alike, and those that have no file of their own."""

    def test_session(self):
        """Whatever a command replies, its reply is told apart from the next one."""
        with pipe.Session(f"{EXAMPLES}/five_plus_five.agc", EMPTY) as session:
            for command, reply in [
                ("step 1", ["AT 1 2 02,4001"]),
                ("", []),
                ("# a comment", []),
                ("!", ["E50 COMMAND no command !"]),
                ("echo end", ["end"]),
                ("echo of reply", ["of reply"]),
                ("sym 0", ["E17 UNDEFINED"]),
                ("sym NONE", ["E17 UNDEFINED"]),
                ("goto 2", ["E41 NOT YET"]),
                ("x" * 81, ["E51 LONG"]),
                ("run 7", ["7 CH 010 00012", "AT 8 13 02,4003"]),
                ("changed 0", ["0000", "0005", "COUNT 2"]),
            ]:
                with self.subTest(f"the reply to {command!r}"):
                    self.assertEqual(session.ask(command), reply)
            many = session.ask("run 200000")
            with self.subTest("a long reply"):
                self.assertTrue(len(many) == 40001 and many[-1].startswith("AT 200008 "), f"{len(many)} lines")
            with self.subTest("the end of a session"):
                self.assertEqual(refusal(lambda: session.ask("quit")), (0, "the session has ended"))
            with self.subTest("what is asked after the end"):
                self.assertEqual(refusal(lambda: session.ask("regs")), (0, "the session has ended"))
        wrong = write(f"{self.room}/wrong.agc", b" FROB 1\n")
        with pipe.Session(wrong, EMPTY) as session:
            with self.subTest("a session over a wrong source"):
                self.assertEqual(refusal(lambda: session.ask("regs")), (1, "agcws: E15 LINE 1"))

    def test_readings(self):
        """What is read of the program's texts."""
        with self.subTest("a channel line"):
            self.assertEqual(pipe.output_of("7 CH 010 00012\n"), pipe.Output(7, 0o10, 0o12))
        with self.subTest("another line"):
            self.assertEqual(pipe.output_of("END STEPS 4 CYCLES 7 OUTPUTS 1 Z 4004"), None)
        rows, symbols = pipe.listing_of(LOST[0])
        with self.subTest("a row"):
            self.assertEqual(rows[7], pipe.Row(8, "E0,0100", "", "COUNT   ERASE"))
        with self.subTest("a row with a word"):
            self.assertEqual(rows[12], pipe.Row(13, "02,4000", "14100", "        TCF     START"))
        with self.subTest("symbols"):
            self.assertEqual((len(symbols), symbols["COUNT"], symbols["TABLE"]), (12, ("ERASABLE", "0100"), ("FIXED", "02,0122")))
        rows, symbols = pipe.listing_of(write(f"{self.room}/symbols.agc", b"SYMBOLS EQUALS 5\n 2CADR 4000\n# SYMBOLS 7\n"))
        with self.subTest("a source with that word"):
            self.assertEqual((len(rows), rows[2].text, symbols), (4, "", {"SYMBOLS": ("NUM", "00005")}))
        steps = list(pipe.steps(*LOST, "60", "--from", "13", "--to", "18"))
        with self.subTest("an instruction"):
            self.assertEqual(steps[0], pipe.Step(13, 23, "02,4104", "54100", "TS COUNT", [("COUNT", "00003")], None))
        with self.subTest("an instruction that writes nothing"):
            self.assertEqual(steps[2], pipe.Step(15, 27, "02,4106", "50100", "INDEX COUNT", [], None))
        with self.subTest("an input"):
            self.assertEqual((steps[3][:4], steps[3].text.split()[:2], steps[3].written), ((16, 28, "-", "INPUT"), ["TIME3", "PINC"], [("TIME3", "00000")]))
        with self.subTest("an entry"):
            self.assertEqual(steps[5][2:6], ("02,4014", "ENTRY", "T3RUPT", [("BRUPT", "54101"), ("ZRUPT", "04111")]))
        [output] = pipe.steps(*LOST, "47", "--from", "47")
        with self.subTest("an output"):
            self.assertEqual((output.written, output.output), ([("CH012", "00075")], pipe.Output(87, 0o12, 0o75)))
        with self.subTest("a refused trace"):
            self.assertEqual(refusal(lambda: list(pipe.steps(LOST[0], LOST[0], "4"))), (1, "agcws: E30 LINE 4"))

    def test_calls(self):
        """What all views do alike: help, files that are not there, a program that is not there, an output that nobody reads."""
        for view in ["talk", "dap", "lsp", "shake", "campaign", "chain", "wave", "dsky", "keys", "bridge", "report", "grade"]:
            status, out, err = call(view, "--help")
            with self.subTest(f"{view} --help"):
                self.assertTrue((status, err) == (0, "") and out.startswith(f"usage: {view} "), f"{out} {err}")
            with self.subTest(f"{view} --help fits 80 columns"):
                self.assertLessEqual(max(map(len, out.splitlines())), 80, out)
        with self.subTest("a feed that is not there"):
            self.assertEqual(call("shake", LOST[0], "4", "RUPT 1", "--feed", f"{self.room}/none"), (3, "", f"shake: {self.room}/none: No such file or directory\n"))
        with self.subTest("a source that is not there"):
            self.assertEqual(call("wave", f"{self.room}/none", EMPTY, "4"), (3, "", "agcws: E6\n"))
        with self.subTest("lines that are not there"):
            self.assertEqual(call("dsky", f"{self.room}/none"), (3, "", f"dsky: {self.room}/none: No such file or directory\n"))
        status, out, err = call("wave", *LOST, "4", env={**os.environ, "AGCWS": f"{self.room}/none"})
        with self.subTest("a program that is not there"):
            self.assertEqual((status, out, err), (3, "", f"{self.room}/none is not there: ./agcws --version builds it, or AGCWS names another\n"))
        with subprocess.Popen([f"{VIEWS}/wave", f"{EXAMPLES}/seconds.agc", EMPTY, "50000"], stdout=subprocess.PIPE, stderr=subprocess.PIPE) as ran:
            ran.stdout.close()
            with self.subTest("an output that nobody reads"):
                self.assertEqual(ran.stderr.read(), b"")
        with open("/dev/full", "wb") as full:
            ran = subprocess.run([f"{VIEWS}/report", *LOST, "4"], stdout=full, stderr=subprocess.PIPE, timeout=300, check=False)
            with self.subTest("an output that cannot be written"):
                self.assertEqual((ran.returncode, ran.stderr), (3, b"report: the output: No space left on device\n"))

    def test_closed(self):
        """A view whose standard input or output is closed ends as one over /dev/null does; nothing else gets its number."""
        lines = write(f"{self.room}/lines", b"87 CH 012 00075\n")
        run = [*LOST, "60"]
        views = {"talk": LOST, "report": run, "wave": run, "chain": [*run, "SUM"], "shake": [LOST[0], "60", "RUPT 1"], "new": ["lamp"], "dsky": [lines]}
        for view, words in {**views, "fold": [], "dap": [], "lsp": [], "keys": ["V35E"]}.items():
            ended = []
            for streams in ("</dev/null >/dev/null", "<&- >&-", ">&-", "<&-"):
                shell = ["sh", "-c", f'"$0" "$@" {streams}', f"{VIEWS}/{view}", *words]
                with tempfile.TemporaryDirectory(prefix="agcws-") as place:
                    ran = subprocess.run(shell, stdin=subprocess.DEVNULL, capture_output=True, text=True, timeout=120, check=False, cwd=place)
                ended.append((ran.returncode, ran.stderr))
            with self.subTest(f"{view} with closed streams"):
                self.assertEqual(ended, 4 * [(ended[0][0], "")])
        page = f"{self.room}/page.html"
        subprocess.run(["sh", "-c", '"$0" "$@" <&- >&- 2>&-', f"{VIEWS}/report", *LOST, "60", "--out", page], timeout=120, check=False)
        with self.subTest("a file that is written beside closed streams"):
            self.assertEqual(text_at(page), call("report", *LOST, "60")[1])

    def test_files(self):
        """A file that a view writes takes the old one's place once it is whole, and never that of a source or a feed."""
        old = write(f"{self.room}/old.html", b"old\n")
        for view, words in [("report", []), ("wave", []), ("chain", ["SUM"])]:
            status, out, err = call(view, f"{self.room}/none", EMPTY, "60", *words, "--out", old)
            with self.subTest(f"{view} of no source leaves the file"):
                self.assertEqual((status, out, err, text_at(old)), (3, "", "agcws: E6\n", "old\n"))
            source = write(f"{self.room}/mine.agc", text_at(LOST[0]).encode())
            status, out, err = call(view, source, LOST[1], "60", *words, "--out", source)
            with self.subTest(f"{view} over its source"):
                self.assertTrue((status, out) == (2, "") and "is not written over" in err and text_at(source) == text_at(LOST[0]), err)
            os.chmod(old, 0o600)
            with self.subTest(f"{view} writes it"):
                self.assertEqual(call(view, *LOST, "60", *words, "--out", old)[::2], (0, ""))
            with self.subTest(f"what {view} has written"):
                self.assertTrue(text_at(old) != "old\n" and os.stat(old).st_mode & 0o777 == 0o600 and not os.path.exists(f"{old}.part"))
            write(old, b"old\n")
        source = write(f"{self.room}/mine.agc", text_at(LOST[0]).encode())
        with self.subTest("save over a source"):
            self.assertEqual(self.talk([f"save {source}"], source, LOST[1])[1], [f"{source} is a source or a feed, or is read: it is not written over"])
        feed = write(f"{self.room}/mine.feed", text_at(LOST[1]).encode())
        with self.subTest("save over the feed"):
            self.assertEqual(self.talk([f"save {self.room}/mine"], source, feed)[1], [f"{feed} is the feed of this session: it is not written over"])
        with self.subTest("a device is written to"):
            self.assertEqual(call("report", *LOST, "4", "--out", "/dev/null")[::2], (0, ""))
        with self.subTest("and stays one"):
            self.assertFalse(os.path.isfile("/dev/null"))

    def talk(self, commands, *words, **more):
        """What `talk` shows after each command, a list of lines for each; the first is what it shows before."""
        status, out, err = call("talk", *words, given="".join(f"{it}\n" for it in commands), **more)
        with self.subTest(f"the end of talk about {commands[:2]}"):
            self.assertEqual((status, err), (0, ""))
        parts = re.split(r"^\(\d+\) .*\n", out, flags=re.M)
        return [it.splitlines() for it in parts]

    def test_watches(self):
        """Registers that have a symbol are watched as steps tell them; what steps do not tell is refused. Lists go by an erasable symbol too."""
        source = write(f"{self.room}/watch.agc", b"EB EQUALS 3\n SETLOC 100\nX ERASE\n SETLOC 4000\n CA BANK3\n TS EB\n TS X\nDONE TCF DONE\nBANK3 OCT 1400\n")
        shown = self.talk(["watch EB", "c", "watch Z", "watch BB", "watch 4001", "list X"], source, EMPTY)
        with self.subTest("a register with a symbol is watched"):
            self.assertEqual(shown[1], ["EB 00000 = 0 = +0.00000 = 000 000 000 000 000"])
        with self.subTest("and stops a move"):
            self.assertEqual(shown[2][:2], ["changed: EB 00000 -> 01400", "step 2, cycle 4: TS EB  EB=01400"])
        with self.subTest("what steps do not tell"):
            self.assertEqual(shown[3:6], [["Z changes at each step"], ["BB is EB and FB: watch these"], ["fixed memory does not change"]])
        with self.subTest("a list by an erasable symbol"):
            self.assertIn("      3 E0,0100        X ERASE", shown[6], f"{shown[6]}")
        # (each is told by the name that a trace has: of a cell with a use of its own, of a word behind a symbol)
        source = write(f"{self.room}/behind.agc", b" SETLOC 100\nX ERASE +2\n SETLOC 4000\n CA FIVE\n TS 12\n TS X +1\nDONE TCF DONE\nFIVE OCT 5\n")
        shown = self.talk(["watch QRUPT", "watch X +1", "c", "c"], source, EMPTY)
        words = "00000 = 0 = +0.00000 = 000 000 000 000 000"
        with self.subTest("cells without a symbol are watched"):
            self.assertEqual(shown[1:3], [[f"QRUPT {words}"], [f"QRUPT {words}", f"X+1 {words}"]])
        with self.subTest("and stop a move"):
            self.assertEqual([it[0] for it in shown[3:5]], ["changed: QRUPT 00000 -> 00005", "changed: X+1 00000 -> 00005"])
        with self.subTest("a flight source"):
            self.assertEqual(self.talk(["step"], "--flight", f"{EXAMPLES}/flight/downlist.agc", EMPTY)[1][0][:7], "step 1,")

    def test_quiet(self):
        """A move goes on to its end where words are counted, and tells of each part how many there were."""
        source = write(f"{self.room}/put.agc", b" SETLOC 4000\nHERE EXTEND\n WRITE 10\n TCF HERE\n")
        shown = self.talk(["quiet on", "run 300000"], source, EMPTY)
        with self.subTest("as many words as are put out"):
            self.assertEqual((shown[1], sum(int(re.fullmatch(r"WORDS (\d+)", it)[1]) for it in shown[2][:-2])), (["QUIET on"], 100_000))
        with self.subTest("the end of the move"):
            self.assertTrue(shown[2][-2].startswith("step 300000, cycle "), f"{shown[2][-2:]}")

    def test_talk(self):
        """What talk makes of commands, beside what the manual shows of the same run in section 7."""
        shown = self.talk(["goto 0", "r 60", "", "la SUM", "g 42", "mem SUM", "b :16", "seek", "p A L", "clear", "foo", "mem SUMM", "b", "run 5x", "goto 999", "add 5 RUPT 1", "p (", "p FOO", "b :99"], *LOST)
        with self.subTest("where a session begins"):
            self.assertEqual(shown[0][-1], ">    13 02,4000 14100          TCF     START")
        for at, wanted in [
            (2, ["87 CH 012 00075", "step 60, cycle 100: TCF DONE", ">    35 02,4116 14116  DONE    TCF     DONE"]),
            (3, ["step 120, cycle 160: TCF DONE", ">    35 02,4116 14116  DONE    TCF     DONE"]),
            (4, ["LAST 43"]),
            (5, ["step 42, cycle 78: AD TABLE +0  A=000075", ">    29 02,4110 54101          TS      SUM"]),
            (6, ["MEM 00063 = 51 = +0.00311 = 000 000 000 110 011"]),
            (8, ["breakpoint 1: at 02,4014", "step 18, cycle 33: T3RUPT  BRUPT=54101 ZRUPT=04111", ">    16 02,4014 34117          CAF     ONE"]),
            (9, ["A 177765 = -10 = -0.00061 = 1 111 111 111 110 101", "L 00000 = 0 = +0.00000 = 000 000 000 000 000"]),
            (10, ["CLEAR"]),
            (11, ["no command foo"]),
            (12, ["no symbol SUMM; did you mean SUM?"]),
            (15, ["the run has not come so far: step and run make new steps"]),
            (16, ["its cycle has passed: an input comes after the last step that was made"]),
            (18, ["no place FOO"]),
            (19, ["no word stands on line 99 or below"]),
        ]:
            with self.subTest(f"what talk shows, {at}"):
                self.assertEqual(shown[at], wanted)
        shown = self.talk(["s 15", "s", "s", "s", "watch A", "c", "back", "watch", "unwatch", "s 2", "display SUM", "s", "undisplay", "list ONE", "p 17 + 1 17D [101] CH012"], *LOST)
        with self.subTest("an input"):
            self.assertEqual(shown[1][1], "next: - INPUT TIME3 PINC ASKS T3RUPT")
        with self.subTest("an entry"):
            self.assertEqual(shown[3][1], "next: 02,4014 ENTRY T3RUPT")
        with self.subTest("a watched register"):
            self.assertEqual(shown[6][:2], ["changed: A 177765 -> 000001", "step 19, cycle 35: CA ONE  A=000001"])
        with self.subTest("what is watched, after a step back"):
            self.assertEqual(shown[8], ["A 177765 = -10 = -0.00061 = 1 111 111 111 110 101"])
        with self.subTest("nothing is watched"):
            self.assertEqual(shown[10][0], "step 20, cycle 37: ADS TICKS  TICKS=00001 A=000001")
        with self.subTest("what is displayed"):
            self.assertEqual(shown[12][-1], "SUM 77715 = -50 = -0.00305 = 111 111 111 001 101")
        with self.subTest("a list"):
            self.assertTrue("     37 02,4117 00001  ONE     OCT     1" in shown[14] and len(shown[14]) == 11, f"{shown[14]}")
        values = ["17 + 1 20 = 16", "17D 21 = 17", "[101] 77715 = -50 = -0.00305 = 111 111 111 001 101", "CH012 00000 = 0 = +0.00000 = 000 000 000 000 000"]
        with self.subTest("values"):
            self.assertEqual(shown[15], values)
        with self.subTest("a refused source"):
            self.assertEqual(call("talk", write(f"{self.room}/wrong.agc", b" FROB 1\n"), EMPTY)[::2][1].splitlines()[0], "agcws: E15 LINE 1")
        self.try_display_in_talk()
        self.try_whatif_in_talk()
        self.try_saved()
        self.try_reload()
        self.try_ctrl_c()

    def test_devices(self):
        """A device may be the feed, and is no source; of a folder the program says so itself."""
        for words in ([], ["--image"]):
            with self.subTest(f"a device as a source {words}"):
                self.assertEqual(call("talk", *words, "/dev/null", "/dev/null"), (2, "", "/dev/null is no file, as a source or an image is to be\n"))
        with self.subTest("a folder as a source"):
            self.assertEqual(call("talk", self.room, "/dev/null")[::2], (3, f"agcws: E6\n{self.room}: error E6: a file could not be opened or read\n"))
        with self.subTest("no inputs"):
            self.assertEqual(self.talk(["run 60"], LOST[0], "/dev/null")[1][0], "77 CH 012 00062")

    def test_other_run(self):
        """Another run beside the session's: each stands where its own commands have led."""
        shown = self.talk(["run 60", "other run 60", "value SUM", "other value SUM", "other goto 38", "other", "s 1", "other other regs", "other save x", "other mem SUMM"], *LOST, "--with", LOST[0], EMPTY)
        # (by hand: with the tick 61, without it 50; step 38 of that is the last TS SUM, at cycle 69)
        with self.subTest("the words put out"):
            self.assertEqual([it[0] for it in shown[1:3]], ["87 CH 012 00075", "77 CH 012 00062"])
        with self.subTest("a place of either run"):
            self.assertEqual([[it.split()[2:4] for it in part if it.startswith("VALUE")] for part in shown[3:5]], [[["00075", "61"]], [["00062", "50"]]], f"{shown[3:5]}")
        for at in (5, 6):
            with self.subTest("where the other stands"):
                self.assertEqual(shown[at][0][:7], "step 38", f"{shown[at]}")
        with self.subTest("and this one as before"):
            self.assertEqual(shown[7][0][:7], "step 61", f"{shown[7]}")
        with self.subTest("commands that are refused"):
            self.assertEqual(shown[8:11], [["other is no command of the other run"], ["save is no command of the other run"], ["no symbol SUMM; did you mean SUM?"]])
        with self.subTest("where there is none"):
            self.assertIn("other", " ".join(self.talk(["other regs"], *LOST)[1]))
        with self.subTest("another run that is refused"):
            status, out, err = call("talk", *LOST, "--with", LOST[0], "/dev/none")
            self.assertEqual((status, out, err.splitlines()[0]), (3, "", "agcws: E6"))

    def try_whatif_in_talk(self):
        """lost_sum.agc tells by hand why a pulse at 27 leaves 75; without one the sum is 62. The session stays as it is."""
        shown = self.talk(["until 26", "whatif TIME3 PINC for 100 to 30", "add 60 TIME3 PINC", "inputs", "whatif TIME3 MINC", "whatif RUPT", "whatif RUPT 3 to 5"], LOST[0], EMPTY)
        with self.subTest("whatif up to a cycle"):
            self.assertEqual(shown[2], ["cycles 27-29: CH 012 word 1 is 00075 in place of 00062", "cycle 30: the same"])
        with self.subTest("whatif adds nothing"):
            self.assertEqual(shown[4][-1], "# COUNT 1")
        with self.subTest("whatif of an input that is refused"):
            self.assertEqual(shown[5], ["TIME3 MINC: E33"])
        with self.subTest("whatif of an input that never comes"):
            self.assertEqual(self.talk(["until 26", "whatif TIME3 PINC for 0"], LOST[0], EMPTY)[2], ["cycle 27: it never comes"])
        with self.subTest("whatif of no input"):
            self.assertEqual(shown[6], ["whatif takes an input, as CHAN 15 21, and then for N and to CYCLE where they are meant"])
        span = ["whatif tries 65,536 cycles at most: it goes to one from 27 to 65562"]
        with self.subTest("whatif of a span that is backwards"):
            self.assertEqual(shown[7], span)
        shown = self.talk(["until 26", "whatif TIME3 PINC to 65562", "whatif TIME3 PINC to 65563", "regs"], LOST[0], EMPTY)
        with self.subTest("whatif of as many cycles as there can be"):
            self.assertEqual(shown[2][-1].split(":")[0].split("-")[-1], "65562")
        with self.subTest("whatif of more, and the session goes on"):
            self.assertTrue(shown[3] == span and shown[4], f"{shown[3:]}")
        full = write(f"{self.room}/full.feed", b"".join(b"%d TIME3 PINC\n" % it for it in range(100, 65636)))
        with self.subTest("whatif beside a feed that is full"):
            self.assertEqual(self.talk(["run 60", "whatif TIME3 PINC"], LOST[0], full)[2], ["there are as many inputs as there can be"])

    def try_display_in_talk(self):
        """The display at the position, forwards and backwards: decimal_digits puts out +07093 in three words, as it tells by hand."""
        shown = self.talk(["until 150", "dsky", "until 186", "display dsky", "back 1", "goto 120", "undisplay", "until 10", "p A BB"], f"{EXAMPLES}/decimal_digits.agc", EMPTY)
        with self.subTest("until some cycles"):
            self.assertEqual((shown[1][0], shown[1][1].split()[2:4], shown[3][:2]), ("148 CH 010 40025", ["cycle", "150:"], ["167 CH 010 37165", "186 CH 010 31773"]))
        for at, wanted in [(2, " 0    "), (4, "+07093"), (5, "+070  ")]:
            with self.subTest(f"the display, {at}"):
                self.assertTrue(any(f" {wanted} |" in it for it in shown[at]), f"{shown[at]}")
        with self.subTest("no display"):
            self.assertEqual(([len(it) for it in shown[6:9]], shown[8][0].split()[2:4]), ([1, 0, 2], ["cycle", "10:"]))
        with self.subTest("a register that regs all alone has"):
            self.assertEqual(shown[9][1], "BB 00000 = 0 = +0.00000 = 000 000 000 000 000")

    def try_saved(self):
        """What is saved makes the same session and the same run again."""
        kept = f"{self.room}/my.session"
        shown = self.talk(["run 70", "add 200 TIME3 PINC", "add 150 CHAN 33 7", "run 90", "back 3", f"save {kept}", "regs"], *LOST)
        debug, run = shown[6]
        with self.subTest("how to make it again"):
            self.assertTrue(debug.startswith("agcws debug ") and run == f"agcws run {LOST[0]} {kept}.feed 160", f"{shown[6]}")
        with self.subTest("the saved commands"):
            self.assertEqual(text_at(kept), "run 70\nadd 200 TIME3 PINC\nadd 150 CHAN 33 7\nrun 90\nback 3\n")
        with self.subTest("the saved feed"):
            self.assertEqual(text_at(f"{kept}.feed").splitlines()[-3:], ["27 TIME3 PINC", "150 CHAN 33 7", "200 TIME3 PINC"])
        with pipe.Session(*LOST) as session:
            replies = [line for command in text_at(kept).splitlines() for line in session.ask(command)]
            with self.subTest("the saved session"):
                self.assertEqual((replies[-1].split()[1], session.ask("regs")), ("157", shown[7]))
            lines = pipe.answer(*run.split()[1:])[0].splitlines()
            with self.subTest("the saved run"):
                self.assertEqual(lines, [it for it in replies if pipe.output_of(it)])

    def test_saved_names(self):
        """Names are told as a shell takes them, and taken as one does: what is told makes the session again."""
        os.mkdir(place := f"{self.room}/a place")
        source, feed = write(f"{place}/it's.agc", text_at(LOST[0]).encode()), write(f"{place}/$my.feed", text_at(LOST[1]).encode())
        named = ["my session", '"x"', "'two words'", "quote\\'s", '""', '"x', '"x" "y"', "$(made)"]
        shown = self.talk(["run 60", *(f"save {it}" for it in named)], os.path.basename(source), os.path.basename(feed), cwd=place)
        with self.subTest("names that are refused"):
            self.assertEqual(shown[6:9], [["save takes a file"], ["No closing quotation"], ["a name with quotes is one word"]])
        files = ["my session", "x", "two words", "quote's", "$(made)"]
        with self.subTest("the files"):
            self.assertEqual(sorted(os.listdir(place)), sorted(["it's.agc", "$my.feed", *files, *(f"{it}.feed" for it in files)]))
        for told_commands in [*shown[2:6], shown[9]]:
            for command in told_commands:
                ran = subprocess.run(["sh", "-c", command.replace("agcws", pipe.program(), 1)], capture_output=True, text=True, timeout=120, check=False, cwd=place)
                with self.subTest(command):
                    self.assertTrue((ran.returncode, ran.stderr) == (0, "") and "87 CH 012 00075\n" in ran.stdout, f"{ran}")

    def try_reload(self):
        """After an edit the same moves are made over the new source; one that is refused changes nothing."""
        source = write(f"{self.room}/edited.agc", b" SETLOC 4000\n CAF X\n EXTEND\n WRITE 10\nX OCT 5\n")
        with talking(source, EMPTY) as ran:
            until(ran, "4 02,4002", "step 2")
            write(source, b" SETLOC 4000\n CAF X\n EXTEND\n FROB 10\nX OCT 5\n")
            with self.subTest("a refused source at reload"):
                self.assertIn("agcws: E15 LINE 4\n", until(ran, "stays", "reload"))
            write(source, b"\n SETLOC 4000\n CAF X\n EXTEND\n WRITE 11\nX OCT 6\n")
            with self.subTest("a reload"):
                self.assertTrue(until(ran, ">", "reload")[-1].startswith(">     5 02,4002 01011"))
            with self.subTest("the new source runs"):
                self.assertIn("5 CH 011 00006\n", until(ran, ">", "step"))
            ran.stdin.close()

    def test_held(self):
        """What is saved to source and feed during a session is no part of it before it is loaded again; at its end, however that comes, no copy is left."""
        os.mkdir(copies := f"{self.room}/copies")
        for sign in (None, signal.SIGTERM, signal.SIGHUP):
            source, feed = write(f"{self.room}/held.agc", text_at(LOST[0]).encode()), write(f"{self.room}/held.feed", text_at(LOST[1]).encode())
            with talking(source, feed, env={**os.environ, "TMPDIR": copies}) as ran:
                until(ran, ">    30 02,4111", "run 10")
                write(source, re.sub(r"(?m)^(TABLE +DEC +)10", r"\g<1>11", text_at(source)).encode())
                write(feed, b"0 TIME9 PINC\n")
                with self.subTest("steps are the session's"):
                    self.assertIn("step 43, cycle 80: TS SUM  SUM=00075\n", until(ran, ">", "run 33"))
                with self.subTest("and its words"):
                    self.assertTrue(until(ran, "MEM", "mem SUM")[-1].startswith("MEM 00075 "))
                with self.subTest("and what an input changes"):
                    self.assertEqual(until(ran, "cycle ", "whatif TIME3 PINC")[-1], "cycle 80: the same\n")
                with self.subTest("a refused feed at reload"):
                    self.assertIn("agcws: E30 LINE 1\n", until(ran, "stays", "reload"))
                write(feed, text_at(LOST[1]).encode())
                with self.subTest("then the new source is the session's"):
                    self.assertIn("step 43, cycle 80: TS SUM  SUM=00076\n", until(ran, ">", "reload"))
                with self.subTest("there are copies"):
                    self.assertTrue(os.listdir(copies))
                ran.send_signal(sign) if sign else ran.stdin.close()
                with self.subTest("the end"):
                    self.assertEqual(ran.wait(MOST_SECONDS), 128 + sign if sign else 0)
            with self.subTest("no copy is left"):
                self.assertEqual(os.listdir(copies), [])

    def test_unstopped(self):
        """From a pipe a move that nothing stops ends after the most steps and says so; one with a number makes that many, and one that stops tells nothing."""
        loop = write(f"{self.room}/unstopped.agc", b" SETLOC 4000\nLOOP TCF LOOP\n")
        shown = self.talk(["c", "c", "c 5", "run", "goto 3", "b LOOP", "c", "c 10000000"], loop, EMPTY)
        said = ["5,000,000 steps without a stop, the most where no terminal can end a move; c goes on, c K makes K steps"]
        with self.subTest("a move that nothing stops"):
            self.assertEqual((shown[1][:1], shown[1][1].split(",")[0]), (said, "step 5000000"))
        with self.subTest("the session goes on"):
            self.assertEqual((shown[2][:1], shown[2][1].split(",")[0]), (said, "step 10000000"))
        with self.subTest("a move with a number"):
            self.assertEqual(shown[3][0].split(",")[0], "step 10000005")
        with self.subTest("new steps that nothing stops"):
            self.assertEqual((shown[4][:1], shown[4][1].split(",")[0]), (said, "step 15000005"))
        with self.subTest("a move that a breakpoint stops"):
            self.assertEqual([it[0] for it in shown[7:]], 2 * ["breakpoint 1: at 02,4000"])

    def try_ctrl_c(self):
        """At a terminal: Ctrl-C ends a move and keeps the session, and drops a line; names are completed; colour, and none where that is asked for."""
        loop = write(f"{self.room}/loop.agc", b" SETLOC 4000\n CAF FIVE\n EXTEND\n WRITE 10\nLOOP TCF LOOP\nFIVE OCT 5\n")
        at = Terminal(f"{VIEWS}/talk", loop, EMPTY)
        shown = at.type(b"c\n", b"CH 010")
        with self.subTest("a channel line of a long move"):
            self.assertTrue(b"5 CH 010 00005" in shown and b"\x1b[1m>" in shown, f"{shown!r}")
        shown = at.type(CTRL_C, b"TCF     LOOP")
        with self.subTest("Ctrl-C ends a move"):
            self.assertTrue(b"stopped" in shown and re.search(rb"step \d+, cycle \d+: TCF LOOP", shown), f"{shown!r}")
        shown = at.type(b"goto 4\n", b"TCF     LOOP")
        with self.subTest("the session is kept"):
            self.assertIn(b"step 4, cycle 6: TCF LOOP", shown, f"{shown!r}")
        # (a Ctrl-C while readline takes a key would wait for the next one)
        at.type(b"qui", b"qui")
        time.sleep(0.5)
        with self.subTest("Ctrl-C drops a line"):
            self.assertIn(b"(4) ", at.type(CTRL_C, b"(4) "))
        if importlib.util.find_spec("readline"):
            with self.subTest("completion"):
                self.assertTrue(b"mem FIVE" in at.type(b"mem FI\t", b"FIVE") and b"MEM 00005" in at.type(b"\n", b"MEM 00005"))
        else:
            print("completion: skipped, since Python has no readline")
        at.type(b"quit\n")
        with self.subTest("the end at a terminal"):
            self.assertEqual(at.end(), 0)
        at = Terminal("/usr/bin/env", "NO_COLOR=1", f"{VIEWS}/talk", loop, EMPTY)
        shown = at.type(b"step\n", b"(1) ")
        with self.subTest("no colour"):
            self.assertTrue(b"EXTEND" in shown and b"\x1b[1m" not in shown, f"{shown!r}")
        at.type(b"\x04")
        with self.subTest("Ctrl-D ends talk"):
            self.assertEqual(at.end(), 0)
        rope = f"{self.room}/talked.rope"
        pipe.answer("asm", loop, rope)
        shown = self.talk(["step 3", "list"], "--image", rope, EMPTY)
        with self.subTest("an image"):
            self.assertEqual((shown[1][-1], len(shown[2])), (">       02,4003 14003  TCF 4003", 11))

    def test_chain(self):
        drawn = text_of("docs/pictures/lost_sum.svg")
        with self.subTest("the picture of a chain"):
            self.assertEqual(call("chain", *LOST, "60", "SUM", "--mark", "20"), (0, drawn, ""))
        # (by the manual: the steps 43 and 42, which read SUM's A, and TABLE)
        status, out, err = call("chain", *LOST, "60", "SUM", "--most", "2")
        with self.subTest("a chain of two steps"):
            self.assertEqual((status, re.findall(r'class="step"[^>]*>(\d+)<', out), err), (0, ["42", "43"], ""))
        with self.subTest("the words of a chain"):
            self.assertEqual(re.findall(r'class="(word|never)"[^>]*>(\d+)<', out), [("never", "000063"), ("never", "00012"), ("word", "000075"), ("word", "00075")])
        with self.subTest("a chain of no steps"):
            self.assertEqual(call("chain", *LOST, "0", "SUM"), (1, "", "why SUM: START SUM 00000\n"))
        with self.subTest("a chain of no place"):
            self.assertEqual(call("chain", *LOST, "4", "SUMM")[0], 1)
        with self.subTest("a mark at no step of a chain"):
            self.assertEqual(call("chain", *LOST, "60", "SUM", "--most", "2", "--mark", "20"), (2, "", "step 20 is none of the chain: --mark takes one of 42, 43\n"))

    def test_wave(self):
        status, out, err = call("wave", *LOST, "60")
        dump = Dump(self, out)
        with self.subTest("a dump"):
            self.assertEqual((status, err, dump.times[0], dump.times[-1]), (0, "", 0, 100))
        # (the manual shows these steps in section 7)
        for name, wanted in [
            (("interrupts", "T3RUPT"), [(0, 0), (30, 1), (39, 0)]),
            (("cells", "TICKS"), [(0, 0), (37, 1)]),
            (("cells", "TIME3"), [(0, 0), (5, 0o37777), (28, 0)]),
            (("channels", "CH012"), [(0, 0), (87, 0o75)]),
        ]:
            with self.subTest(f"changes of {name[1]}"):
                self.assertEqual(dump.changes[name], wanted)
        with self.subTest("when an input is taken"):
            self.assertEqual([(cycles, text[:10]) for cycles, text in dump.changes["steps", "input"]], [(0, "-"), (27, "TIME3_PINC")])
        with self.subTest("the wrong word in SUM"):
            self.assertIn((41, 1), dump.changes["cells", "SUM"], f"{dump.changes['cells', 'SUM']}")
        with self.subTest("what is executed"):
            self.assertTrue({(30, "T3RUPT"), (33, "CA_ONE"), (39, "TS_SUM")} <= set(dump.changes["steps", "text"]))
        with self.subTest("where"):
            self.assertTrue({(30, 0o4014), (35, 0o4015), (41, 0o4111)} <= set(dump.changes["steps", "address"]))
        for source, feed, steps in runs():
            self.try_ends(source, feed, min(steps, 300), min(steps, 20))
        self.try_dumps()

    def try_ends(self, source, feed, steps, first):
        """Each signal begins and ends with what a session tells of the step before the first and of the last."""
        dump = Dump(self, call("wave", source, feed, str(steps), "--from", str(first))[1])
        wrong = []
        with pipe.Session(source, feed) as session:
            session.ask(f"step {steps}")
            for step, at in ((first - 1, 0), (steps, -1)):
                cycles = int(session.ask(f"goto {step}")[-1].split()[2])
                words = session.ask("regs")[0].split()
                registers = dict(zip(words[::2], words[1::2]))
                for (group, name), changes in dump.changes.items():
                    if group in ASKED:
                        word = registers[name] if name in ("A", "Q") else session.ask(ASKED[group](name))[0].split()[1]
                        wrong += [f"{name} after step {step}: {changes[at][1]:o}, not {word}"] if changes[at][1] != int(word, 8) else []
                wrong += [f"{dump.times[at]} cycles after step {step}, not {cycles}"] if dump.times[at] != cycles else []
        with self.subTest(f"the dump of {source} from step {first} on"):
            self.assertFalse(wrong, "; ".join(wrong))

    def try_dumps(self):
        """A symbol that looks like a channel, a dump in a file, one of an image, one of no steps."""
        source = write(f"{self.room}/alike.agc", b" SETLOC 100\nCH010 ERASE\n SETLOC 4000\n CAF FIVE\n TS CH010\nFIVE OCT 5\n")
        dump = Dump(self, call("wave", source, EMPTY, "2")[1])
        with self.subTest("a symbol that looks like a channel"):
            self.assertEqual(dump.changes["cells", "CH010"], [(0, 0), (4, 5)])
        rope, file = f"{self.room}/waved.rope", f"{self.room}/waved.vcd"
        pipe.answer("asm", source, rope)
        with self.subTest("a dump in a file"):
            self.assertEqual(call("wave", "--image", rope, EMPTY, "2", "--out", file), (0, "", ""))
        with open(file, encoding="ascii") as text:
            with self.subTest("a dump of an image"):
                self.assertEqual(Dump(self, text.read()).changes["cells", "E0,0100"], [(0, 0), (4, 5)])
        with self.subTest("a dump of no steps"):
            self.assertEqual(Dump(self, call("wave", source, EMPTY, "0")[1]).changes["steps", "address"], [(0, 0o4000)])
        many = "".join(f" TS {it:o}\n" for it in range(0o100, 0o400))
        source = write(f"{self.room}/many.agc", f" SETLOC 4000\n{many}".encode())
        dump = Dump(self, call("wave", source, EMPTY, "192")[1])
        with self.subTest("many signals"):
            self.assertEqual(sorted(name for group, name in dump.changes if group == "cells"), [f"E0,{it:04o}" for it in range(0o100, 0o400)])

    def test_bridge(self):
        """Displays at the bridge, and the run made again from what was recorded, to the same bytes."""
        source, base, kept = write(f"{self.room}/hears.agc", HEARS), write(f"{self.room}/hears.feed", b"# switches\n0 CHAN 32 37777\nEVERY 0 1 1 10 TIME1 PINC\n999999999 RUPT 1\n"), f"{self.room}/heard.feed"
        asked = [f"{VIEWS}/bridge", source, base, "--record", kept, "--port", "0"]
        with subprocess.Popen(asked, stdout=subprocess.PIPE, stderr=subprocess.PIPE, text=True) as ran:
            port = int(re.search(r"port (\d+)", ran.stderr.readline())[1])
            first = Display(self, port)
            first.until(0o14, 0o37777)
            first.send(0o15, 0o11)
            got = [it for it in first.until(0o163, 0o10) if it[0] in (0o10, 0o11, 0o163)]
            with self.subTest("a key, and the lamp TEMP"):
                self.assertEqual(got, [(0o10, 0o11), (0o11, 0o11), (0o163, 0o10)])
            # PRO: a bit of channel 032 alone, which is 0 while the key is held
            first.send(0o32, 0o20000, mask="u")
            first.send(0o32, 0)
            first.until(0o14, 0o17777)
            first.send(0o32, 0o20000)
            first.send(0o173, 0o12345)
            first.until(0o13, 0o12345)
            second = Display(self, port)
            second.send(0o32, 0o1, mask="u")
            second.connection.sendall(b"\xff\x00")
            second.send(0o32, 0)
            second.until(0o14, 0o37776)
            second.send(0o32 | 0o200, 1)
            second.send(0o32 | 0o200, 1)
            second.send(0o15, 0o4000)
            second.until(0o10, 0o4000)
            second.send(0o26 | 0o200, 1)
            second.connection.close()
            # (11 and 4000 are words of two rows of relays, 0 and 1)
            third = Display(self, port)
            third.send(0o15, 0o4001)
            got = third.until(0o10, 0o4001)
            with self.subTest("what a new client gets"):
                self.assertTrue({(0o10, 0o11), (0o10, 0o4000), (0o14, 0o37776), (0o13, 0o12345)} <= {*got}, f"{got}")
            ran.send_signal(signal.SIGINT)
            lines, said = ran.communicate(timeout=300)
        with self.subTest("the end of a bridge"):
            self.assertEqual(ran.returncode, 0)
        with self.subTest("a pulse that no counter takes"):
            self.assertTrue("not taken: " in said and "TIME3 PCDU: E33 COUNTER" in said, said)
        run = re.search(r"bridge: agcws (run .*)\n", said)[1].split()
        with self.subTest("the recorded run"):
            self.assertEqual(pipe.answer(*run)[0], lines)
        inputs = text_at(kept).splitlines()
        with self.subTest("the recorded feed"):
            self.assertEqual(([it.split(" ", 1)[1] for it in inputs[3:-1] if "INLINK" not in it], inputs[:3], inputs[-1]), (
            ["CHAN 015 00011", "CHAN 032 17777", "CHAN 032 37777", "CHAN 032 37776", "CDUX PCDU", "CDUX PCDU", "CHAN 015 04000", "CHAN 015 04001"],
            ["# switches", "0 CHAN 32 37777", "EVERY 0 1 1 10 TIME1 PINC"],
            "999999999 RUPT 1",
        ))
        with self.subTest("a word of the uplink, from its first bit on"):
            self.assertEqual("".join("1" if it.endswith("SHANC") else "0" for it in inputs if "INLINK" in it), "1001010011100101")

    def test_bridge_parts(self):
        """Masks of bits that are not taken yet, series that leave cycles free, and a session that is made anew."""
        loader = importlib.machinery.SourceFileLoader("bridge", f"{VIEWS}/bridge")
        bridge = importlib.util.module_from_spec(importlib.util.spec_from_loader("bridge", loader))
        loader.exec_module(bridge)
        # 3 0 7 is the cycles 0, 3, 6 ..; 5 2 9 the cycles 9, 11, 14, 16 ..; num below den has some cycles twice
        recording = bridge.Recording("EVERY 0 3 1 7 RUPT 1\nEVERY 9 5 2 4 RUPT 2 # two\n\n20 RUPT 3\nEVERY 30 1 2 4 RUPT 4\n")
        with self.subTest("cycles that are free"):
            self.assertEqual([recording.free(it) for it in (0, 3, 9, 10, 14, 15, 18, 19, 30, 31, 32)], [1, 4, 10, 10, 17, 17, 19, 19, 32, 32, 32])
        recording.added = [(10, "RUPT 5"), (20, "RUPT 6"), (21, "RUPT 7"), (21, "RUPT 8")]
        with self.subTest("a feed with more"):
            self.assertEqual(recording.text().splitlines()[2:], ["", "10 RUPT 5", "20 RUPT 3", "EVERY 30 1 2 4 RUPT 4", "20 RUPT 6", "21 RUPT 7", "21 RUPT 8"])
        with self.subTest("packets"):
            self.assertEqual(bridge.packets_of(b"\x01\x01\x68\x80\xd1\x21\x50\xa0\xc0\x0e"), ([(False, 0o15, 0o21), (True, 0o12, 0o4000)], b"\x0e"))
        with self.subTest("a packet"):
            self.assertEqual(bridge.packet_of(0o10, 0o55274), b"\x01\x45\xaa\xfc")
        # A second is 85,333 cycles; KEY REL and OPR ERR go out, and the digits, for 0.32 s of 1.28
        with self.subTest("lamps that flash"):
            self.assertEqual([bridge.lamps_of(0o160, it) for it in (0, 27306, 27307, 109226, 109227)], [0o40, 0o40, 0o120, 0o120, 0o40])
        source, kept = write(f"{self.room}/hears.agc", HEARS), f"{self.room}/renewed.feed"
        machine = bridge.Machine([source], EMPTY)
        machine.set(0o32, 0o7, 0o5)
        machine.set(0o32, 0o10, 0o10)
        lines = machine.until(3000)
        machine.set(0o32, 0o1, 0)
        write(kept, machine.recording.text().encode())
        machine.renew(kept)
        lines += machine.until(6000)
        machine.session.end()
        with self.subTest("masks"):
            self.assertEqual([f"{it.channel:o} {it.word:o}" for it in lines if it.channel == 0o14], ["14 15", "14 14"])
        run = pipe.answer("run", source, kept, str(machine.steps))[0].splitlines()
        with self.subTest("a session made anew"):
            self.assertEqual([pipe.output_of(it) for it in run], lines)

    def test_operators(self):
        """The editors know the operators of the manual, and the program knows them."""
        grammar = grammar_in(self.room)
        rules = {it["name"].split(".")[2]: re.search(r"\(\?:(.*?)\)", it["match"]) for it in grammar.grammar["repository"]["operator"]["patterns"]}
        named = {group: rules[group][1].split("|") for group in GROUPS}
        operators = [it for group in GROUPS for it in named[group]]
        with self.subTest("the operators of the grammar"):
            self.assertEqual(sorted(operators), sorted(operators_of_manual()))
        ran = subprocess.run([f"{EDITORS}/make", "--check"], capture_output=True, text=True, check=False)
        with self.subTest("the page has a sentence of each instruction"):
            self.assertEqual((ran.returncode, ran.stdout, ran.stderr), (0, "", ""))
        for it in [*operators, "FROB"]:
            source = write(f"{self.room}/operator.agc", f" {it}\n".encode())
            with self.subTest(f"{it} is {'none' if it == 'FROB' else 'an operator'} of the program"):
                self.assertEqual("E15" in str(refusal(lambda: pipe.listing_of(source))), it == "FROB")
        for it in {*named["instruction"], *named["extracode"]} - {"INDEX", "NDX"}:
            forms = [write(f"{self.room}/extended{i}.agc", f" EXTEND\n {it}{operand}\n".encode()) for i, operand in enumerate(["", " 10"])]
            refused = any("E24" in str(refusal(lambda source=source: pipe.listing_of(source))) for source in forms)
            with self.subTest(f"{it} stands in the right group"):
                self.assertEqual(refused, it in named["instruction"])

    def test_grammar(self):
        """What the grammar says of lines, of each example that assembles, and of one that does not."""
        grammar = grammar_in(self.room)
        for line, wanted in [
            ("X       EQUALS  100     # a label", [("label", "X"), ("directive", "EQUALS"), ("agc", "100"), ("number-sign", "# a label")]),
            (" CA X +1#c", [("instruction", "CA"), ("symbol", "X"), ("agc", "+1"), ("number-sign", "#c")]),
            ("RELINT", [("label", "RELINT")]),
            ("CA FIVE", [("label", "CA"), ("operator", "FIVE")]),
            (" DEC -.5", [("constant", "DEC"), ("agc", "-.5")]),
            ("\tMP 15D", [("extracode", "MP"), ("agc", "15D")]),
            (" CA CA", [("instruction", "CA"), ("symbol", "CA")]),
            (" EBANK= X", [("directive", "EBANK="), ("symbol", "X")]),
            (" 2CADR X+1", [("constant", "2CADR"), ("symbol", "X+1")]),
            ("# CA 5", [("number-sign", "# CA 5")]),
            ("", []),
        ]:
            with self.subTest(f"scopes of {line!r}"):
                self.assertEqual(list(grammar.scopes(line)), wanted)
        for name in sorted(with_ending(".agc")):
            for line in text_of(f"examples/{name}.agc").splitlines():
                label, others = fields_of(line)
                scopes = list(grammar.scopes(line))
                right = [it for it in scopes if it[0] in GROUPS]
                well = [it[1] for it in right] == others[:1] and ("label", label) in scopes + [("label", "")] and "operator" not in dict(scopes)
                if not well:
                    with self.subTest(f"scopes of {line!r} in {name}"):
                        self.fail(f"{scopes}")
        with self.subTest("scopes of the examples"):
            self.assertTrue(True)

    def test_package(self):
        """The package's files are there, and its matcher reads the lines that tell faults."""
        folder = f"{EDITORS}/vscode"
        package = json.loads(text_at(f"{folder}/package.json"))["contributes"]
        [language], [grammar], [matcher], [debugger] = (package[it] for it in ("languages", "grammars", "problemMatchers", "debuggers"))
        adapters = [f"{VIEWS}/dap", os.path.normpath(f"{folder}/{debugger['program']}")]
        answers = [subprocess.run([it], input=INITIALIZE, capture_output=True, timeout=300).stdout for it in adapters]
        with self.subTest("the package's debugger"):
            self.assertEqual((debugger["languages"], answers[1]), ([language["id"]], answers[0]))
        with self.subTest("the package's debugger answers"):
            self.assertIn(b'"initialize"', answers[1])
        properties = debugger["configurationAttributes"]["launch"]["properties"]
        with self.subTest("what its launch takes"):
            self.assertTrue(all(re.search(rf"^  {it}  ", text_at(f"{VIEWS}/dap"), re.M) or f'"{it}"' in text_at(f"{VIEWS}/dap") for it in properties))
        with self.subTest("the package's scope"):
            self.assertEqual((grammar["language"], grammar["scopeName"]), (language["id"], grammar_in(self.room).grammar["scopeName"]))
        with self.subTest("the package's comments"):
            self.assertEqual(json.loads(text_at(f"{folder}/{language['configuration']}"))["comments"], {"lineComment": "#"})
        pattern = matcher["pattern"]
        for line, wanted in [
            ("my.agc:2:17: error E17: no line defines FIV", ("my.agc", "2", "17", "error", "E17", "no line defines FIV")),
            ("a b/my.agc:12:1: warning W1: a label: CA", ("a b/my.agc", "12", "1", "warning", "W1", "a label: CA")),
            ("    2 | START   CA      FIV", None),
            ("3 errors, 1 warning", None),
        ]:
            found = re.match(pattern["regexp"], line)
            with self.subTest(f"the matcher of {line!r}"):
                self.assertEqual(found and tuple(found[pattern[it]] for it in ("file", "line", "column", "severity", "code", "message")), wanted)

    def test_faults(self):
        """What `agcws check` tells of a source leads to its places by the package's matcher, and no other line of it does."""
        pattern = json.loads(text_at(f"{EDITORS}/vscode/package.json"))["contributes"]["problemMatchers"][0]["pattern"]
        source = write(f"{self.room}/two faults.agc", b" FROB 1\n SETLOC 4000\n TC X\n")
        found = [re.match(pattern["regexp"], it) for it in pipe.faults_of(source)]
        with self.subTest("the places of faults"):
            self.assertEqual([tuple(it[pattern[part]] for part in ("file", "line", "column", "code")) for it in found if it], [(source, "1", "2", "E15"), (source, "3", "5", "E17")])
        with self.subTest("faults of a source that has none"):
            self.assertEqual(pipe.faults_of(LOST[0]), [])

    def test_readme(self):
        """What README.md shows, and that it names each view."""
        os.symlink(PROGRAM, f"{self.room}/agcws")
        for name in ("examples", "views"):
            os.symlink(f"{ROOT}/{name}", f"{self.room}/{name}")
        Document(self, "views/README.md").check()
        text = text_of("views/README.md")
        for target in re.findall(r"\]\(([^)#]+)\)", text):
            with self.subTest(f"views/README.md links to {target}"):
                self.assertTrue(os.path.exists(f"{VIEWS}/{target}"))
        for name in sorted(it for it in os.listdir(VIEWS) if it not in ("README.md", "web_check.py", "__pycache__") and not it.startswith("check")):
            with self.subTest(f"views/README.md names {name}"):
                self.assertTrue(f"]({name}" in text or f"](#{name}" in text)


if __name__ == "__main__":
    unittest.main()
