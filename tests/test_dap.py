"""Tests of the debug adapter by a client of its own, by hostile ones, and by Emacs."""
import base64
import json
import os
import queue
import re
import shutil
import signal
import subprocess
import threading
import time
import unittest

from common import EMPTY, EXAMPLES, VIEWS, read, write
import pipe
from viewing import ViewCase, init_of

LOST = {"program": f"{EXAMPLES}/lost_sum.agc", "feed": f"{EXAMPLES}/lost_sum.feed"}
PRODUCT = {"program": f"{EXAMPLES}/double_product.agc", "feed": EMPTY}
# The most seconds that an answer is waited for, and that a process has to end.
MOST_SECONDS = 60
# A loop without an end that puts out nothing, and one that puts out much.
LOOP = b" SETLOC 4000\n CAF FIVE\n EXTEND\n WRITE 10\nLOOP TCF LOOP\nFIVE OCT 5\n"
FLOOD = b" SETLOC 4000\nL CA ONE\n EXTEND\n WRITE 12\n AD ONE\n EXTEND\n WRITE 12\n TCF L\nONE OCT 1\n"


def framed(message):
    text = message if isinstance(message, bytes) else json.dumps(message).encode()
    return b"Content-Length: %d\r\n\r\n%s" % (len(text), text)


def children_of(number):
    """The processes that a process has started."""
    try:
        with open(f"/proc/{number}/task/{number}/children", encoding="ascii") as file:
            return [int(it) for it in file.read().split()]
    except OSError:
        return []


def is_there(number):
    """Whether a process is there, and has not ended."""
    try:
        with open(f"/proc/{number}/stat", encoding="utf-8", errors="replace") as file:
            return file.read().rpartition(")")[2].split()[0] not in "ZX"
    except OSError:
        return False


def are_gone(numbers, most_seconds=5):
    """Whether processes end within some seconds."""
    last = time.monotonic() + most_seconds
    while (left := [it for it in numbers if is_there(it)]) and time.monotonic() < last:
        time.sleep(0.02)
    return not left


class Client:
    """An editor that speaks the Debug Adapter Protocol."""

    def __init__(self, test, **asked):
        self.test = test
        self.ran = subprocess.Popen([f"{VIEWS}/dap"], stdin=subprocess.PIPE, stdout=subprocess.PIPE, stderr=subprocess.PIPE)
        self.number, self.events, self.asked, self.got = 0, [], asked, queue.Queue()
        threading.Thread(target=self.read, daemon=True).start()

    def read(self):
        try:
            while (head := self.ran.stdout.readline()) and self.ran.stdout.readline() == b"\r\n":
                self.got.put(json.loads(self.ran.stdout.read(int(head.split(b":")[1]))))
        except ValueError:
            pass
        self.got.put(None)

    def message(self):
        """The next message, or None at the end. Raises queue.Empty where none comes."""
        return self.got.get(timeout=MOST_SECONDS)

    def raw(self, data):
        try:
            self.ran.stdin.write(data)
            self.ran.stdin.flush()
        except BrokenPipeError:
            pass

    def send(self, command, **arguments):
        self.number += 1
        self.raw(framed({"seq": self.number, "type": "request", "command": command, "arguments": arguments}))
        return self.number

    def answer(self, number):
        """The response to a request. Events that come before it are kept."""
        while message := self.message():
            if message["type"] == "response" and message["request_seq"] == number:
                return message
            self.events.append(message)
        return None

    def ask(self, command, **arguments):
        """The body of the response to a request, or the words of its refusal."""
        answer = self.answer(self.send(command, **arguments))
        return answer and (answer["body"] if answer["success"] else answer["message"])

    def until(self, name):
        """The body of the next event of a name, or None at the end. Others are kept."""
        while True:
            for i, it in enumerate(self.events):
                if it.get("event") == name:
                    return self.events.pop(i).get("body", {})
            message = self.message()
            if not message:
                return None
            self.events.append(message)

    def outputs(self):
        """The texts that were put out and not yet looked at."""
        kept, self.events = self.events, [it for it in self.events if it.get("event") != "output"]
        return [it["body"]["output"] for it in kept if it.get("event") == "output"]

    def go(self, command, **arguments):
        """A move: why it has ended, and the line and the name of what comes next."""
        answer = self.ask(command, threadId=1, **arguments)
        return answer if isinstance(answer, str) else self.stop()

    def stop(self):
        self.stopped = self.until("stopped")
        frame = self.frames()[0]
        return self.stopped["reason"], *frame

    def frames(self):
        """The line and the name of each frame."""
        return [(it["line"], it["name"]) for it in self.ask("stackTrace", threadId=1)["stackFrames"]]

    def step(self):
        """The step at which the session stands."""
        return int(self.words(1)["STEP"])

    def launch(self, lines=(), **arguments):
        """Launches a program with breakpoints on lines of it."""
        with self.test.subTest("what an adapter can do"):
            self.test.assertTrue(self.ask("initialize", adapterID="agcws", **self.asked)["supportsStepBack"])
        answer = self.ask("launch", **arguments)
        if isinstance(answer, str):
            return answer
        self.until("initialized")
        verified = self.breaks(*lines, program=arguments["program"])
        self.ask("configurationDone")
        return [it.get("line") for it in verified]

    def breaks(self, *wanted, program=LOST["program"]):
        """Sets breakpoints, each a line, or a line with more."""
        asked = [it if isinstance(it, dict) else {"line": it} for it in wanted]
        return self.ask("setBreakpoints", source={"path": program}, breakpoints=asked)["breakpoints"]

    def watch(self, *wanted):
        """Sets data breakpoints, each a place, or a place with more."""
        asked = [it if isinstance(it, dict) else {"dataId": it} for it in wanted]
        return [it["verified"] or it["message"] for it in self.ask("setDataBreakpoints", breakpoints=asked)["breakpoints"]]

    def words(self, reference):
        """Variables and the words that they are."""
        return {it["name"]: it["value"].split(" ")[0] for it in self.ask("variables", variablesReference=reference)["variables"]}

    def evaluate(self, text, context="repl"):
        answer = self.ask("evaluate", expression=text, context=context)
        return answer if isinstance(answer, str) else answer["result"]

    def goto(self, step):
        begin = self.step()
        if self.evaluate(f"goto {step}") == "E41 NOT YET":
            self.evaluate(f"step {step - begin}")
        return self.stop() if begin != step else None

    def end(self):
        left = children_of(self.ran.pid)
        answer = self.ask("disconnect")
        self.ran.stdin.close()
        with self.test.subTest("the end of an adapter"):
            self.test.assertEqual((answer, self.ran.wait(MOST_SECONDS), self.got.get(timeout=MOST_SECONDS), self.ran.stderr.read()), ({}, 0, None, b""))
        with self.test.subTest("no process is left"):
            self.test.assertTrue(are_gone(left), f"{left}")
        self.close()

    def close(self):
        """Ends an adapter that may have ended."""
        self.ran.kill()
        self.ran.wait()
        for it in (self.ran.stdin, self.ran.stderr):
            try:
                it.close()
            except BrokenPipeError:
                pass


def begun(test, lines=(), **more):
    """A client of a session that stands before its first step."""
    client = Client(test)
    client.launch(lines, **{**LOST, **more})
    client.until("stopped")
    return client


# The word in 100 is 1 after the steps 2 and 3 alone.
BLINKS = b" SETLOC 4000\n CA ONE\n TS 100\n CA ZERO\n TS 100\nL TCF L\nONE OCT 1\nZERO OCT 0\n"
# A routine that puts out a word before and after NOOP.
TELLS = b""" SETLOC 4000
 TC SUB
DONE TCF DONE
SUB CAF FIVE
 EXTEND
 WRITE 10
 NOOP
 EXTEND
 WRITE 11
 RETURN
FIVE OCT 5
"""
APT = "apt-get install emacs-nox elpa-dap-mode"


class Dap(ViewCase):
    """The debug adapter, by a client and by dap-mode."""

    def test_search(self):
        """The search of section 7 of the manual by an editor: the interrupt's first word takes A for itself."""
        client = Client(self)
        with self.subTest("breakpoints on lines"):
            self.assertEqual(client.launch([16, 20, 99], **LOST), [16, 21, None])
        with self.subTest("the entry"):
            self.assertEqual(client.stop(), ("entry", 13, "02,4000"))
        with self.subTest("a breakpoint in front"):
            self.assertEqual(client.go("continue"), ("breakpoint", 21, "START"))
        client.breaks(34, 35)
        with self.subTest("on to the next"):
            self.assertEqual(client.go("continue")[:2], ("breakpoint", 34))
        with self.subTest("on to the end"):
            self.assertEqual(client.go("continue"), ("breakpoint", 35, "DONE"))
        with self.subTest("what is put out"):
            self.assertEqual(client.until("output"), {"category": "stdout", "output": "87 CH 012 00075\n"})
        with self.subTest("symbols"):
            self.assertEqual(client.words(2), {"COUNT": "00000", "SUM": "00075", "TICKS": "00001"})
        with self.subTest("channels"):
            self.assertEqual(client.words(3)["CH012"], "00075")
        with self.subTest("fixed words"):
            self.assertEqual(client.words(4)["SOON"], "37777")
        data = client.ask("dataBreakpointInfo", name="SUM")["dataId"]
        with self.subTest("a watched place"):
            self.assertEqual(client.watch(data), [True])
        client.breaks()
        sums = []
        while len(sums) < 9 and client.go("reverseContinue")[0] == "data breakpoint":
            sums.append(client.words(2)["SUM"])
        with self.subTest("the sum's words, backwards"):
            self.assertEqual(sums, ["00075", "00063", "00037", "00001", "77715"])
        with self.subTest("a command of the console"):
            self.assertEqual(client.evaluate("goto 22"), "AT 22 41 02,4111")
        with self.subTest("where the sum goes wrong"):
            self.assertEqual(client.stop(), ("goto", 30, "LOOP +5"))
        with self.subTest("a step back"):
            self.assertEqual(client.go("stepBack"), ("step", 29, "LOOP +4, which RESUME has brought"))
        with self.subTest("A is wrong already"):
            self.assertEqual((client.words(1)["A"], client.words(2)["SUM"]), ("000001", "77715"))
        client.breaks(16)
        with self.subTest("the interrupt"):
            self.assertEqual(client.go("reverseContinue"), ("breakpoint", 16, "T3RUPT"))
        with self.subTest("A was right"):
            self.assertEqual(client.words(1)["A"], "177765")
        with self.subTest("a step on"):
            self.assertEqual(client.go("next"), ("step", 17, "T3RUPT +1"))
        with self.subTest("the register is clobbered"):
            self.assertEqual(client.words(1)["A"], "000001")
        with self.subTest("an entry that comes next"):
            self.assertEqual(client.goto(17), ("goto", 29, "LOOP +4, after ENTRY T3RUPT"))
        self.try_console(client)
        self.try_why(client)
        client.end()

    def try_console(self, client):
        """The console hands commands to the program, and knows sums."""
        for text, context, wanted in [
            ("mem SUMM", "repl", "E50 COMMAND no symbol SUMM"),
            ("breaks", "repl", "BREAK 1 change E0,0101\nBREAK 2 at 02,4014\nCOUNT 2"),
            ("why TICKS", "repl", "START TICKS 00000"),
            ("p ONE", "repl", "00001 = 1 = +0.00006 = 000 000 000 000 001"),
            ("ONE +7", "watch", "10 = 8"),
            ("SUM < 0 ONE = 2", "watch", "1 = 1; 0 = 0"),
            ("NONE", "hover", "no place NONE"),
            ("9D**9D**9D**9D", "watch", "9D**9D**9D**9D is no expression"),
            ("step 1\nback 1", "repl", "this is to be one line of ASCII, of 1000 bytes at most"),
        ]:
            with self.subTest(f"{text} in the console"):
                self.assertEqual(client.evaluate(text, context), wanted)
        with self.subTest("a request that is not there"):
            self.assertEqual(client.ask("modules"), "modules is not there")
        with self.subTest("words are not set"):
            self.assertTrue(client.ask("setVariable", variablesReference=2, name="SUM", value="7").startswith("words are not set, since"))
        # Breakpoints of the console stand before those of the editor, and stay where one is set there; their numbers are as told
        with self.subTest("a breakpoint of the console"):
            self.assertEqual(client.evaluate("break word SUM 1"), "BREAK 1")
        client.breaks(16, 35)
        with self.subTest("all breakpoints"):
            self.assertEqual(client.evaluate("breaks").splitlines(), ["BREAK 1 word E0,0101 00001", "BREAK 2 change E0,0101", "BREAK 3 at 02,4014", "BREAK 4 at 02,4116", "COUNT 4"])
        client.goto(21)
        with self.subTest("it stops a move"):
            self.assertEqual((client.go("continue"), client.stopped["text"]), (("breakpoint", 30, "LOOP +5"), "breakpoint 1 of the console: word E0,0101 00001"))
        with self.subTest("one that the console clears"):
            self.assertEqual(client.evaluate("clear 3"), "CLEAR 3")
        gone = client.until("breakpoint")
        with self.subTest("and the editor is told"):
            self.assertEqual((gone["reason"], gone["breakpoint"]["verified"], gone["breakpoint"]["message"]), ("changed", False, "the console has cleared it"))
        with self.subTest("its own"):
            self.assertEqual(client.evaluate("clear 1"), "CLEAR 1")
        with self.subTest("what is left"):
            self.assertEqual(client.evaluate("breaks").splitlines(), ["BREAK 1 change E0,0101", "BREAK 2 at 02,4116", "COUNT 2"])
        with self.subTest("a move of the console"):
            self.assertEqual(client.evaluate("over"), "")
        with self.subTest("and its end"):
            self.assertEqual(client.stop(), ("step", 31, "LOOP +6"))

    def try_why(self, client):
        """How a word came about, in the hover and by a request."""
        client.goto(43)
        with self.subTest("a hover"):
            self.assertEqual(client.evaluate("SUM", "hover"), "00075 = 61 = +0.00372 = 000 000 000 111 101\nBY 43 TS SUM : SUM 00075 FROM A 000075")
        with self.subTest("a hover over fixed memory"):
            self.assertEqual(client.evaluate("ONE", "hover"), "00001 = 1 = +0.00006 = 000 000 000 000 001")
        why = client.ask("why", expression="SUM", count=2)
        with self.subTest("why"):
            self.assertEqual(why["steps"], [{"step": 43, "text": "BY 43 TS SUM : SUM 00075 FROM A 000075"}, {"step": 42, "text": "BY 42 AD TABLE +0 : A 000075 FROM A 000063 TABLE 00012"}])
        with self.subTest("why of what is none"):
            self.assertEqual(client.ask("why", expression="SUMM"), "no symbol SUMM")

    def test_stops(self):
        """Where a breakpoint stops, by its line, its condition, the count of its hits, its message; by a label; at a change."""
        client = begun(self)
        for line, steps in [(30, [10, 22, 29, 36, 43]), (29, [9, 17, 28, 35, 42]), (28, [8, 15, 27, 34, 41]), (16, [18])]:
            # (by the manual: at 16 an input comes, at 17 the interrupt, and the word of line 29 waits at 21, where Z leads to line 30)
            client.goto(0)
            client.breaks(line)
            there = [client.go("continue")[1:2] == (line,) and client.step() for _ in steps]
            with self.subTest(f"the steps before line {line}"):
                self.assertEqual(there, steps)
            back = [client.go("reverseContinue")[1:2] == (line,) and client.step() for _ in steps[1:]]
            with self.subTest(f"and back"):
                self.assertEqual(back, steps[-2::-1])
            with self.subTest("and to the start"):
                self.assertEqual(client.go("reverseContinue")[:2], ("entry", 13))
        for asked, steps in [
            ({"condition": "SUM = 1"}, [22]),
            ({"condition": "SUM < 0"}, [10]),
            ({"hitCondition": "3"}, [29]),
            ({"hitCondition": ">= 4"}, [36, 43]),
            ({"hitCondition": "% 2"}, [22, 36]),
            ({"condition": "SUM > 0", "hitCondition": "2"}, [29]),
        ]:
            client.goto(0)
            with self.subTest("a breakpoint with more"):
                self.assertEqual([it["verified"] for it in client.breaks({"line": 30, **asked}, 35)], [True, True])
            there = []
            while client.go("continue")[1] == 30 and len(there) < 9:
                there.append(client.step())
            with self.subTest(f"where {asked} stops"):
                self.assertEqual((there, client.step()), (steps, 47))
            there = []
            while client.go("reverseContinue")[1] == 30 and len(there) < 9:
                there.append(client.step())
            with self.subTest(f"and back, {asked}"):
                self.assertEqual(there, steps[::-1])
            client.goto(0)
            with self.subTest(f"and again, {asked}"):
                self.assertEqual((client.go("continue")[1], client.step()), (30, steps[0]))
            client.go("continue")
            with self.subTest(f"and on, {asked}"):
                self.assertEqual(client.step(), [*steps, 47][1])
        client.goto(0)
        client.outputs()
        client.breaks({"line": 30, "logMessage": "SUM {SUM}, {COUNT +1}, {NONE}"}, 35)
        with self.subTest("a message does not stop"):
            self.assertEqual(client.go("continue")[:2], ("breakpoint", 35))
        wanted = [f"SUM {word}, {count}, no place NONE\n" for word, count in zip("77715 00001 00037 00063 00075".split(), "54321")]
        with self.subTest("messages"):
            self.assertEqual(client.outputs(), [*wanted, "87 CH 012 00075\n"][:5])
        verified = [it["verified"] or it["message"] for it in client.breaks({"line": 30, "condition": "NONE"}, {"line": 30, "condition": "SUM +"}, {"line": 30, "hitCondition": "often"}, 0, 99)]
        none = "no word stands here or below"
        with self.subTest("what is wrong with some"):
            self.assertEqual(verified, ["no place NONE", "SUM + is no expression", "often is no count of hits: it is as 3, >= 3 or % 3", none, none])
        [other] = client.breaks(16, program=PRODUCT["program"])
        with self.subTest("another source"):
            self.assertEqual((other["verified"], other["message"]), (False, "this is not the source that runs"))
        with self.subTest("by a URI"):
            self.assertEqual([it["verified"] for it in client.breaks(16, program=f"file://{LOST['program']}")], [True])
        client.breaks()
        found = client.ask("setFunctionBreakpoints", breakpoints=[{"name": "DONE"}, {"name": "LOOP +4", "condition": "SUM > 0"}, {"name": "NOPE"}])["breakpoints"]
        with self.subTest("by labels"):
            self.assertEqual([it.get("line", it.get("message")) for it in found], [35, 29, "no symbol NOPE"])
        client.goto(0)
        with self.subTest("the first"):
            self.assertEqual((client.go("continue"), client.step(), client.stopped["hitBreakpointIds"]), (("function breakpoint", 29, "LOOP +4"), 28, [found[1]["id"]]))
        client.ask("setFunctionBreakpoints", breakpoints=[])
        lines = client.ask("breakpointLocations", source={"path": LOST["program"]}, line=11, endLine=20)["breakpoints"]
        with self.subTest("lines with words"):
            self.assertEqual([it["line"] for it in lines], [13, 16, 17, 18])
        full = client.breaks(*range(13, 45))
        with self.subTest("as many as there can be"):
            self.assertEqual((len({it["line"] for it in full if it["verified"]}), full[-1]["message"]), (16, "there are as many breakpoints as there can be: 16"))
        with self.subTest("no more at once"):
            self.assertTrue(client.ask("setBreakpoints", source={"path": LOST["program"]}, breakpoints=[{"line": 1}] * 1001).startswith("1000 breakpoints"))
        client.end()

    def test_changes(self):
        """Data breakpoints, each by itself: cells, registers, channels and words of an array; they are as quick as the program."""
        client = begun(self)
        fixed = "ONE is in fixed memory, whose words never change"
        for name, wanted in [("SUM", "SUM"), ("CH012", "CH012"), ("ONE", None), ("NOPE", None), ("Z", None)]:
            with self.subTest(f"what is told of {name}"):
                self.assertEqual(client.ask("dataBreakpointInfo", name=name)["dataId"], wanted)
        with self.subTest("why not"):
            self.assertEqual(client.ask("dataBreakpointInfo", name="ONE")["description"], fixed)
        with self.subTest("a register"):
            self.assertEqual(client.ask("dataBreakpointInfo", variablesReference=1, name="A")["dataId"], "0")
        got = client.watch("SUM", "Z", "ONE", {"dataId": "SUM", "accessType": "read"}, "CH012", "NOPE")
        with self.subTest("each by itself"):
            self.assertEqual(got, [True, "Z changes at each step", fixed, "what is read is not watched: changes are", True, "no symbol NOPE"])
        with self.subTest("a change"):
            self.assertEqual((client.go("continue")[0], client.stopped["text"], client.step()), ("data breakpoint", "changed: SUM 00000 -> 77715", 10))
        with self.subTest("it is told"):
            self.assertIn("changed: SUM 00000 -> 77715\n", client.outputs())
        client.breaks(30)
        client.goto(0)
        with self.subTest("with a line"):
            self.assertEqual((client.go("continue"), client.stopped["text"], len(client.stopped["hitBreakpointIds"])), (("data breakpoint", 30, "LOOP +5"), "changed: SUM 00000 -> 77715", 2))
        client.breaks()
        client.watch({"dataId": "SUM", "condition": "SUM = 37"}, "CH012")
        with self.subTest("a change with a condition"):
            self.assertEqual((client.go("continue")[0], client.stopped["text"], client.step()), ("data breakpoint", "changed: SUM 00001 -> 00037", 29))
        with self.subTest("of a channel"):
            self.assertEqual((client.go("continue")[0], client.stopped["text"], client.step()), ("data breakpoint", "changed: CH012 00000 -> 00075", 47))
        client.watch("0")
        client.goto(18)
        with self.subTest("of a register"):
            self.assertEqual((client.go("continue")[0], client.stopped["text"], client.step()), ("data breakpoint", "changed: A 77765 -> 00001", 19))
        with self.subTest("and back"):
            self.assertEqual((client.go("reverseContinue")[0], client.step()), ("data breakpoint", 17))
        client.watch()
        plain = self.pace(client)
        client.watch("TICKS")
        watched = self.pace(client)
        with self.subTest("it goes on as quickly while a place is watched"):
            self.assertTrue(watched > plain / 10, f"{watched:.0f} steps a second, and {plain:.0f} without")
        with self.subTest("and back to the change"):
            self.assertEqual((client.go("reverseContinue")[0], client.step()), ("data breakpoint", 20))
        client.end()
        client = begun(self, **PRODUCT)
        symbols = client.ask("variables", variablesReference=2)["variables"]
        with self.subTest("symbols of several words"):
            self.assertEqual([(it["name"], it["indexedVariables"]) for it in symbols], [("X", 2), ("Y", 2), ("PRODUCT", 2)])
        product = symbols[2]["variablesReference"]
        with self.subTest("a word of one"):
            self.assertEqual(client.ask("dataBreakpointInfo", variablesReference=product, name="+1")["dataId"], "PRODUCT +1")
        client.watch("PRODUCT +1")
        # (by hand: first the two upper words of the small products, 9216 and then 19968 less 16384, octal 22000 and 07000)
        with self.subTest("it changes"):
            self.assertEqual([(client.go("continue")[0], client.stopped["text"]) for _ in range(2)], [("data breakpoint", f"changed: PRODUCT +1 {it}") for it in ("00000 -> 22000", "22000 -> 07000")])
        with self.subTest("its words"):
            self.assertEqual(client.words(product), {"+0": "00001", "+1": "07000"})
        with self.subTest("some of them"):
            self.assertEqual([it["name"] for it in client.ask("variables", variablesReference=product, start=1, count=1)["variables"]], ["+1"])
        with self.subTest("by its name"):
            self.assertEqual(client.evaluate("[PRODUCT +1]", "watch")[:5], "07000")
        read = client.ask("readMemory", memoryReference=symbols[2]["memoryReference"], count=4)
        with self.subTest("its bytes"):
            self.assertEqual((base64.b64decode(read["data"]), read["unreadableBytes"]), (bytes([0, 1, 0o16, 0]), 0))
        read = client.ask("readMemory", memoryReference=symbols[2]["memoryReference"], offset=3, count=10_000)
        with self.subTest("up to the end of erasable memory"):
            self.assertEqual((len(base64.b64decode(read["data"])), read["unreadableBytes"]), (4096 - 0o104 * 2 - 3, 10_000 - (4096 - 0o104 * 2 - 3)))
        client.end()

    def pace(self, client):
        """How many steps a second it makes from the first change of TICKS on."""
        client.goto(20)
        begin = time.monotonic()
        client.ask("continue", threadId=1)
        time.sleep(0.5)
        with self.subTest("a pause"):
            self.assertEqual(client.go("pause")[0], "pause")
        return client.step() / (time.monotonic() - begin)

    def test_calls(self):
        """Frames by calls and interrupts, over and out, up to a breakpoint; targets of a step and of a goto; a frame from its beginning."""
        client = begun(self, **PRODUCT)
        client.goto(6)
        with self.subTest("at the call"):
            self.assertEqual(client.frames(), [(25, "02,4006")])
        with self.subTest("over it"):
            self.assertEqual((client.go("next"), client.step()), (("step", 26, "02,4007"), 28))
        with self.subTest("it is over"):
            self.assertEqual(client.frames(), [(26, "02,4007")])
        client.goto(6)
        with self.subTest("into it"):
            self.assertEqual(client.go("stepIn"), ("step", 34, "DMP"))
        client.goto(10)
        with self.subTest("within it"):
            self.assertEqual(client.frames(), [(37, "DMP +3"), (25, "02,4006")])
        with self.subTest("out of it"):
            self.assertEqual((client.go("stepOut"), client.step()), (("step", 26, "02,4007"), 28))
        with self.subTest("out of none"):
            self.assertEqual((client.go("stepOut"), client.stopped["text"], client.step()), (("step", 26, "02,4007"), "no routine and no interrupt is in progress", 28))
        client.breaks(40, program=PRODUCT["program"])
        client.goto(6)
        with self.subTest("a breakpoint in it ends over"):
            self.assertEqual((client.go("next"), client.frames()), (("breakpoint", 40, "DMP +6"), [(40, "DMP +6"), (25, "02,4006")]))
        client.goto(10)
        with self.subTest("and out"):
            self.assertEqual(client.go("stepOut"), ("breakpoint", 40, "DMP +6"))
        client.ask("restartFrame", frameId=1)
        with self.subTest("its beginning"):
            self.assertEqual((client.stop(), client.step()), (("restart", 34, "DMP"), 7))
        client.ask("restartFrame", frameId=2)
        with self.subTest("and that of its caller"):
            self.assertEqual((client.stop(), client.step()), (("restart", 19, "02,4000"), 0))
        client.end()
        client = begun(self)
        client.evaluate("run 60")
        client.stop()
        client.goto(19)
        with self.subTest("in an interrupt"):
            self.assertEqual(client.frames(), [(17, "T3RUPT +1"), (29, "LOOP +4, interrupted by T3RUPT")])
        shown = client.ask("stackTrace", threadId=1, startFrame=1, levels=1)
        with self.subTest("one frame of them"):
            self.assertEqual(([it["line"] for it in shown["stackFrames"]], shown["totalFrames"]), ([29], 2))
        with self.subTest("out of it"):
            self.assertEqual((client.go("stepOut"), client.step()), (("step", 29, "LOOP +4, which RESUME has brought"), 21))
        client.goto(17)
        with self.subTest("over an interrupt"):
            self.assertEqual((client.go("next"), client.step()), (("step", 30, "LOOP +5"), 22))
        client.goto(15)
        with self.subTest("over an input"):
            self.assertEqual((client.go("next"), client.step()), (("step", 29, "LOOP +4, after ENTRY T3RUPT"), 17))
        client.goto(15)
        with self.subTest("a step of the machine"):
            self.assertEqual((client.go("next", granularity="instruction"), client.step()), (("step", 28, "LOOP +3"), 16))
        client.goto(17)
        with self.subTest("targets of a step"):
            self.assertEqual([it["label"] for it in client.ask("stepInTargets", frameId=1)["targets"]], ["ENTRY T3RUPT", "TS SUM"])
        with self.subTest("past the interrupt"):
            self.assertEqual((client.go("stepIn", targetId=2), client.step()), (("step", 30, "LOOP +5"), 22))
        client.breaks(30)
        client.evaluate("break word SUM 1")
        last, following = client.ask("gotoTargets", source={"path": LOST["program"]}, line=17)["targets"]
        with self.subTest("where it was last"):
            self.assertEqual((client.go("goto", targetId=last["id"]), client.step()), (("goto", 17, "T3RUPT +1"), 19))
        targets = client.ask("gotoTargets", source={"path": LOST["program"]}, line=32)["targets"]
        with self.subTest("where it is next"):
            self.assertEqual((client.go("goto", targetId=targets[1]["id"]), client.step()), (("goto", 32, "LOOP +7"), 44))
        with self.subTest("breakpoints stay"):
            self.assertEqual((client.go("reverseContinue"), client.step()), (("breakpoint", 30, "LOOP +5"), 43))
        # (SUM is 1 up to step 28)
        with self.subTest("those of the console too"):
            self.assertEqual([(client.go("reverseContinue")[0], client.step()) for _ in range(3)], [("breakpoint", 36), ("breakpoint", 29), ("breakpoint", 28)])
        with self.subTest("a target that is not there"):
            self.assertEqual(client.ask("goto", threadId=1, targetId=following["id"]), "gotoTargets tells the targets")
        client.end()
        client = begun(self, program=write(f"{self.room}/idle.agc", b" SETLOC 4000\nIDLE TC IDLE\n"))
        client.goto(5)
        with self.subTest("TC to itself"):
            self.assertEqual(client.frames(), [(2, "IDLE")])
        client.end()
        self.try_waitlist()

    def try_waitlist(self):
        """A routine that an interrupt calls, in waitlist: the task stands above the interrupt, and this above what it has interrupted."""
        client = begun(self, program=f"{EXAMPLES}/waitlist.agc", feed=f"{EXAMPLES}/waitlist.feed")
        text = pipe.listing_of(f"{EXAMPLES}/waitlist.agc")[0]
        line = {name: next(it.line for it in text if it.text.startswith(name)) for name in ("RED ", "IDLE ", "DUE ")}
        called = next(it.line for it in text if it.text.split() [:2] == ["TC", "0"])
        client.ask("setFunctionBreakpoints", breakpoints=[{"name": "RED"}])
        client.go("continue")
        with self.subTest("a call in an interrupt"):
            self.assertEqual(client.frames(), [(line["RED "], "RED"), (called, f"DUE +{called - line['DUE ']:o}"), (line["IDLE "], "IDLE, interrupted by T3RUPT")])
        with self.subTest("out of the call"):
            self.assertEqual(client.go("stepOut")[0], "step")
        client.end()

    def test_moves(self):
        """A move without an end is paused, and one back; the words of an image, with breakpoints on them."""
        loop = write(f"{self.room}/loop.agc", LOOP)
        client = Client(self)
        client.launch(program=loop, stopOnEntry=False)
        with self.subTest("an output while it runs"):
            self.assertEqual(client.until("output")["output"], "5 CH 010 00005\n")
        with self.subTest("a request while it runs"):
            self.assertEqual(client.ask("threads"), {"threads": [{"id": 1, "name": "the machine"}]})
        with self.subTest("what waits for a stop"):
            self.assertEqual([client.ask(it, threadId=1, frameId=1, variablesReference=1) for it in ("next", "stackTrace", "variables", "scopes", "goto")], ["notStopped"] * 5)
        with self.subTest("and in the console"):
            self.assertEqual(client.evaluate("goto 1"), "notStopped")
        with self.subTest("a pause"):
            self.assertEqual(client.go("pause"), ("pause", 5, "LOOP"))
        with self.subTest("back from there"):
            self.assertEqual(client.go("reverseContinue"), ("entry", 2, "02,4000"))
        shown = client.ask("disassemble", memoryReference=client.ask("stackTrace")["stackFrames"][0]["instructionPointerReference"], instructionCount=4)["instructions"]
        with self.subTest("words of a source"):
            self.assertEqual([(it["instruction"], it["line"]) for it in shown], [("02,4000 CA 4004", 2), ("02,4001 EXTEND", 3), ("02,4002 WRITE 010", 4), ("02,4003 TCF 4003", 5)])
        with self.subTest("their symbols"):
            self.assertEqual([it.get("symbol") for it in shown], [None, None, None, "LOOP"])
        client.end()
        rope = f"{self.room}/adapted.rope"
        pipe.answer("asm", loop, rope)
        client = Client(self)
        client.launch(program=rope, image=True)
        with self.subTest("an image"):
            self.assertEqual(client.stop(), ("entry", 0, "02,4000"))
        at = client.ask("stackTrace")["stackFrames"][0]["instructionPointerReference"]
        [found, none] = client.ask("setInstructionBreakpoints", breakpoints=[{"instructionReference": at, "offset": 3}, {"instructionReference": "0xffffff"}])["breakpoints"]
        with self.subTest("a breakpoint on a word"):
            self.assertEqual((found["verified"], none["verified"], none["message"]), (True, False, "no word stands there"))
        with self.subTest("up to it"):
            self.assertEqual(client.go("continue"), ("instruction breakpoint", 0, "02,4003"))
        shown = client.ask("disassemble", memoryReference="0", instructionOffset=-1, instructionCount=2)["instructions"]
        with self.subTest("words of an image"):
            self.assertEqual([(it["address"], it.get("presentationHint", it["instruction"][:7])) for it in shown], [("0x0", "invalid"), ("0x0", "00,2000")])
        with self.subTest("no place"):
            self.assertEqual(client.ask("disassemble", memoryReference="nonsense", instructionCount=3), "nonsense is no place of an instruction")
        with self.subTest("too many"):
            self.assertTrue(client.ask("disassemble", memoryReference="0x0", instructionCount=3_000_000).startswith("65536 instructions at most"))
        client.end()

    def test_edges(self):
        """A move back over the edges of the windows that it looks at; channel lines when the position passes them, though a look ahead has made the steps."""
        client = begun(self, program=write(f"{self.room}/blinks.agc", BLINKS))
        client.evaluate("break word 100 1")
        for begin in (4, 65536 + 2, 65536 + 3, 65536 + 4, 65536 * 9 + 3, 65536 * 9 + 4):
            client.goto(begin)
            with self.subTest(f"back from {begin}"):
                self.assertEqual((client.go("reverseContinue")[0], client.step()), ("breakpoint", 3))
        with self.subTest("the one before"):
            self.assertEqual((client.go("reverseContinue")[0], client.step()), ("breakpoint", 2))
        with self.subTest("none before"):
            self.assertEqual((client.go("reverseContinue")[0], client.step()), ("entry", 0))
        client.end()
        source = write(f"{self.room}/tells.agc", TELLS)
        client = begun(self, [7], program=source)
        with self.subTest("a breakpoint in a routine"):
            self.assertEqual(client.go("next"), ("breakpoint", 7, "SUB +3"))
        with self.subTest("what came before it"):
            self.assertEqual(client.outputs(), ["6 CH 010 00005\n"])
        with self.subTest("on"):
            self.assertEqual((client.go("stepOut")[:2], client.outputs()), (("step", 3), ["10 CH 011 00005\n"]))
        client.goto(1)
        with self.subTest("once"):
            self.assertEqual((client.go("next")[:2], client.outputs()), (("step", 5), []))
        client.end()

    def test_far_back(self):
        """A move back over many steps is told as progress, answers meanwhile, and ends by pause or a cancel."""
        client = Client(self, supportsProgressReporting=True)
        client.launch(program=write(f"{self.room}/loop.agc", LOOP))
        client.until("stopped")
        client.evaluate("break word 100 7")
        client.ask("continue", threadId=1)
        time.sleep(2)
        client.go("pause")
        begin = client.step()
        client.ask("reverseContinue", threadId=1)
        with self.subTest("meanwhile"):
            self.assertEqual(client.ask("threads")["threads"][0]["id"], 1)
        progress = client.until("progressStart")
        with self.subTest("progress"):
            self.assertTrue(progress["cancellable"] and client.until("progressUpdate")["percentage"] <= 100)
        client.ask("cancel", progressId=progress["progressId"])
        with self.subTest("the end of it"):
            self.assertEqual((client.until("progressEnd"), client.until("stopped")["reason"]), ({"progressId": progress["progressId"]}, "pause"))
        with self.subTest("it is on the way back"):
            self.assertTrue(0 < client.step() < begin, f"{client.step()} of {begin}")
        client.ask("reverseContinue", threadId=1)
        with self.subTest("a pause of a move back"):
            self.assertEqual(client.go("pause")[0], "pause")
        client.end()

    def test_flood(self):
        """Channel lines come many in one event."""
        client = Client(self)
        client.launch(program=write(f"{self.room}/flood.agc", FLOOD), stopOnEntry=False)
        time.sleep(0.5)
        client.ask("pause", threadId=1)
        client.until("stopped")
        texts = client.outputs()
        with self.subTest("lines come together"):
            self.assertTrue(sum(it.count("\n") for it in texts) > 20 * len(texts) > 0, f"{len(texts)} events")
        client.end()

    def test_requests(self):
        """Capabilities and what they stand for, and requests that come out of their order."""
        client = Client(self)
        with self.subTest("before all"):
            self.assertEqual([client.ask(it) for it in ("launch", "threads", "configurationDone")], ["initialize comes first"] * 3)
        able = client.ask("initialize", adapterID="agcws")
        with self.subTest("twice"):
            self.assertEqual(client.ask("initialize", adapterID="agcws"), "initialize was answered already")
        with self.subTest("before a launch"):
            self.assertEqual([client.ask(it) for it in ("threads", "setBreakpoints", "configurationDone", "continue")], ["launch comes first"] * 4)
        with self.subTest("a launch of nothing"):
            self.assertEqual([client.ask("launch"), client.ask("launch", program=5), client.ask("launch", **LOST, flight="yes")], ["program is to be a text"] * 2 + ["flight is to be true or false"])
        wrong = write(f"{self.room}/wrong.agc", b" FROB 1\n")
        with self.subTest("a refused source"):
            self.assertEqual(client.ask("launch", program=wrong).splitlines()[0], "agcws: E15 LINE 1")
        with self.subTest("a source that is not there"):
            self.assertEqual(client.ask("launch", program=f"{self.room}/none").splitlines()[0], "agcws: E6")
        with self.subTest("then a right one"):
            self.assertEqual(client.ask("launch", **LOST), {})
        client.until("initialized")
        with self.subTest("a second one"):
            self.assertTrue(client.ask("launch", **LOST).startswith("a program was launched already"))
        with self.subTest("one process"):
            self.assertEqual(len(children_of(client.ran.pid)), 1)
        with self.subTest("before the configuration is done"):
            self.assertEqual(client.ask("continue", threadId=1), "configurationDone comes first")
        client.ask("configurationDone")
        with self.subTest("the entry"):
            self.assertEqual(client.stop()[0], "entry")
        with self.subTest("once"):
            self.assertEqual(client.ask("configurationDone"), "configurationDone was answered already")
        for command, words in [
            ({"command": "stackTrace", "threadId": 99}, "there is no thread but 1"),
            ({"command": "scopes", "frameId": 77}, "there is no frame 77"),
            ({"command": "variables", "variablesReference": 999}, "there are no variables 999"),
            ({"command": "attach"}, "a program is launched, and not attached to"),
            ({"command": "unheard"}, "unheard is not there"),
        ]:
            with self.subTest(f"{command}"):
                self.assertEqual(client.ask(**command), words)
        with self.subTest("a pause of what stands"):
            self.assertEqual(client.ask("pause", threadId=1), {})
        with self.subTest("exceptions"):
            self.assertEqual(client.ask("setExceptionBreakpoints", filters=["all"])["breakpoints"][0]["verified"], False)
        shown = client.ask("completions", text="mem S", column=6)["targets"]
        with self.subTest("completions"):
            self.assertEqual([(it["label"], it["start"], it["length"]) for it in shown], [("SUM", 5, 1), ("START", 5, 1), ("SOON", 5, 1)])
        with self.subTest("commands"):
            self.assertIn({"label": "where", "start": 1, "length": 2}, client.ask("completions", text="wh", column=3)["targets"])
        registers = client.ask("variables", variablesReference=1)["variables"]
        with self.subTest("what is no place has no name to ask for"):
            self.assertEqual([it["name"] for it in registers if "evaluateName" in it], ["A", "L", "Q", "Z", "EB", "FB", "BB"])
        with self.subTest("steps and cycles"):
            self.assertEqual([it["value"] for it in registers if it["name"] in ("STEP", "CYCLES")], ["0", "0"])
        with self.subTest("scopes"):
            self.assertEqual([it["name"] for it in client.ask("scopes", frameId=1)["scopes"]], ["Registers", "Symbols", "Channels", "Fixed words"])
        wanted = {"next", "stepIn", "stepOut", "stepBack", "continue", "reverseContinue", "goto", "restartFrame"}
        with self.subTest("what it says it can do has a request"):
            self.assertTrue(len(able) == 20 and all(isinstance(it, bool) for it in able.values()) and wanted)
        client.end()

    def test_cancel(self):
        """A request that still waits is refused when its turn comes; a cancel of one that was answered changes nothing."""
        client = begun(self)
        waits = client.send("evaluate", expression="run 3000000", context="repl")
        first = client.send("disassemble", memoryReference="0x0", instructionCount=60_000)
        second = client.send("disassemble", memoryReference="0x0", instructionCount=60_000)
        cancel = client.send("cancel", requestId=second)
        client.answer(waits)
        with self.subTest("what is at work is answered"):
            self.assertTrue(client.answer(first)["success"])
        answer = client.answer(second)
        with self.subTest("what waits is cancelled, or was answered before"):
            self.assertTrue(answer["success"] or answer["message"] == "cancelled", f"{answer}")
        with self.subTest("the cancel itself"):
            self.assertTrue(client.answer(cancel)["success"])
        with self.subTest("and of what is over"):
            self.assertTrue(client.ask("cancel", requestId=1) == {} and client.ask("threads"))
        client.end()

    def test_restart(self):
        """The source as it stands after an edit, from the start, with its breakpoints; where it is refused, the session stays."""
        source = write(f"{self.room}/edited.agc", b" SETLOC 4000\n CAF X\n EXTEND\n WRITE 10\nX OCT 5\n")
        client = begun(self, [4], program=source)
        with self.subTest("a breakpoint"):
            self.assertEqual(client.go("continue")[:2], ("breakpoint", 4))
        write(source, b" SETLOC 4000\n CAF X\n EXTEND\n FROB 10\nX OCT 5\n")
        with self.subTest("a refused source"):
            self.assertEqual(client.ask("restart").splitlines()[0], "agcws: E15 LINE 4")
        with self.subTest("the session stays"):
            self.assertEqual(client.step(), 2)
        write(source, b" SETLOC 4000\n CAF X\n EXTEND\n\n WRITE 11\nX OCT 6\n")
        kept = children_of(client.ran.pid)
        with self.subTest("a restart"):
            self.assertEqual(client.ask("restart"), {})
        moved = client.until("breakpoint")["breakpoint"]
        with self.subTest("its breakpoint has moved"):
            self.assertEqual((moved["verified"], moved["line"]), (True, 5))
        with self.subTest("from the start"):
            self.assertEqual(client.stop(), ("entry", 2, "02,4000"))
        with self.subTest("on to it"):
            self.assertEqual(client.go("continue")[:2], ("breakpoint", 5))
        client.outputs()
        client.go("next")
        with self.subTest("the new source runs"):
            self.assertEqual(client.outputs(), ["5 CH 011 00006\n"])
        with self.subTest("the old process is gone"):
            self.assertTrue(are_gone(kept))
        client.end()
        client = begun(self, program=source)
        write(source, b" FROB 10\n")
        shown = client.ask("stackTrace", threadId=1)
        with self.subTest("a session shows its own words"):
            self.assertIn("stackFrames", shown, f"{shown}")
        client.end()

    def test_other_counts(self):
        """A client that counts from 0 and names files by URIs; a program that is not debugged."""
        client = Client(self, linesStartAt1=False, columnsStartAt1=False, pathFormat="uri")
        uri = f"file://{LOST['program']}"
        client.ask("initialize", adapterID="agcws", **client.asked)
        client.ask("launch", **LOST)
        with self.subTest("lines from 0"):
            self.assertEqual(client.breaks(29, program=uri)[0]["line"], 29)
        client.ask("configurationDone")
        client.until("stopped")
        client.ask("continue", threadId=1)
        client.until("stopped")
        frame = client.ask("stackTrace", threadId=1)["stackFrames"][0]
        with self.subTest("a frame"):
            self.assertEqual((frame["line"], frame["column"], frame["source"]["path"], frame["name"]), (29, 0, uri, "LOOP +5"))
        client.end()
        client = Client(self)
        client.launch([5], program=write(f"{self.room}/loop.agc", LOOP), noDebug=True, stopOnEntry=False)
        with self.subTest("without breakpoints"):
            self.assertEqual(client.until("output")["output"], "5 CH 010 00005\n")
        with self.subTest("it goes on"):
            self.assertEqual(client.go("pause")[0], "pause")
        client.end()

    def test_ends(self):
        """Each end of a session is told, and leaves no process: quit, terminate, a program that dies, a client that goes, a signal."""
        for label, work in [
            ("quit in the console", lambda it: it.evaluate("quit")),
            ("terminate", lambda it: it.ask("terminate")),
        ]:
            client = begun(self)
            left = children_of(client.ran.pid)
            with self.subTest(label):
                self.assertFalse(work(client))
            with self.subTest(f"{label} is told"):
                self.assertEqual(client.until("terminated"), {})
            with self.subTest(f"{label} ends the program"):
                self.assertTrue(are_gone(left))
            with self.subTest("what comes after it"):
                self.assertEqual(client.ask("continue", threadId=1), "the session has ended")
            client.end()
        for command in (None, "continue"):
            client = begun(self)
            left = children_of(client.ran.pid)
            if command:
                client.ask(command, threadId=1)
            os.kill(left[0], signal.SIGKILL)
            with self.subTest("a dead program is told"):
                self.assertEqual(([*client.until("exited").values()], client.until("terminated")), ([137], {}))
            client.end()
        for label, work, status in [
            ("a closed input", lambda it: it.ran.stdin.close(), 0),
            ("SIGKILL", lambda it: it.ran.kill(), -signal.SIGKILL),
            ("SIGTERM", lambda it: it.ran.terminate(), 0),
        ]:
            client = begun(self)
            client.watch("TICKS")
            left = children_of(client.ran.pid)
            client.go("continue")
            client.ask("continue", threadId=1)
            work(client)
            with self.subTest(f"the end by {label}"):
                self.assertEqual(client.ran.wait(MOST_SECONDS), status)
            with self.subTest(f"no process is left by {label}"):
                self.assertTrue(are_gone(left), f"{left}")
            client.close()
        client = begun(self, program=write(f"{self.room}/away.agc", b" SETLOC 4000\n TC LOOP\n NOOP\nLOOP TCF LOOP\n"))
        left = children_of(client.ran.pid)
        # (one command of the session, which has no end)
        client.send("evaluate", expression="over 999999999999", context="repl")
        client.ran.stdin.close()
        with self.subTest("the end of a long command"):
            self.assertEqual(client.ran.wait(MOST_SECONDS), 0)
        with self.subTest("no process is left by it"):
            self.assertTrue(are_gone(left), f"{left}")
        client.close()

    def test_emacs(self):
        """dap-mode of Emacs, where it is installed."""
        script = f"{VIEWS}/editors/emacs/check-dap.el"
        if not shutil.which("emacs") or not (os.path.isdir("/usr/share/emacs/site-lisp/elpa") and any(it.startswith("dap-mode-") for it in os.listdir("/usr/share/emacs/site-lisp/elpa"))):
            self.skipTest(f"dap-mode of Emacs is not there: {APT}")
        env = {**os.environ, "HOME": self.room, "AGCWS": pipe.program(), "VIEWS": VIEWS, "INIT": init_of("With dap-mode", f"{self.room}/dap-mode.el")}
        ran = subprocess.run(["emacs", "--batch", "-l", script], cwd=self.room, env=env, capture_output=True, text=True, errors="replace", timeout=300, check=False, stdin=subprocess.DEVNULL)
        shown = [it.removeprefix("## ") for it in ran.stderr.splitlines() if it.startswith("## ")]
        wanted = []
        with open(script, encoding="utf-8") as file:
            wanted = [it[1].replace('\\"', '"') for it in re.finditer(r"^;;=> (.*)$", file.read(), re.M)]
        for it, line in zip(wanted, [*shown, *[""] * len(wanted)]):
            with self.subTest(f"dap-mode: {it}"):
                self.assertEqual(line, it)
        with self.subTest("dap-mode: no more lines"):
            self.assertEqual(len(shown), len(wanted), "\n".join(shown[len(wanted) :] or ran.stderr.splitlines()[-20:]))


if __name__ == "__main__":
    unittest.main()
