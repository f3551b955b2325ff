"""Tests of the debug adapter by clients that send what is no request, or a wrong one, or much."""
import json
import queue
import subprocess
import unittest

from common import VIEWS
from test_dap import LOST, MOST_SECONDS, begun, framed
from viewing import ViewCase


def request(command, seq=9, **arguments):
    return framed({"seq": seq, "type": "request", "command": command, "arguments": arguments})


THREADS = json.dumps({"seq": 9, "type": "request", "command": "threads"}).encode()
# Frames that are no requests, or wrong ones: the bytes, and the words of the answer to number 9, or None where none can be given.
HOSTILE = {
    "a length that is too short": (b"Content-Length: 10\r\n\r\n" + THREADS, None),
    "a length that is too great": (b"Content-Length: %d\r\n\r\n" % (len(THREADS) + 30) + THREADS, ""),
    "a length below 0": (b"Content-Length: -1\r\n\r\n{}", None),
    "a length that is none": (b"Content-Length: x\r\n\r\n{}", None),
    "a length of many digits": (b"Content-Length: " + b"9" * 5000 + b"\r\n\r\n{}", None),
    "no length": (b"Content-Type: json\r\n\r\n", None),
    "no header": (b"hello\r\n\r\n", None),
    "no JSON": (framed(b"abc"), None),
    "no text": (framed(b'"\xff"'), None),
    "no number": (framed(b'{"seq": NaN}'), None),
    "a number of many digits": (framed(b'{"seq": ' + b"9" * 5000 + b"}"), None),
    "a list": (framed(b"[]"), None),
    "a number": (framed(b"5"), None),
    "deep lists": (framed(b"[" * 100_000), None),
    "deep objects": (framed(b'{"a":' * 100_000), None),
    "nothing": (framed(b""), None),
    "no seq": (framed({"type": "request", "command": "threads"}), None),
    "a seq that is a text": (framed({"type": "request", "command": "threads", "seq": "9"}), None),
    "no command": (framed({"type": "request", "seq": 9}), "a request has its type, a number and a command"),
    "no type": (framed({"seq": 9, "command": "threads"}), "a request has its type, a number and a command"),
    "a command of Python": (request("class__"), "class__ is not there"),
    "a response": (framed({"type": "response", "seq": 9, "request_seq": 1, "success": True, "command": "runInTerminal"}), None),
    "arguments that are a list": (framed({"type": "request", "seq": 9, "command": "variables", "arguments": [1]}), "arguments is to be an object"),
    "no arguments": (framed({"type": "request", "seq": 9, "command": "setBreakpoints"}), "source is to be an object"),
    "a line that is a text": (request("setBreakpoints", source={"path": LOST["program"]}, breakpoints=[{"line": "x"}]), "line is to be a whole number"),
    "a line that is true": (request("setBreakpoints", source={"path": LOST["program"]}, breakpoints=[{"line": True}]), "line is to be a whole number"),
    "a breakpoint that is a number": (request("setBreakpoints", source={"path": LOST["program"]}, breakpoints=[5]), "line is to be a whole number"),
    "a path that is none": (request("setBreakpoints", source={"path": None}, breakpoints=[{"line": 1}]), ""),
    "a path that is a number": (request("setBreakpoints", source={"path": 5}, breakpoints=[]), "path is to be a text"),
    "a path with NUL": (request("setBreakpoints", source={"path": "a\0b"}, breakpoints=[{"line": 1}]), ""),
    "a source that is none": (request("setBreakpoints", source=None, breakpoints=[]), "source is to be an object"),
    "an expression that is a number": (request("evaluate", expression=5), "expression is to be a text"),
    "an expression of several lines": (request("evaluate", expression="step 1\nquit", context="repl"), "this is to be one line of ASCII, of 1000 bytes at most"),
    "an expression with half a sign": (framed(b'{"seq": 9, "type": "request", "command": "evaluate", "arguments": {"expression": "\\ud800"}}'), "this is to be one line of ASCII, of 1000 bytes at most"),
    "a name with a line feed": (request("dataBreakpointInfo", name="SUM\nquit"), "this is to be one line of ASCII, of 1000 bytes at most"),
    "a name of many bytes": (request("dataBreakpointInfo", name="S" * 900), ""),
    "brackets": (request("evaluate", expression="(" * 900), "no expression"),
    "a count that is a text": (request("disassemble", memoryReference="0x0", instructionCount="3"), "instructionCount is to be a whole number"),
    "a count that is not whole": (request("disassemble", memoryReference="0x0", instructionCount=1.5), "instructionCount is to be a whole number"),
    "a number without an end": (request("variables", variablesReference=10**300), "there are no variables"),
    "a line without an end": (request("gotoTargets", source={"path": LOST["program"]}, line=10**300), ""),
    "a message that is too long": (framed(b'{"seq": 9, "type": "request", "command": "evaluate", "arguments": {"expression": "' + b"S" * 2_000_000 + b'"}}'), "a message has 1048576 bytes at most"),
    "line feeds alone": (b"Content-Length: %d\n\n" % len(THREADS) + THREADS, ""),
    "no answer to a cancel of nothing": (request("cancel", requestId=[]), "requestId is to be a whole number"),
}


def message_or_none(client):
    """The next message, or None where none comes."""
    try:
        return client.message()
    except queue.Empty:
        return None


def peak_of(number):
    """The most kilobytes that a process has had."""
    with open(f"/proc/{number}/status", encoding="ascii") as file:
        return next(int(it.split()[1]) for it in file if it.startswith("VmHWM"))


class DapHostile(ViewCase):
    """What is no request, and too much of it."""

    def test_hostile(self):
        """What a client sends that is no request, or a wrong one, is answered where it can be, and the session goes on."""
        client = begun(self)
        for label, (data, wanted) in HOSTILE.items():
            client.raw(data)
            client.raw(request("threads", seq=77))
            answer, other = None, message_or_none(client)
            while other and not (other["type"] == "response" and other["request_seq"] == 77):
                answer = other if other["type"] == "response" else answer
                other = message_or_none(client)
            if not other:
                with self.subTest(f"{label}: an answer"):
                    self.fail()
                break
            with self.subTest(f"{label}: the session goes on"):
                self.assertTrue(other["success"])
            said = answer and (answer["request_seq"], "" if answer["success"] else answer["message"])
            with self.subTest(f"{label}: {wanted!r}"):
                self.assertTrue((wanted is None and not answer) or (said and said[0] == 9 and (wanted in said[1])), f"{answer}")
        client.end()
        for label, data in [("half a header", b"Content-Len"), ("half a message", b'Content-Length: 100\r\n\r\n{"seq"'), ("half a long one", b"Content-Length: 100000000\r\n\r\n[[")]:
            client = begun(self)
            client.raw(data)
            client.ran.stdin.close()
            with self.subTest(f"{label}, and the end"):
                self.assertEqual((client.ran.wait(MOST_SECONDS), client.ran.stderr.read()), (0, b""))
            client.close()
        ran = subprocess.run([f"{VIEWS}/dap"], input=framed(b"???"), capture_output=True, timeout=300, check=False)
        with self.subTest("no message before the first request"):
            self.assertEqual((ran.returncode, ran.stdout, ran.stderr), (0, b"", b"dap: a message that is no JSON is passed over\n"))

    def test_sizes(self):
        """100 MB as a message, as a header and as requests that wait: the memory is bounded."""
        client = begun(self)
        before = peak_of(client.ran.pid)
        client.raw(b'Content-Length: 100000000\r\n\r\n{"seq": 9, "type": "request", "command": "evaluate"')
        for _ in range(100):
            client.raw(b" " * 1_000_000)
        client.raw(b"X" * 20_000_000 + b"\r\n")
        for i in range(200):
            client.raw(request("evaluate", seq=1000 + i, expression="S" * 50_000))
        number = client.send("threads")
        answer = client.answer(number)
        with self.subTest("after 100 MB it answers"):
            self.assertTrue(answer and answer["success"], f"{answer}")
        grown = peak_of(client.ran.pid) - before
        with self.subTest("its memory is bounded"):
            self.assertTrue(grown < 60_000, f"{grown} kB more")
        client.end()


if __name__ == "__main__":
    unittest.main()
