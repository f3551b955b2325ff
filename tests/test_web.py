"""Tests of views/web: what it answers, what it refuses, and that what a page runs ends with the page and with the server."""
import base64
import json
import os
import socket
import struct
import subprocess
import sys
import time
import unittest

from common import VIEWS
from viewing import ViewCase

UPGRADE = "Upgrade: websocket\r\nConnection: Upgrade\r\nSec-WebSocket-Version: 13\r\nSec-WebSocket-Key: dGhlIHNhbXBsZSBub25jZQ==\r\n"
ENDLESS = " SETLOC 4000\nHERE TCF HERE\n"
STEPS = "1099511627774"


def packed(text):
    return base64.b64encode(text.encode()).decode()


class Served:
    """The server, started."""

    def __init__(self, *words):
        self.ran = subprocess.Popen([sys.executable, f"{VIEWS}/web", "--no-open", *words], stdout=subprocess.PIPE, text=True)
        _, _, self.host, self.token, _ = self.ran.stdout.readline().split()[1].split("/")
        self.port = int(self.host.split(":")[1])

    def status(self, path, method="GET", host=None, more=""):
        """The status that a request is answered with."""
        with socket.create_connection(("127.0.0.1", self.port), timeout=15) as line:
            try:
                line.sendall(f"{method} {path} HTTP/1.1\r\nHost: {host or self.host}\r\n{more}\r\n".encode())
                return int((line.recv(65536).split() + [b"", b"0"])[1])
            except OSError:
                return 0

    def engines(self):
        """The processes of the program that it has."""
        shown = subprocess.run(["ps", "-o", "pid=", "--ppid", str(self.ran.pid)], capture_output=True, text=True, check=False)
        return shown.stdout.split()

    def end(self):
        self.ran.terminate()
        self.ran.wait(15)
        self.ran.stdout.close()


class Page:
    """A page's end of the socket, as page/engine.js has it."""

    def __init__(self, served):
        self.line, self.count = socket.create_connection(("127.0.0.1", served.port), timeout=30), 0
        self.line.sendall(f"GET /{served.token}/engine HTTP/1.1\r\nHost: {served.host}\r\nOrigin: http://{served.host}\r\n{UPGRADE}\r\n".encode())
        self.read = self.line.makefile("rb")
        self.first = self.read.readline()
        while self.read.readline().strip():
            pass

    def send(self, message):
        data, mask = json.dumps(message).encode(), os.urandom(4)
        size = len(data)
        head = struct.pack("!BB", 0x81, 0x80 | size) if size < 126 else struct.pack("!BBH", 0x81, 0xFE, size) if size < 1 << 16 else struct.pack("!BBQ", 0x81, 0xFF, size)
        self.line.sendall(head + mask + bytes(it ^ mask[i & 3] for i, it in enumerate(data)))

    def next(self):
        """The next message, or None at the end."""
        try:
            first, size = self.read.read(2)
            size = struct.unpack("!H", self.read.read(2))[0] if size == 126 else struct.unpack("!Q", self.read.read(8))[0] if size == 127 else size
            data = self.read.read(size)
        except (ValueError, OSError):
            return None
        if first & 15 == 2:
            number, stream = struct.unpack("!IB", data[:5])
            return {"id": number, ("output", "errors")[stream]: data[5:]}
        return json.loads(data) if first & 15 == 1 else self.next() if first & 15 == 9 else None

    def begin(self, words, files, given="", most=1 << 26, **more):
        self.count += 1
        files = {name: packed(it) for name, it in files.items()}
        self.send({"id": self.count, "begin": {"words": words, "files": files, "input": None if given is None else packed(given), "memory": 1 << 28, "most": most, **more}})
        return self.count

    def until(self, *names):
        """What was written up to a message with one of these fields, and that message."""
        text = ""
        while (it := self.next()) and not set(names) & set(it):
            text += it.get("output", it.get("errors")).decode()
        return text, it

    def close(self):
        self.read.close()
        self.line.close()


def wait_until(holds):
    last = time.monotonic() + 10
    while not holds() and time.monotonic() < last:
        time.sleep(0.02)
    return holds()


class Web(ViewCase):
    """Requests, messages and runs."""

    def try_requests(self, served):
        """Requests that are not of the page."""
        own = f"Origin: http://{served.host}\r\n"
        for path in ("/", "//", "/index.html", "/x/", f"/{served.token}", f"/{served.token[:-1]}/", f"/{served.token}x/", f"/x/{served.token}/", "/%00/"):
            with self.subTest(f"no token in {path}"):
                self.assertEqual(served.status(path), 403)
        for path in ("../web", "..%2fweb", "%2e%2e/views/web", "//etc/passwd", "engine.js/..", "engine.js%00", "engine.js/", "check.py", "module/layer.c"):
            with self.subTest(f"no file {path}"):
                self.assertEqual(served.status(f"/{served.token}/{path}"), 404)
        with self.subTest("a file"):
            self.assertEqual(served.status(f"/{served.token}/engine.js"), 200)
        for host in ("evil.example", f"evil.example:{served.port}", "127.0.0.1", f"127.0.0.1:{served.port + 1}", f"{served.host}, evil", " "):
            with self.subTest(f"the host {host}"):
                self.assertEqual(served.status(f"/{served.token}/engine.js", host=host), 421)
        with self.subTest("two hosts"):
            self.assertEqual(served.status(f"/{served.token}/engine.js", more="Host: evil.example\r\n"), 421)
        for origin in ("http://evil.example", "null"):
            with self.subTest(f"the origin {origin}"):
                self.assertEqual(served.status(f"/{served.token}/engine.js", more=f"Origin: {origin}\r\n"), 403)
            with self.subTest(f"a socket of {origin}"):
                self.assertEqual(served.status(f"/{served.token}/engine", more=f"{UPGRADE}Origin: {origin}\r\n"), 403)
        for method in ("POST", "PUT", "DELETE", "PATCH", "OPTIONS"):
            with self.subTest(method):
                self.assertEqual(served.status(f"/{served.token}/", method), 405)
        with self.subTest("a body"):
            self.assertEqual(served.status(f"/{served.token}/", "POST", more="Content-Length: 99999999999\r\n"), 413)
        with self.subTest("a body in chunks"):
            self.assertEqual(served.status(f"/{served.token}/", "POST", more="Transfer-Encoding: chunked\r\n"), 413)
        with self.subTest("a long path"):
            self.assertEqual(served.status("/" + "a" * 70000 + "/"), 414)
        with self.subTest("a socket without a token"):
            self.assertEqual(served.status("/x/engine", more=UPGRADE + own), 403)
        with self.subTest("a socket of no page"):
            self.assertEqual(served.status(f"/{served.token}/engine", more=UPGRADE), 403)
        with self.subTest("no socket"):
            self.assertEqual(served.status(f"/{served.token}/engine", more=own), 400)

    def try_messages(self, served):
        """Frames and messages that are none: the page is left, and the server goes on."""
        frames = [b"\x81\x05hello", b"\xf1\x80\0\0\0\0", b"\x81\xff" + b"\x7f" * 8 + bytes(4), b"\x89\xfe\x01\0" + bytes(4), b"\x81\x82" + bytes(4) + b"[]", b"\x81\xfe\x4e\x20" + bytes(4) + b"[" * 20000]
        good = {"words": ["--version"], "files": {}, "input": "", "memory": 0, "most": 100}
        for change in ({"words": "x"}, {"words": ["/etc/passwd"]}, {"words": ["x\0"]}, {"words": ["x"] * 65}, {"files": {"../x": ""}}, {"files": {".": ""}}, {"files": {"x": 5}}, {"files": {"x": "?"}}, {"input": 5}, {"most": "x"}):
            frames.append({"id": 1, "begin": {**good, **change}})
        for it in [*frames, {"begin": good}, *({"id": it, "begin": good} for it in ("x", -1, 1 << 32))]:
            page = Page(served)
            page.next()
            page.line.sendall(it) if isinstance(it, bytes) else page.send(it)
            with self.subTest(f"the page is left after {it!r:.60}"):
                self.assertEqual(page.until("status", "failed")[1], None)
            page.close()
        pages = [Page(served) for _ in range(8)]
        with self.subTest("a ninth page"):
            self.assertEqual(Page(served).first.split()[1], b"503")
        for it in pages:
            it.close()
        with self.subTest("a page after those"):
            self.assertTrue(wait_until(lambda: b"101" in Page(served).first))

    def try_runs(self, served):
        """Calls and sessions, as the engine asks for them."""
        page = Page(served)
        about = page.next()["about"]
        with self.subTest("the source of the command line"):
            self.assertEqual(about["given"]["source"]["name"], "lost_sum.agc")
        page.begin(["--version"], {})
        text, end = page.until("status")
        with self.subTest("a call"):
            self.assertEqual((text, end["status"], end["files"]), (f"agcws {about['version']}\n", 0, {}))
        page.begin(["asm", "my.agc", "made.rope"], {"my.agc": ENDLESS})
        with self.subTest("a file that is made"):
            self.assertEqual(len(base64.b64decode(page.until("status")[1]["files"]["made.rope"])), 73728)
        page.begin(["run", "my.agc", "my.feed", STEPS], {"my.agc": " SETLOC 4000\nHERE EXTEND\n WRITE 10\n TCF HERE\n", "my.feed": ""}, most=100000)
        text, end = page.until("status", "failed")
        with self.subTest("what is written is bounded"):
            self.assertTrue(len(text) <= 100000 and "100000 bytes" in end.get("failed", ""), f"{len(text)} {end}")
        page.begin(["run", "--end", "my.agc", "my.feed", "60000"], {"my.agc": " SETLOC 4000\nHERE EXTEND\n WRITE 10\n TCF HERE\n", "my.feed": ""}, most=1000, unheard="output")
        text, end = page.until("status", "failed")
        with self.subTest("a stream that nobody hears"):
            self.assertTrue(end.get("status") == 0 and " CH " not in text and len(text.splitlines()) == 1, f"{text:.100} {end}")
        number = page.begin(["debug", "--extended", "my.agc", "my.feed"], {"my.agc": ENDLESS, "my.feed": ""}, None)
        page.until("waits")
        for lines, wanted in (("step 1\n", "AT 1 1 02,4000\n"), ("step 1\nstep 1\n", "AT 2 2 02,4000\nAT 3 3 02,4000\n"), ("run 3000000\n", "AT 3000003 3000003 02,4000\n")):
            page.send({"id": number, "lines": packed(lines)})
            with self.subTest(f"a session, at {lines!r}"):
                self.assertEqual(page.until("waits")[0], wanted)
        page.send({"id": number, "end": True})
        with self.subTest("the end of a session"):
            self.assertEqual(page.until("status")[1]["status"], 0)
        numbers = [page.begin(["run", "my.agc", "my.feed", STEPS], {"my.agc": ENDLESS, "my.feed": ""}) for _ in range(12)]
        page.begin(["--version"], {})
        with self.subTest("a run more than a page may have"):
            self.assertIn("12 runs", page.until("failed")[1]["failed"])
        page.send({"id": numbers[0], "stop": True})
        with self.subTest("a run is stopped"):
            self.assertTrue(wait_until(lambda: len(served.engines()) == 11), f"{served.engines()}")
        page.close()
        with self.subTest("what a page runs ends with it"):
            self.assertTrue(wait_until(lambda: not served.engines()), f"{served.engines()}")

    def test_web(self):
        examples = f"{os.path.dirname(VIEWS)}/examples"
        served = Served(f"{examples}/lost_sum.agc", f"{examples}/lost_sum.feed")
        try:
            self.try_requests(served)
            self.try_messages(served)
            self.try_runs(served)
            page = Page(served)
            page.begin(["run", "my.agc", "my.feed", STEPS], {"my.agc": ENDLESS, "my.feed": ""})
            with self.subTest("a run before the end"):
                self.assertTrue(wait_until(served.engines))
            left = served.engines()
        finally:
            served.end()
        with self.subTest("what runs ends with the server"):
            self.assertTrue(wait_until(lambda: not any(os.path.exists(f"/proc/{it}") for it in left)), f"{left}")


if __name__ == "__main__":
    unittest.main()
