"""Tests of views/lsp, by a client that stands here, and by Emacs and Neovim where they are."""
import json
import os
import queue
import re
import shutil
import subprocess
import threading
import time
import unittest
import zipfile
from xml.etree import ElementTree

from common import EXAMPLES, PROGRAM, VIEWS, write
from test_dap import are_gone, children_of
from viewing import ViewCase, init_of, runs, text_at
from written import Source, formed

# A source with a fault of each kind that an edit mends: a name that is nearly there, an operator likewise, a register without a name, EXTEND forgotten; an é and a
# character of two units of UTF-16 in comments, a tab, and a name given twice.
FAULTY = """# é 🚀 a faulty source
        SETLOC  4000
START\tCA\tFIV
        TCF     STRAT
        CA      Q
        WRITE   10
        TFC     START
FIVE    OCT     5
FIVE    OCT     5
"""
SECONDS = 20


class Client:
    """A client of the server."""

    def __init__(self, **options):
        self.start()
        self.able = self.ask("initialize", {"processId": None, "capabilities": {}, "initializationOptions": options})["result"]["capabilities"]
        self.tell("initialized", {})

    def start(self):
        self.ran = subprocess.Popen([f"{VIEWS}/lsp"], stdin=subprocess.PIPE, stdout=subprocess.PIPE, stderr=subprocess.PIPE)
        self.came, self.number, self.kept = queue.Queue(), 0, []
        threading.Thread(target=self.read, daemon=True).start()

    def read(self):
        while head := self.ran.stdout.readline():
            length = int(head.split(b":")[1])
            self.ran.stdout.readline()
            self.came.put(json.loads(self.ran.stdout.read(length)))
        self.came.put(None)

    def send(self, text):
        self.ran.stdin.write(text)
        self.ran.stdin.flush()

    def write(self, message):
        text = json.dumps({"jsonrpc": "2.0", **message}).encode()
        self.send(b"Content-Length: %d\r\n\r\n%s" % (len(text), text))

    def tell(self, method, params):
        self.write({"method": method, "params": params})

    def next(self):
        return self.came.get(timeout=SECONDS)

    def ask(self, method, params):
        """The answer to a request. What else comes is kept."""
        self.number += 1
        self.write({"id": self.number, "method": method, "params": params})
        while (it := self.next()).get("id") != self.number:
            self.kept.append(it)
        return it

    def of(self, method, name="a.agc", **params):
        return self.ask(f"textDocument/{method}", {"textDocument": {"uri": f"file:///{name}"}, **params}).get("result")

    def open(self, text, name="a.agc"):
        self.tell("textDocument/didOpen", {"textDocument": {"uri": f"file:///{name}", "languageId": "agc", "version": 1, "text": text}})
        return self.published(name)

    def published(self, name="a.agc"):
        """What is found next in a text."""
        while True:
            it = self.kept.pop(0) if self.kept else self.next()
            if it.get("method") == "textDocument/publishDiagnostics" and it["params"]["uri"] == f"file:///{name}":
                return it["params"]["diagnostics"]

    def end(self):
        self.ask("shutdown", None)
        self.tell("exit", None)
        return self.ran.wait(SECONDS)


def marked(text, found):
    """The words that a range of the protocol marks."""
    line = text.split("\n")[found["start"]["line"]].encode("utf-16-le")
    return line[2 * found["start"]["character"] : 2 * found["end"]["character"]].decode("utf-16-le")


def with_edits(text, edits):
    """A text after some edits of a client."""
    lines = text.split("\n")
    for it in sorted(edits, key=lambda it: (it["range"]["start"]["line"], it["range"]["start"]["character"]), reverse=True):
        (row, start), (last, end) = (([it["range"][side]["line"], it["range"][side]["character"]]) for side in ("start", "end"))
        head = lines[row].encode("utf-16-le")[: 2 * start].decode("utf-16-le")
        tail = lines[last].encode("utf-16-le")[2 * end :].decode("utf-16-le")
        lines[row : last + 1] = (head + it["newText"] + tail).split("\n")
    return "\n".join(lines)


def image_of(source, room):
    options = ["--flight"] if "/flight/" in source else []
    subprocess.run([PROGRAM, "asm", *options, source, f"{room}/image"], check=True, stdout=subprocess.DEVNULL)
    with open(f"{room}/image", "rb") as file:
        return file.read()


def kilobytes_of(number):
    """The most memory that a process has had."""
    found = re.search(r"^VmHWM:\s+(\d+)", text_at(f"/proc/{number}/status"), re.M) if os.path.exists(f"/proc/{number}/status") else None
    return int(found[1]) if found else 0


# What an editor that is asked by a script tells: its marks, a code action, a jump, a name that is changed.
TOLD = ["mark 3 FIV", "mark 4 STRAT", "mark 6 WRITE", "mark 7 TFC", "line START CA FIVE", "definition 3", "renamed 2"]
# What the published schema of a package of VS Code has, of the keys that stand in ours.
MANIFEST = {"name", "displayName", "description", "version", "publisher", "engines", "categories", "main", "activationEvents", "contributes"}
CATEGORIES = {"Programming Languages", "Snippets", "Linters", "Themes", "Debuggers", "Formatters", "Keymaps", "Other", "Testing", "Visualization"}
CONTRIBUTED = {
    "languages": {"id", "aliases", "extensions", "filenames", "firstLine", "configuration", "mimetypes", "icon"},
    "grammars": {"language", "scopeName", "path", "embeddedLanguages", "tokenTypes", "injectTo", "balancedBracketScopes", "unbalancedBracketScopes"},
    "breakpoints": {"language", "when"},
    "debuggers": {"type", "label", "program", "args", "runtime", "runtimeArgs", "languages", "configurationAttributes", "initialConfigurations", "configurationSnippets", "variables", "windows", "linux", "osx", "when"},
    "problemMatchers": {"name", "label", "owner", "source", "applyTo", "severity", "fileLocation", "pattern", "background", "base"},
}
PATTERN = {"regexp", "kind", "file", "location", "line", "column", "endLine", "endColumn", "severity", "code", "message", "loop"}
PYTHON = {"string": str, "boolean": bool, "integer": int, "number": (int, float), "array": list, "object": dict}


class Lsp(ViewCase):
    """The language server, by a client and by editors."""

    def test_findings(self):
        """What is found, with its range in units of UTF-16; each offered edit applied, until the source is right."""
        client = Client()
        found = client.open(FAULTY)
        words = {(it["code"], marked(FAULTY, it["range"])) for it in found}
        with self.subTest("what is marked"):
            self.assertTrue({("E17", "FIV"), ("E17", "STRAT"), ("E17", "Q"), ("E23", "WRITE"), ("E15", "TFC"), ("E14", "FIVE")} <= words, str(words))
        [twice] = [it for it in found if it["code"] == "E14"]
        other = twice["relatedInformation"][0]["location"]["range"]
        with self.subTest("the other place"):
            self.assertEqual((marked(FAULTY, other), other["start"]["line"]), ("FIVE", 7))
        with self.subTest("a cure is in the message"):
            self.assertTrue(any("did you mean FIVE?" in it["message"] for it in found))
        text, version = FAULTY.replace("FIVE    OCT     5\n", "", 1), 1
        for _ in range(12):
            version += 1
            client.tell("textDocument/didChange", {"textDocument": {"uri": "file:///a.agc", "version": version}, "contentChanges": [{"text": text}]})
            found = client.published()
            whole = {"start": {"line": 0, "character": 0}, "end": {"line": 99, "character": 0}}
            actions = client.of("codeAction", range=whole, context={"diagnostics": found})
            if not actions:
                break
            text = with_edits(text, actions[0]["edit"]["changes"]["file:///a.agc"])
        with self.subTest("what is mended by edits alone"):
            self.assertEqual([it["code"] for it in found if it["severity"] == 1], ["E10"])
        with self.subTest("its text"):
            self.assertEqual(text.split("\n")[:4], ["Q EQUALS 2", "# é 🚀 a faulty source", "        SETLOC  4000", "START\tCA\tFIVE"])
        with self.subTest("the status of the end"):
            self.assertEqual(client.end(), 0)

    def test_places(self):
        """What is asked of a place."""
        client, text = Client(inlayHints=True), text_at(f"{EXAMPLES}/lost_sum.agc")
        with self.subTest("nothing is found"):
            self.assertEqual([it for it in client.open(text) if it["severity"] < 3], [])
        lines = text.split("\n")
        row = next(i for i, it in enumerate(lines) if it.split()[:2] == ["TCF", "LOOP"])
        place = {"line": row, "character": 17}
        where = client.of("definition", position=place)["range"]
        with self.subTest("a definition"):
            self.assertEqual((marked(text, where), lines[where["start"]["line"]].split()[:2]), ("LOOP", ["LOOP", "TS"]))
        with self.subTest("references"):
            self.assertEqual(len(client.of("references", position=place, context={"includeDeclaration": True})), 2)
        hover = client.of("hover", position=place)["contents"]["value"]
        with self.subTest("the hover of a name"):
            self.assertTrue(hover.startswith("`LOOP` FIXED 02,0104\n"), hover)
        with self.subTest("the hover of an operator"):
            self.assertTrue("codes: 10000 to 17777" in client.of("hover", position={"line": row, "character": 9})["contents"]["value"] or "Z := K" in client.of("hover", position={"line": row, "character": 9})["contents"]["value"])
        number = next(i for i, it in enumerate(lines) if it.startswith("SOON"))
        with self.subTest("the hover of a number"):
            self.assertEqual(client.of("hover", position={"line": number, "character": 17})["contents"]["value"], "octal 37777, decimal 16383, as a fraction 0.99994, as two words 00000 37777")
        with self.subTest("symbols"):
            self.assertEqual(len(client.of("documentSymbol")), 12)
        with self.subTest("completions of operators"):
            self.assertTrue({"CCS", "ERASE"} <= {it["label"] for it in client.of("completion", position={"line": row, "character": 8})})
        with self.subTest("completions of names"):
            self.assertTrue({"LOOP", "SUM"} <= {it["label"] for it in client.of("completion", position={"line": row, "character": 16})})
        write_row = next(i for i, it in enumerate(lines) if it.split()[:1] == ["WRITE"])
        offered = {it["label"] for it in client.of("completion", position={"line": write_row, "character": 8})}
        with self.subTest("operators that fit behind EXTEND"):
            self.assertTrue({"MP", "WRITE"} <= offered and not {"CA", "ERASE"} & offered, str(offered))
        with self.subTest("channels"):
            self.assertIn({"label": "11", "kind": 12, "detail": "lamps of the DSKY, engine on and off, out"}, client.of("completion", position={"line": write_row, "character": 16}))
        with self.subTest("the hover of a channel"):
            self.assertTrue(client.of("hover", position={"line": write_row, "character": 16})["contents"]["value"].startswith("channel 12: drives of radar"))
        [register] = [it for it in client.of("completion", position={"line": row, "character": 16}) if it["label"] == "Q"]
        with self.subTest("a register by its name"):
            self.assertEqual((register["detail"], register["additionalTextEdits"][0]["newText"]), ("place 2", "Q       EQUALS  2\n"))
        hints = client.of("inlayHint", range={"start": {"line": row, "character": 0}, "end": {"line": row, "character": 0}})
        with self.subTest("the place and the word of a line"):
            self.assertEqual([it["label"] for it in hints], ["02,4112 14104"])
        with self.subTest("lines that fold"):
            self.assertEqual([(lines[it["startLine"]][:5].strip(), lines[it["endLine"]][:5].strip()) for it in client.of("foldingRange")], [("TIME3", "T3RUP"), ("COUNT", "TICKS"), ("START", "DONE"), ("ONE", "")])
        tokens = client.of("semanticTokens/full")["data"]
        with self.subTest("tokens"):
            self.assertTrue(len(tokens) % 5 == 0 and sum(tokens[0::5]) == max(i for i, it in enumerate(lines) if it.strip()), str(len(tokens)))
        with self.subTest("no lenses where none are asked for"):
            self.assertEqual(client.of("codeLens"), [])
        renamed = with_edits(text, client.of("rename", position=place, newName="AGAIN")["changes"]["file:///a.agc"])
        with self.subTest("it stands where the old one stood"):
            self.assertTrue(len(re.findall(r"\bAGAIN\b", renamed)) == 2 and not re.search(r"^(LOOP|.*TCF +LOOP)", renamed, re.M))
        for name, why in (("SUM", "has the label SUM already"), ("TOOLONGNAME", "8 characters"), ("12", "a number"), ("A B", "without blanks"), ("CCS", "operator's name"), ("$X", "no $")):
            said = client.ask("textDocument/rename", {"textDocument": {"uri": "file:///a.agc"}, "position": place, "newName": name})
            with self.subTest(f"the name {name} is refused"):
                self.assertIn(why, said.get("error", {}).get("message", ""), str(said))
        client.end()

    def test_numbers(self):
        """What a number is, worked by hand: after DEC it is decimal; two words are of 14 bits each, and those of a negative number their complements."""
        client = Client()
        for line, wanted in (
            ("X OCT 5", "octal 5, decimal 5, as a fraction 0.00031, as two words 00000 00005"),
            ("X DEC 100", "octal 144, decimal 100, as a fraction 0.00610, as two words 00000 00144"),
            ("X DEC -1", "octal -1, decimal -1, as a fraction -0.00006, as two words 77777 77776"),
            ("X 2DEC 16385", "octal 40001, decimal 16385, as two words 00001 00001"),
            ("X CA 10D", "octal 12, decimal 10, as a fraction 0.00061, as two words 00000 00012"),
        ):
            client.open(line)
            with self.subTest(f"the number of {line}"):
                self.assertEqual(client.of("hover", position={"line": 0, "character": len(line) - 1})["contents"]["value"].split("\n")[-1], wanted)
        client.open("X DEC 18 1", "b.agc")
        with self.subTest("what is no number of the kind"):
            self.assertEqual(client.of("hover", "b.agc", position={"line": 0, "character": 9})["contents"]["value"].split("\n")[-1], "octal 1, decimal 1, as a fraction 0.00006, as two words 00000 00001")
        client.end()

    def test_lenses(self):
        """What each routine took in a run, as `agcws cover` counts it."""
        client, source = Client(steps=200), f"{EXAMPLES}/lost_sum.agc"
        text = text_at(source)
        client.open(text)
        lenses = client.of("codeLens")
        rows = [json.loads(it) for it in subprocess.run([PROGRAM, "cover", "--json", source, os.devnull, "200"], capture_output=True, text=True, check=True).stdout.splitlines()]
        lines = [it for it in rows if it["kind"] == "line" and it["count"] is not None]
        total = rows[-1]["cycles"]
        with self.subTest("lenses stand at routines"):
            self.assertEqual([text.split("\n")[it["range"]["start"]["line"]][:5] for it in lenses], ["START"])
        folds = {it["startLine"]: it["endLine"] for it in client.of("foldingRange")}
        for it in lenses:
            first = it["range"]["start"]["line"]
            there = [one for one in lines if first < one["line"] <= folds[first] + 1]
            with self.subTest(f"the lens of line {first + 1}"):
                self.assertEqual(it["command"]["title"], f"executed {there[0]['count']} times, {sum(one['cycles'] for one in there)} of {total} cycles")
        with_feed = write(f"{self.room}/key echo.agc", text_at(f"{EXAMPLES}/key_echo.agc").encode())
        write(f"{self.room}/key echo.feed", text_at(f"{EXAMPLES}/key_echo.feed").encode())
        name = with_feed.lstrip("/").replace(" ", "%20")
        client.open(text_at(with_feed), name)
        [key] = [it for it in client.of("codeLens", name) if text_at(with_feed).split("\n")[it["range"]["start"]["line"]].startswith("KEY ")]
        with self.subTest("with the feed beside it"):
            self.assertFalse(key["command"]["title"].startswith("executed 0"), str(key))
        client.end()

    def test_forms(self):
        """Lines in columns: no word changes, and a second time nothing does."""
        client = Client()
        for source, _, _ in runs():
            text = text_at(source)
            client.open(text)
            made = with_edits(text, client.of("formatting", options={"tabSize": 8, "insertSpaces": True}))
            with self.subTest(f"{os.path.basename(source)} in columns"):
                self.assertEqual(image_of(write(f"{self.room}/formed.agc", made.encode()), self.room), image_of(source, self.room))
            with self.subTest("a second time"):
                self.assertEqual("\n".join(map(formed, made.split("\n"))), made)
        with self.subTest("labels, operators and operands"):
            self.assertEqual(formed("A CA B +1 # x"), "A       CA      B +1  # x")
        with self.subTest("a line that would be too long"):
            self.assertEqual(formed("A CA B #" + "x" * 112), "A CA B #" + "x" * 112)
        with self.subTest("fields"):
            self.assertEqual([it.text for it in Source(" CA B+1\t-1#c").of(0)], ["CA", "B+1", "-1", "#c"])
        client.end()

    def test_changes(self):
        """Changes by ranges, as clients send them, over characters of two units; a feed; flight sources; many findings."""
        client = Client()
        client.open("# 🚀\n        SETLOC  4000\n        CA      FIV\nFIVE    OCT     5\n")
        change = {"range": {"start": {"line": 2, "character": 19}, "end": {"line": 2, "character": 19}}, "text": "E"}
        comment = {"range": {"start": {"line": 0, "character": 2}, "end": {"line": 0, "character": 4}}, "text": "ok"}
        client.tell("textDocument/didChange", {"textDocument": {"uri": "file:///a.agc", "version": 2}, "contentChanges": [change, comment]})
        with self.subTest("after changes by ranges"):
            self.assertEqual([it["code"] for it in client.published() if it["severity"] == 1], [])
        client.tell("textDocument/didOpen", {"textDocument": {"uri": "file:///a.feed", "languageId": "agc-feed", "version": 1, "text": "10 CHAN 015 00021\n5 CHAN 015 1\n9 TIME6 PINC\n"}})
        found = client.published("a.feed")
        with self.subTest("a feed"):
            self.assertTrue(found and all(it["code"].startswith("E3") for it in found), str(found))
        flown = "        SETLOC  4000\nX       2DEC    .5\n"
        [it] = client.open(flown, "b.agc")
        with self.subTest("what --flight takes"):
            self.assertTrue(it["code"] == "E15" and it["message"].endswith("\nwith --flight this is taken"), str(it))
        whole = {"start": {"line": 0, "character": 0}, "end": {"line": 9, "character": 0}}
        [action] = client.of("codeAction", "b.agc", range=whole, context={"diagnostics": []})
        flown = with_edits(flown, action["edit"]["changes"]["file:///b.agc"])
        with self.subTest("a flight source"):
            self.assertEqual([it["code"] for it in client.open(flown, "b.agc") if it["severity"] == 1], [])
        client.tell("workspace/didChangeConfiguration", {"settings": {"agcws": {"flight": True}}})
        client.open(flown.split("\n", 1)[1], "flown.agc")
        with self.subTest("by a setting"):
            self.assertEqual([it["code"] for it in client.open(flown.split("\n", 1)[1], "flown.agc") if it["severity"] == 1], [])
        client.tell("workspace/didChangeConfiguration", {"settings": {"agcws": {}}})
        with self.subTest("a feed in a source's place"):
            self.assertIn("this is a feed, and no source", client.open("5 TIME1 PINC\n", "feed.agc")[-1]["message"])
        many = client.open("        SETLOC  4000\n" + "        CA      NONE\n" * 600, "c.agc")
        with self.subTest("many findings"):
            self.assertTrue(len(many) == 200 and " more are found below" in many[-1]["message"], f"{len(many)} {many[-1]['message']}")
        began = time.monotonic()
        client.open("x" * (10 << 20), "d.agc")
        with self.subTest("10 MB without a line"):
            self.assertTrue(time.monotonic() - began < SECONDS)
        client.end()

    def test_hostile_frames(self):
        """Whatever a client sends, it is answered as the protocol says, and the server goes on."""
        early = Client.__new__(Client)
        early.start()
        for method in ("textDocument/hover", "shutdown"):
            with self.subTest(f"{method} before initialize"):
                self.assertEqual(early.ask(method, {})["error"]["code"], -32002)
        early.tell("exit", None)
        with self.subTest("its end"):
            self.assertEqual(early.ran.wait(SECONDS), 1)
        client = Client()
        for text, number in (
            (b"Content-Length: 7\r\n\r\n{\"id\":1", -32700), (b"Content-Length: abc\r\n\r\n", -32700), (b"Content-Length: 2\r\n\r\n[]", -32600), (b"Content-Length: 4\r\n\r\nnull", -32700),
            (b'Content-Length: 20\r\n\r\n{"id":5,"method":17}', -32600),
        ):
            client.send(text)
            with self.subTest(f"the answer to {text[-24:]!r}"):
                self.assertEqual(client.next()["error"]["code"], number)
        with self.subTest("a method that is not known"):
            self.assertEqual(client.ask("textDocument/none", {})["error"]["code"], -32601)
        for method in ("hover", "rename", "completion", "codeAction", "formatting", "definition", "inlayHint"):
            with self.subTest(f"{method} without params"):
                self.assertIn(client.ask(f"textDocument/{method}", {})["error"]["code"], (-32602, -32803))
        with self.subTest("a second initialize"):
            self.assertEqual(client.ask("initialize", {})["error"]["code"], -32601)
        client.tell("textDocument/didChange", {"textDocument": {"uri": "file:///none", "version": 2}, "contentChanges": [{"text": ""}]})
        client.send(b"Content-Length: %d\r\n\r\n" % (100 << 20) + b'{"id":77,"method":"textDocument/hover",' + b" " * ((100 << 20) - 39))
        with self.subTest("100 MB"):
            self.assertEqual(client.next()["error"]["code"], -32600)
        client.tell("$/cancelRequest", {"id": 900})
        client.write({"id": 900, "method": "textDocument/documentSymbol", "params": {"textDocument": {"uri": "file:///none"}}})
        with self.subTest("a request that is cancelled"):
            self.assertEqual(client.next()["error"]["code"], -32800)
        client.tell("$/cancelRequest", {"id": "never asked"})
        client.tell("$/cancelRequest", [])
        with self.subTest("the memory that this took"):
            self.assertTrue(kilobytes_of(client.ran.pid) < 300_000, f"{kilobytes_of(client.ran.pid)} KB")
        with self.subTest("after all that"):
            self.assertEqual(client.ask("shutdown", None).get("result", 1), None)
        with self.subTest("a request after shutdown"):
            self.assertEqual(client.ask("textDocument/hover", {})["error"]["code"], -32600)
        client.tell("exit", None)
        with self.subTest("the end"):
            self.assertEqual(client.ran.wait(SECONDS), 0)
        for text in (b"", b"Content-Le", b'Content-Length: 50\r\n\r\n{"id": 1, "method"'):
            rude = Client()
            rude.send(text)
            rude.ran.stdin.close()
            with self.subTest(f"a client that leaves after {text!r}"):
                self.assertEqual(rude.ran.wait(SECONDS), 1)

    def test_orphans(self):
        """A server that is killed while the program is at work leaves no process."""
        client = Client(steps=1_000_000)
        client.tell("textDocument/didOpen", {"textDocument": {"uri": "file:///a.agc", "languageId": "agc", "version": 1, "text": "        CA      X\n" * 400_000}})
        last = time.monotonic() + SECONDS
        while not (left := children_of(client.ran.pid)) and time.monotonic() < last:
            time.sleep(0.005)
        with self.subTest("the program is at work"):
            self.assertTrue(left)
        client.ran.kill()
        client.ran.wait(SECONDS)
        with self.subTest("no process is left"):
            self.assertTrue(are_gone(left), str(left))

    def try_editor(self, name, words, package, **environment):
        """An editor that is there tells what it is to tell, and leaves no server behind."""
        if not shutil.which(words[0]):
            self.skipTest(f"{name} is not there: apt install {package}")
        source = write(f"{self.room}/faulty.agc", FAULTY.encode())
        ran = subprocess.run([*words, source], capture_output=True, text=True, timeout=120, check=False, cwd=self.room, env={**os.environ, "HOME": self.room, **environment})
        if "Cannot open load file" in ran.stderr:
            self.skipTest(f"{name} has no client: apt install {package}")
        lines = ran.stdout.splitlines()
        with self.subTest(f"what {name} tells"):
            self.assertEqual([it for it in TOLD if it in lines], TOLD, f"{ran.stdout}\n{ran.stderr[-2000:]}")
        left = subprocess.run(["pgrep", "-f", f"{VIEWS}/lsp"], capture_output=True, text=True, check=False).stdout
        with self.subTest(f"servers that {name} leaves"):
            self.assertEqual(left, "")

    def test_emacs_by_eglot(self):
        init = init_of("With eglot", f"{self.room}/eglot.el")
        self.try_editor("Emacs", ["emacs", "--batch", "-l", f"{VIEWS}/editors/emacs/check-lsp.el", VIEWS], "emacs-nox elpa-eglot", INIT=init)

    def test_emacs_by_lsp_mode(self):
        init = init_of("With lsp-mode", f"{self.room}/lsp-mode.el")
        self.try_editor("Emacs by lsp-mode", ["emacs", "--batch", "-l", f"{VIEWS}/editors/emacs/check-lsp-mode.el", VIEWS], "emacs-nox elpa-lsp-mode", INIT=init)

    def test_neovim(self):
        init = init_of("In `init.lua`", f"{self.room}/init.lua")
        self.try_editor("Neovim", ["nvim", "--headless", "-u", init, "-c", f"luafile {VIEWS}/editors/vim/check-lsp.lua"], "neovim")

    def test_vscode(self):
        """The package of VS Code: packed twice it is the same, its files are there, and its client does with a stand-in for VS Code what editors do."""
        package = [f"{self.room}/one.vsix", f"{self.room}/two.vsix"]
        for it in package:
            subprocess.run([f"{VIEWS}/editors/make", "--vsix", it], check=True)
        with open(package[0], "rb") as one, open(package[1], "rb") as two:
            with self.subTest("a package that is made twice"):
                self.assertEqual(one.read(), two.read())
        with zipfile.ZipFile(package[0]) as packed:
            names = packed.namelist()
            packed.extractall(f"{self.room}/unpacked")
            about = json.loads(packed.read("extension/package.json"))
            manifest = ElementTree.fromstring(packed.read("extension.vsixmanifest"))
            ElementTree.fromstring(packed.read("[Content_Types].xml"))
        [identity] = manifest.iter("{http://schemas.microsoft.com/developer/vsx-schema/2011}Identity")
        with self.subTest("what it says of itself"):
            self.assertEqual((identity.get("Id"), identity.get("Version")), (about["name"], about["version"]))
        wanted = [about["main"], about["contributes"]["grammars"][0]["path"], about["contributes"]["languages"][0]["configuration"], about["contributes"]["debuggers"][0]["program"]]
        with self.subTest("its files are there"):
            self.assertTrue({f"extension/{it[2:]}" for it in wanted} <= set(names), str(names))
        if not shutil.which("node"):
            self.skipTest("node is not there, which runs the client of VS Code: apt install nodejs")
        source = write(f"{self.room}/faulty.agc", FAULTY.encode())
        for name in (f"{VIEWS}/editors/vscode", f"{self.room}/unpacked/extension"):
            ran = subprocess.run(["node", f"{VIEWS}/editors/vscode/check-extension.js", f"{name}/extension.js", source], capture_output=True, text=True, timeout=120, check=False, env={**os.environ, "AGCWS": PROGRAM})
            lines = ran.stdout.splitlines()
            wanted = [*[it for it in TOLD if it.startswith("mark")], "definition 3", "renamed 2", "refused line 8 has the label FIVE already", "hover true", "symbols START FIVE", "after a change true", "lenses 0", "ended"]
            with self.subTest(f"what {os.path.basename(name)} tells"):
                self.assertEqual([it for it in lines if it in wanted], wanted)
            with self.subTest("its actions"):
                self.assertTrue(any(it.startswith("actions") and "E17: FIVE" in it and "E15: TCF" in it for it in lines), ran.stdout + ran.stderr[-1000:])

    def test_schema(self):
        """The package's JSON has the keys and the types of the published schema."""
        about = json.loads(text_at(f"{VIEWS}/editors/vscode/package.json"))
        with self.subTest("keys of the package"):
            self.assertEqual(set(about) - MANIFEST, set())
        with self.subTest("its categories"):
            self.assertTrue(set(about["categories"]) <= CATEGORIES and re.fullmatch(r"\^\d+\.\d+\.\d+", about["engines"]["vscode"]) and re.fullmatch(r"\d+\.\d+\.\d+", about["version"]) and re.fullmatch("[a-z0-9-]+", about["name"]))
        with self.subTest("when it starts"):
            self.assertTrue(all(re.fullmatch(r"onLanguage:[a-z]+|onDebug(Resolve:[a-z]+)?", it) for it in about["activationEvents"]))
        given = about["contributes"]
        with self.subTest("what it contributes"):
            self.assertEqual(set(given) - {*CONTRIBUTED, "configuration"}, set())
        for name, keys in CONTRIBUTED.items():
            with self.subTest(f"keys of {name}"):
                self.assertEqual({key for it in given[name] for key in it} - keys, set())
        with self.subTest("keys of the matcher"):
            self.assertEqual((set(given["problemMatchers"][0]["pattern"]) - PATTERN, all(isinstance(it, int) for key, it in given["problemMatchers"][0]["pattern"].items() if key != "regexp")), (set(), True))
        for name, it in given["configuration"]["properties"].items():
            with self.subTest(f"the setting {name}"):
                self.assertTrue(set(it) == {"type", "default", "description"} and isinstance(it["default"], PYTHON[it["type"]]) and (it["type"] == "boolean") == isinstance(it["default"], bool))
        for name, it in given["debuggers"][0]["configurationAttributes"]["launch"]["properties"].items():
            with self.subTest(f"the attribute {name}"):
                self.assertTrue(set(it) <= {"type", "description", "enum", "default"} and it["type"] in PYTHON)
        configured = json.loads(text_at(f"{VIEWS}/editors/vscode/language-configuration.json"))
        with self.subTest("what configures the language"):
            self.assertTrue(set(configured) <= {"comments", "brackets", "autoClosingPairs", "surroundingPairs", "wordPattern", "folding", "indentationRules", "onEnterRules", "colorizedBracketPairs"})
        subprocess.run([f"{VIEWS}/editors/make", "--grammar", f"{self.room}/grammar.json"], check=True)
        grammar = json.loads(text_at(f"{self.room}/grammar.json"))
        with self.subTest("the grammar"):
            self.assertTrue(set(grammar) <= {"$schema", "name", "scopeName", "fileTypes", "patterns", "repository", "foldingStartMarker", "foldingStopMarker", "firstLineMatch", "uuid", "information_for_contributors", "version"}, str(set(grammar)))


if __name__ == "__main__":
    unittest.main()
