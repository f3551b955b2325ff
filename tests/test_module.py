"""Compares the module of the program with the native program, byte for byte: exit status, both outputs, and the files that are written.

The module is AGCWS_MODULE, or it is made first, in out/module: of the proved program's bitcode where a build has kept it, else of the quick program's. Tried are

- what tests of the program try, with the module in its place, but for what no page has: devices, links, terminals, signals. Rows are tried always, the others with AGCWS_ALL
- images, wrong files, wrong words, help, and each refusal and warning explained
- sessions of random commands, hostile inputs (hostile/cases.py), the heap and arithmetic of 128 bits, by AGCWS_SEED: with AGCWS_ALL ten times as many
- the greatest sources and feeds (bench/inputs.py), memory that is refused, and wrong hosts, each of which one of these calls has to tell
- a page from the disk in Chromium, Firefox and WebKit

What is not installed is told, with how it is had.
"""
import base64
import fcntl
import functools
import glob
import hashlib
import http.server
import importlib.machinery
import importlib.util
import json
import os
import random
import re
import shutil
import subprocess
import sys
import tempfile
import threading
import time
import unittest
from unittest import mock

from common import EXAMPLES, PROGRAM, ROOT, TESTS, Case, read, rows_of_runs, write
import one_file
import released
import session

PAGES = f"{ROOT}/page"
COMMAND = f"{PAGES}/module/command.js"
# Of what a module is made beside its bitcode.
SCRIPTS = [f"{PAGES}/module/{it}" for it in ("build.py", "layer.c", "retarget.py")]
MOST_MEMORY = 1 << 28
# The most seconds of a page in a browser, and of a call: many times what they take, since a machine may be busy.
MOST_SECONDS_OF_PAGE, MOST_SECONDS_OF_CALL = 900, 300
# Whether more is tried, and by which seed.
ALL, SEED = bool(os.environ.get("AGCWS_ALL")), os.environ.get("AGCWS_SEED", time.strftime("%Y-%m-%dT%H:%M:%S"))


def pack():
    """Returns the script gate/pack as a module of Python, which needs the toolchain."""
    import importlib.machinery
    import importlib.util

    loader = importlib.machinery.SourceFileLoader("pack", f"{ROOT}/gate/pack")
    made = importlib.util.module_from_spec(importlib.util.spec_from_loader("pack", loader))
    loader.exec_module(made)
    return made


def made_module():
    """Returns the file of the module: of the proved program's bitcode, where a build has kept that; else the release's, where it was made of these sources; else
    the quick program's. Several processes may ask for it."""
    packing = pack()
    kept = packing.toolchain.bitcode(packing.program_crate())
    sources = [kept] if kept else sorted(glob.glob(f"{ROOT}/crates/*/src/**/*.rt", recursive=True))
    key = hashlib.sha256(b"".join(hashlib.sha256(read(it)).digest() for it in sources + SCRIPTS)).hexdigest()[:16]
    folder = f"{ROOT}/out/module"
    os.makedirs(folder, exist_ok=True)
    made = f"{folder}/{key}.wasm"
    with open(f"{folder}/lock", "w", encoding="utf-8") as lock:
        fcntl.flock(lock, fcntl.LOCK_EX)
        if not os.path.exists(made):
            for it in glob.glob(f"{folder}/*.wasm"):
                os.remove(it)
            if not kept and (given := released.current_module()):
                return write(made, given)
            with tempfile.TemporaryDirectory(prefix="agcws-module-") as room:
                shutil.copy(packing.make_module(room, room, bool(kept)), made)
    return made


@functools.cache
def module_file():
    """The file of the module. Skips the tests where there is none."""
    if not shutil.which("node"):
        raise unittest.SkipTest("node is not there: apt-get install nodejs")
    if given := os.environ.get("AGCWS_MODULE"):
        return os.path.abspath(given)
    import build

    if why := build.missing():
        raise unittest.SkipTest(f"the module cannot be made, since {why}")
    return made_module()


def about(path):
    """Returns what the file of a module says of itself."""
    return released.about(read(path))


class Module:
    """The module in a process of node, which takes call after call, one at a time."""

    begun = []

    def __init__(self, path, command=COMMAND):
        Module.begun.append(self)
        self.is_free = threading.Lock()
        self.ran = subprocess.Popen(["node", command, "--calls", path], stdin=subprocess.PIPE, stdout=subprocess.PIPE)

    def call(self, words, folder, given=b"", most=MOST_MEMORY):
        """What the program answers in a folder: its status, its output and its error output. What the engine refuses is an error output of its own."""
        line = {"words": list(words), "folder": folder, "input": base64.b64encode(given).decode(), "most": most}
        # (parts of tests/test_documents.py call side by side)
        with self.is_free:
            self.ran.stdin.write(json.dumps(line).encode() + b"\n")
            self.ran.stdin.flush()
            answer = json.loads(self.ran.stdout.readline())
        errors = base64.b64decode(answer["errors"])
        return answer["status"], base64.b64decode(answer["output"]), errors + answer["failed"].encode()

    def end(self):
        self.ran.kill()
        self.ran.wait()


def natively(words, folder, given=b""):
    """What the native program answers in a folder."""
    ran = subprocess.run([PROGRAM, *words], cwd=folder, input=given, capture_output=True, timeout=MOST_SECONDS_OF_CALL)
    return ran.returncode, ran.stdout, ran.stderr


class Sides:
    """The native program and the module, each in a folder of its own with the same files."""

    def __init__(self, test, room=None, command=COMMAND):
        self.test, self.module, self.room, self.wrong, self.count = test, Module(test.module, command), room or test.room, [], 0

    def answer(self, side, call, files):
        folder = f"{self.room}/{side}"
        shutil.rmtree(folder, ignore_errors=True)
        os.mkdir(folder)
        for name, content in files.items():
            write(f"{folder}/{name}", content)
        answer = call(folder)
        return *answer, {name: read(f"{folder}/{name}") for name in sorted(os.listdir(folder))}

    def compare(self, words, files=None, given=b""):
        """Compares what both answer, and returns the native answer."""
        native = self.answer("native", lambda it: natively(words, it, given), files or {})
        got = self.answer("module", lambda it: self.module.call(words, it, given), files or {})
        self.count += 1
        if native != got:
            self.wrong.append(f"{' '.join(words)} {given[:60]!r}: {different(native, got)}")
        return native

    def tell(self, label):
        """Tells what came of the comparisons so far."""
        with self.test.subTest(f"{label}, {len(self.wrong)} of {self.count}"):
            self.test.assertTrue(self.count and not self.wrong, "; ".join(self.wrong[:3]))
        print(f"{label}: {self.count} calls compared", flush=True)
        self.wrong, self.count = [], 0


def example_files():
    """The examples that are run: the name, the source, the feed and the steps of each."""
    for name, feed, steps in rows_of_runs():
        yield name, read(f"{EXAMPLES}/{name}.agc"), read(f"{EXAMPLES}/{feed}"), int(steps)


def different(native, got):
    """Returns what differs of two answers."""
    for name, one, other in zip(("status", "output", "errors", "files"), native, got):
        if one != other:
            return f"{name}: natively {one!r:.200}, by the module {other!r:.200}"
    return "nothing"


def compare_in_place(both):
    """An image is written to its place itself where all names of drafts are taken: of what stood there, and was longer, nothing stays."""
    drafts = {f"made.rope.part{number}": b"" for number in range(100)}
    both.compare(["asm", "my.agc", "made.rope"], {"my.agc": read(f"{EXAMPLES}/lost_sum.agc"), "made.rope": b"old " * 20000, **drafts})


IMAGE_CALLS = [
    it.split()
    for it in """words IT;words --source IT;words --parity ignore IT;words --form hardware IT;words --symbols my.lst IT;words --symbols bad.lst IT;words --where IT;sums IT
sums --forms IT;parity IT;compare a.rope IT;compare IT b.rope;compare --only my.agc IT;run --image IT empty 100;upgrade IT new.rope;upgrade IT IT;upgrade IT ./a.rope""".replace("\n", ";").split(";")
]
# Lines of sessions, in which a word in capitals is some such thing.
LINES = """run COUNT;run COUNT;run MANY;step;step COUNT;back;back COUNT;back MANY;goto STEP;on COUNT;over COUNT;out COUNT;until MANY;regs;regs all;mem PLACE;mem PLACE COUNT;mem NUMBER NUMBER
chan NUMBER;last PLACE;sym NAME;changed STEP;tail;tail COUNT;break at PLACE;break word PLACE NUMBER;break chan NUMBER NUMBER;break change PLACE;break exec NAME;seek;clear;inputs;why;why PLACE
why PLACE COUNT;trace COUNT;where;list;list PLACE COUNT;value PLACE COUNT;find NAME;echo NAME;help;state;add MANY TIME1 PINC;add MANY CHAN 015 NUMBER;add MANY RUPT 3;feed;COUNT;NAME""".replace("\n", ";").split(";")
NAMES = "A L Q Z EBANK FBANK BBANK TIME1 TIME3 START SUM COUNT TABLE ONE NONE MAIN LOOP DONE".split()


def some_lines(chance, names):
    """A session of random lines, of which a few are broken."""
    things = {
        "COUNT": lambda: str(chance.choice((0, 1, 2, 3, 7, 20, 60))), "MANY": lambda: str(chance.choice((100, 700, 5000, 99999))), "STEP": lambda: str(chance.randrange(400)),
        "NAME": lambda: chance.choice(names), "NUMBER": lambda: f"{chance.randrange(0o40):o}",
        "PLACE": lambda: chance.choice((chance.choice(names), f"{chance.randrange(0o10000):o}", f"02,{chance.randrange(0o4000, 0o4200):o}", f"E3,{chance.randrange(0o1400, 0o2000):o}", "CH012")),
    }
    lines = []
    for _ in range(chance.randrange(5, 60)):
        line = re.sub(r"\b[A-Z]{4,6}\b", lambda it: things[it[0]]() if it[0] in things else it[0], chance.choice(LINES)).encode()
        if chance.randrange(25) == 0:
            at = chance.randrange(len(line) + 1)
            line = line[:at] + bytes([chance.randrange(1, 256)]) + line[at + chance.randrange(2) :]
        lines.append(line)
    return b"\n".join(lines) + b"\n" * chance.randrange(2)


def sessions(count, seed):
    """Random sessions: the words of each, its files and its input."""
    chance, runs = random.Random(f"sessions {seed}"), [*example_files(), ("mix", read(f"{ROOT}/bench/mix.agc"), b"", 0)]
    for _ in range(count):
        _, source, feed, _ = chance.choice(runs)
        names = NAMES + re.findall(r"^([A-Z][A-Z0-9]*)\b", source.decode("latin-1"), re.M)
        yield ["debug", "--extended", "my.agc", "my.feed"], {"my.agc": source, "my.feed": feed}, some_lines(chance, names)


def compare_last_lines(both):
    """The last line of a session is answered, whether a newline ends it or not."""
    files = {"my.agc": read(f"{EXAMPLES}/lost_sum.agc"), "my.feed": read(f"{EXAMPLES}/lost_sum.feed")}
    for lines in (b"regs", b"run 20\nwhy A", b"run 20\nback 3\n", b"run 20\n\nregs all"):
        both.compare(["debug", "--extended", "my.agc", "my.feed"], files, lines)


# Wrong hosts: what each does, what stands in host.js in place of what, and what tells it.
MUTANTS = [
    ("a file keeps what it held where it is to be made empty", "if (flags & Linux.O_TRUNC) {", "if (flags & 0) {", compare_in_place),
    ("a last line without a newline is dropped", "const bytes = input(Number(count));", "const all = input(Number(count)), bytes = all.subarray(0, all.lastIndexOf(10) + 1);", compare_last_lines),
    ("a file that was written is not handed on", "file.isWritten ||= (flags & Linux.O_ACCESS) !== 0;", "file.isWritten ||= false;", compare_in_place),
]
# Takes blocks, makes them larger and smaller and gives them back, as lines say: NUMBER SIZE, where a size of 0 gives one back. Each is filled with its own bytes,
# which are there until the end; and when all are given back, one of nearly all the memory is had without more.
MOVED = """
const fs = require('fs'), imports = new Proxy({}, {get: () => () => 0n});
const it = new WebAssembly.Instance(new WebAssembly.Module(fs.readFileSync(process.argv[1])), {host: imports}).exports;
for (const name of process.argv.slice(2)) {
    const bytes = new Uint8Array(it.memory.buffer, 4096, 256).map((_, i) => i + 1 & 255);
    new Uint8Array(it.memory.buffer).set(bytes, 4096);
    it[name](4099n, ...(name.startsWith('copy') ? [4201n] : []));
    console.log(Buffer.from(it.memory.buffer, 4096, 256).toString('hex'));
}
"""
HEAP = """
const fs = require('fs'), imports = new Proxy({}, {get: () => () => 0n});
const it = new WebAssembly.Instance(new WebAssembly.Module(fs.readFileSync(process.argv[1])), {host: imports}).exports;
const blocks = new Map(), ANSWER = 16n, wrong = [];
const taken = () => {
    const [isTaken, at] = new BigUint64Array(it.memory.buffer, Number(ANSWER), 2);
    return isTaken && at % 16n === 0n ? Number(at) : wrong.push('refused');
};
const bytes = (at, size) => new Uint8Array(it.memory.buffer, at, size);
let number = 0, most = 0, used = 0;
for (const line of fs.readFileSync(0, 'utf8').trim().split('\\n')) {
    const [name, size] = line.split(' ').map(Number), old = blocks.get(name), mark = ++number % 251;
    if (old && bytes(old.at, old.size).some(byte => byte !== old.mark)) {
        wrong.push(`changed ${name}`);
    }
    used += size - (old?.size ?? 0);
    most = Math.max(most, used);
    if (size === 0) {
        it.rattle_dealloc(BigInt(old?.at ?? 0));
        blocks.delete(name);
        continue;
    }
    if (old) {
        it.rattle_realloc(ANSWER, BigInt(old.at), BigInt(old.size), BigInt(size), 8n);
    } else {
        it.rattle_alloc(ANSWER, BigInt(size), 8n);
    }
    const at = taken(), kept = Math.min(old?.size ?? 0, size);
    if (bytes(at, kept).some(byte => byte !== old.mark)) {
        wrong.push(`moved ${name}`);
    }
    bytes(at, size).fill(mark);
    blocks.set(name, {at, size, mark});
}
const all = it.memory.buffer.byteLength;
[...blocks.values()].forEach(({at}) => it.rattle_dealloc(BigInt(at)));
it.rattle_alloc(ANSWER, BigInt(all - 131072), 8n);
taken();
console.log(JSON.stringify({wrong: wrong.slice(0, 3), grown: it.memory.buffer.byteLength - all, share: all / most}));
"""
# Calls the functions of the layer, for lines of their arguments, and answers a line each.
ARITHMETIC = """
const fs = require('fs'), imports = new Proxy({}, {get: () => () => 0n});
const module = new WebAssembly.Module(fs.readFileSync(process.argv[1]));
const it = new WebAssembly.Instance(module, {host: imports}).exports;
const halves = at => new BigUint64Array(it.memory.buffer, at, 2);
const out = [];
for (const line of fs.readFileSync(0, 'utf8').trim().split('\\n')) {
    const [name, a, b] = line.split(' '), [x, y] = [BigInt(a), BigInt(b)], mask = (1n << 64n) - 1n;
    const second = name.endsWith('shlti3') || name.endsWith('shrti3') ? [Number(y)] : [y & mask, y >> 64n];
    it[name](16n, x & mask, x >> 64n, ...second);
    const [low, high] = halves(16);
    out.push(low | high << 64n);
}
console.log(out.join('\\n'));
"""
# Unpacks lines of base64, and answers each by the sum of what it was, or why it was refused.
UNPACKED = """
const fs = require('fs'), {createHash} = require('crypto');
import(process.argv[1]).then(({unpacked}) => {
    const out = fs.readFileSync(0, 'utf8').split('\\n').map(line => {
        try {
            return createHash('sha256').update(unpacked(new Uint8Array(Buffer.from(line, 'base64')))).digest('hex');
        } catch (error) {
            return `${error.message}`;
        }
    });
    console.log(out.join('\\n'));
});
"""


class Answers:
    """A server on this machine alone that takes what a page hands on; take returns whether that is the last."""

    def __init__(self):
        self.got, self.body, self.take = threading.Event(), None, lambda body: True
        answers = self

        class Handler(http.server.BaseHTTPRequestHandler):
            def do_POST(self):
                body = self.rfile.read(int(self.headers["Content-Length"]))
                is_last = answers.take(body)
                self.send_response(204)
                self.end_headers()
                if is_last:
                    answers.body = body
                    answers.got.set()

            def log_message(self, *_):
                pass

        self.server = http.server.HTTPServer(("127.0.0.1", 0), Handler)
        threading.Thread(target=self.server.serve_forever, daemon=True).start()
        self.address = f"http://127.0.0.1:{self.server.server_port}/"

    def wait(self):
        """Returns what came last, or None."""
        self.got.wait(MOST_SECONDS_OF_PAGE)
        self.server.shutdown()
        self.server.server_close()
        return self.body


PAGE = """<!doctype html>
<html lang="en">
<meta charset="utf-8">
<title>The engine, tried</title>
<script type="text/plain" id="agcws-module">{module}</script>
<script type="application/json" id="cases">{cases}</script>
<script type="module">{script}</script>
</html>
"""


def packed(it):
    return base64.b64encode(it).decode()


def page_cases(room):
    """The cases of a page, and what the native program answers to each."""
    folder, chance = f"{room}/page", random.Random("page")
    os.mkdir(folder)
    for number, (name, source, feed, steps) in enumerate(example_files()):
        few = str(min(steps, 200))
        files = {"my.agc": source, "my.feed": feed}
        for words in (["run", "--end", "--notes", "my.agc", "my.feed", str(steps)], ["asm", "my.agc", "made.rope"], ["check", "my.agc", "my.feed"], ["cover", "my.agc", "my.feed", few], ["trace", "my.agc", "my.feed", few]):
            yield call_case(folder, words, files)
        lines = ["run " + few, "back 1", "where", "why A", "regs", "back 5\nstep", "help", "bogus", "why 1", f"run {steps}", f"back {steps // 2}", "regs all", "state\nlist", "quit", "regs"]
        for words in (["debug"], ["debug", "--extended"]):
            yield session_case(folder, [*words, "my.agc", "my.feed"], files, lines, number % 3 == 0)
    for words, files, lines in sessions(20, "page"):
        yield call_case(folder, words, files, lines)
    for _, words in zip(range(30), IMAGE_CALLS * 2):
        content = chance.randbytes(73728)
        yield call_case(folder, [it if it != "IT" else "b.rope" for it in words], {"a.rope": content[::-1], "b.rope": content, "my.lst": b"FIVE 02,4005\n", "bad.lst": b"no\n", "empty": b"", "my.agc": b" OCT 1\n"})
    for words in ([], ["--version"], ["--help"], ["bogus"], ["explain", "E14"], ["check", "none.agc"], ["asm", "my.agc", "none/made.rope"]):
        yield call_case(folder, words, {"my.agc": "# \u00e9\n OCT 1\n".encode()})


def settled(folder, files):
    """Makes a folder hold some files and nothing else."""
    shutil.rmtree(folder)
    os.mkdir(folder)
    for name, content in files.items():
        write(f"{folder}/{name}", content)


def call_case(folder, words, files, given=b""):
    settled(folder, files)
    status, out, err = natively(words, folder, given)
    written = {name: read(f"{folder}/{name}") for name in os.listdir(folder)}
    changed = {name: packed(it) for name, it in written.items() if files.get(name) != it}
    case = {"words": words, "files": {name: packed(it) for name, it in files.items()}, "input": packed(given), "options": {}}
    return case, {"status": status, "output": packed(out), "errors": packed(err), "files": changed, "stopped": False, "failed": ""}


def session_case(folder, words, files, lines, replays):
    """A session line by line: what each line is answered is what more is answered to all lines up to it."""
    settled(folder, files)
    replies, before = [{"output": "", "errors": ""}], b""
    for count in range(1, len(lines) + 1):
        status, out, err = natively(words, folder, "".join(f"{it}\n" for it in lines[:count]).encode())
        replies.append({"output": packed(out[len(before) :]), "errors": packed(err)})
        before = out
        if lines[count - 1] == "quit":
            break
    case = {"words": words, "files": {name: packed(it) for name, it in files.items()}, "lines": lines, "options": {}, "replays": replays}
    return case, {"status": status, "files": {}, "stopped": False, "failed": "", "replies": replies}


def chromium(room, page):
    words = "--headless=new --no-sandbox --disable-gpu --no-first-run --disable-background-networking --disable-dev-shm-usage".split()
    return ["chromium", *words, f"--user-data-dir={room}/profile", page], {}


def firefox(room, page):
    os.mkdir(f"{room}/profile")
    return ["firefox-esr", "--headless", "--no-remote", "--profile", f"{room}/profile", page], {"MOZ_HEADLESS": "1"}


MINI_BROWSERS = [f"/usr/lib/x86_64-linux-gnu/webkit2gtk-{it}/MiniBrowser" for it in ("4.1", "4.0")] + ["/usr/lib/x86_64-linux-gnu/webkitgtk-6.0/MiniBrowser"]


def webkit(room, page):
    browser = next(it for it in MINI_BROWSERS if os.path.exists(it))
    env = {"WEBKIT_DISABLE_COMPOSITING_MODE": "1", "WEBKIT_DISABLE_SANDBOX_THIS_IS_DANGEROUS": "1", "GDK_BACKEND": "x11"}
    return ["xvfb-run", "-a", browser, page], env


BROWSERS = {
    "chromium": (chromium, "chromium", lambda: shutil.which("chromium")),
    "firefox": (firefox, "firefox-esr", lambda: shutil.which("firefox-esr")),
    "webkit": (webkit, "webkit2gtk-driver xvfb xauth", lambda: shutil.which("xvfb-run") and any(map(os.path.exists, MINI_BROWSERS))),
}


def end(ran):
    """Ends what was started, with all that it has started."""
    os.killpg(ran.pid, 15)
    try:
        ran.wait(10)
    except subprocess.TimeoutExpired:
        os.killpg(ran.pid, 9)
        ran.wait()


def differing(wanted, got):
    """Returns which fields of a page's answer differ, and how."""
    return {it: (f"{wanted.get(it)!s:.120}", f"{got.get(it)!s:.120}") for it in wanted if wanted[it] != got.get(it)}


class ModuleCase(Case):
    """Tests of the module."""

    @classmethod
    def setUpClass(cls):
        super().setUpClass()
        cls.module = module_file()
        is_proved = about(cls.module)["proved"]
        print(f"{cls.__name__}: the module of the {'proved' if is_proved else 'quick, unproved'} program, {os.path.getsize(cls.module)} bytes, by AGCWS_SEED={SEED}", flush=True)

    @classmethod
    def tearDownClass(cls):
        while Module.begun:
            Module.begun.pop().end()
        super().tearDownClass()


class Refusals(ModuleCase):
    """Images that are whole, wrong, short, long, or none; wrong words; and all that explains a refusal."""

    def test_images_files_and_words(self):
        """Images that are whole, wrong, short, long, or none; files that are none; words that are wrong; and all that explains a refusal."""
        both = Sides(self)
        asm = lambda name: both.compare(["asm", "my.agc", "made.rope"], {"my.agc": read(f"{EXAMPLES}/{name}.agc")})[3]["made.rope"]
        rope, other = asm("lost_sum"), asm("bank_sum")
        bad = bytes(it ^ (at in (777, 4242)) for at, it in enumerate(rope))
        files = {"a.rope": rope, "b.rope": other, "bad.rope": bad, "short.rope": rope[:1000], "long.rope": rope + b"x", "empty": b""}
        files |= {"my.lst": b"FIVE 02,4005\nSUM 100\n", "bad.lst": b"nonsense here now\n", "my.agc": read(f"{EXAMPLES}/lost_sum.agc")}
        for it in ("a.rope", "b.rope", "bad.rope", "short.rope", "long.rope", "none.rope", "none/none.rope", "my.agc/none", ".", "", "/dev/null"):
            for words in IMAGE_CALLS:
                both.compare([it if word == "IT" else word for word in words], files)
            both.compare(["asm", "my.agc", it], files)
            both.compare(["check", "my.agc", it], files)
            both.compare(["run", it, it, "3"], files)
            both.compare(["debug", it, "empty"], files, b"step 1\n")
        compare_in_place(both)
        both.tell("images and files")
        commands = "asm run trace cover debug check explain upgrade words compare sums parity help".split()
        for words in [[], ["--version"], ["-V"], ["--help"], ["bogus"], ["--bogus"], *([it, *more] for it in commands for more in ([], ["--help"], ["--bogus"], ["a", "b", "c", "d", "e"]))]:
            both.compare(words, files)
        for it in [f"{kind}{number}" for kind in ("E", "W", "") for number in range(64)]:
            both.compare(["explain", it])
        both.tell("words")


class Sessions(ModuleCase):
    """Sessions of random commands."""

    def test_sessions(self):
        both, most = Sides(self), 0
        compare_last_lines(both)
        for words, files, lines in sessions(2000 if ALL else 200, SEED):
            most = max(most, len(both.compare(words, files, lines)[1]))
        both.tell("sessions")
        with self.subTest("a session has replies"):
            self.assertTrue(most > 2000)


class Hostile(ModuleCase):
    """Hostile inputs of each kind."""

    def test_hostile(self):
        """Hostile inputs of each kind, each by a call of its own."""
        import cases

        if not shutil.which("cc"):
            self.skipTest("there is no C compiler cc: apt-get install gcc libc6-dev")
        cases.PROGRAM = PROGRAM
        os.mkdir(f"{self.room}/made")
        made = cases.Made(f"{self.room}/made")
        maker, both = cases.Maker(made, SEED), Sides(self)
        for kind in cases.KINDS:
            for number in range(2000 if ALL else 120):
                words, case = cases.any_call_of(kind, number), maker.case(kind, number)
                files = {"case": case, "rope": read(made.rope)} | ({"twin": maker.twin(kind, number, case)} if "twin" in words else {})
                both.compare([it.replace("/dev/zero", "rope") for it in words], files, read(made.commands) if "case" in words else case)
            both.tell(f"hostile: {kind}")


class Inputs(ModuleCase):
    """The greatest inputs."""

    def test_greatest(self):
        """The greatest sources and feeds."""
        import inputs

        both, comment = Sides(self), b"# what the next lines do\n"
        source, feed = inputs.source(65536).encode(), inputs.feed(65536).encode()
        faults = b" BOGUS 1\n" * 65536
        files = {"my.agc": source, "my.feed": feed, "bad.agc": faults, "loop.agc": read(f"{ROOT}/bench/loop.agc"), "mix.agc": read(f"{ROOT}/bench/mix.agc"), "empty": b""}
        for it in ("asm my.agc made.rope;check my.agc my.feed;check bad.agc;asm bad.agc made.rope;run --end --notes my.agc my.feed 300000;cover my.agc my.feed 300000;trace my.agc my.feed 60000;"
                   "run --end loop.agc empty 3000000;run --end mix.agc empty 3000000").split(";"):
            both.compare(it.split(), files)
        for lines in (65536, 65537):
            both.compare(["check", "my.agc"], {"my.agc": comment * lines})
        for size in (8388608, 8388609):
            both.compare(["check", "my.agc"], {"my.agc": comment[:-1] + b"\n" * (size - len(comment) + 1)})
        both.compare(["run", "my.agc", "my.feed", "5"], {"my.agc": b" SETLOC 4000\n", "my.feed": b"7 TIME1 PINC\n" * 65537})
        both.compare(["debug", "loop.agc", "empty"], files, b"x" * (16777216 - 8) + b"\nstep 1\n")
        both.compare(["debug", "--extended", "mix.agc", "empty"], files, b"run 1000000\nback 1\nback 700000\nwhy A 40\nbreak change 100\nseek\ngoto 999\nregs all\n")
        both.tell("greatest inputs")


class Memory(ModuleCase):
    """Memory that is refused, and the heap."""

    def test_less_and_less(self):
        """With less and less memory a call answers as with all of it, or refuses by itself; and it does both."""
        import inputs

        own, folder = Module(self.module), f"{self.room}/memory"
        os.mkdir(folder)
        write(f"{folder}/my.agc", inputs.source(16384).encode())
        write(f"{folder}/my.feed", inputs.feed(16384).encode())
        for it in ("check my.agc my.feed", "asm my.agc made.rope", "run my.agc my.feed 2000", "cover my.agc my.feed 2000", "trace my.agc my.feed 500"):
            wanted, refused, wrong = natively(it.split(), folder), 0, []
            for pages in [*range(33, 330, 9), 4096]:
                got = own.call(it.split(), folder, most=pages << 16)
                refused += got == (3, b"", b"agcws: E2\n")
                if got not in (wanted, (3, b"", b"agcws: E2\n")):
                    wrong.append((pages, got[0], got[1][:80], got[2][:200]))
            with self.subTest(f"{it} with less memory"):
                self.assertTrue(not wrong and wanted[0] == 0 and refused > 2 and got == wanted, f"{wrong[:2]} {refused} refused")
        lines = b"run 200000\nback 1\nback 150000\nregs\n" * 8
        write(f"{folder}/mix.agc", read(f"{ROOT}/bench/mix.agc"))
        words = ["debug", "mix.agc", "/dev/null"]
        with self.subTest("a session in 4 MB"):
            self.assertEqual(own.call(words, folder, lines, 4 << 20), natively(words, folder, lines))

    def test_heap(self):
        """The heap of the layer by SEED, with blocks of all sizes."""
        import build

        if why := build.missing():
            self.skipTest(why)
        chance = random.Random(f"heap {SEED}")
        build.layer_alone(f"{self.room}/layer.wasm", ["rattle_alloc", "rattle_realloc", "rattle_dealloc"])
        sizes = lambda: chance.randrange(1, 1 << chance.randrange(1, 21 if chance.randrange(20) == 0 else 12)) if chance.randrange(3) else 0
        lines = "".join(f"{chance.randrange(400)} {sizes()}\n" for _ in range(300000 if ALL else 30000))
        ran = subprocess.run(["node", "-e", HEAP, f"{self.room}/layer.wasm"], input=lines, capture_output=True, text=True, timeout=MOST_SECONDS_OF_CALL)
        got = json.loads(ran.stdout) if ran.returncode == 0 else {"wrong": ran.stderr[-400:]}
        with self.subTest("the heap keeps what it gives, and joins what it gets back"):
            self.assertTrue(got["wrong"] == [] and got["grown"] == 0, f"{got}")
        print(f"heap: {len(lines.splitlines())} rows, {got.get('share', 0):.2f} times what was taken at most at a time", flush=True)


class Mutants(ModuleCase):
    """Wrong hosts, each of which is told."""

    def test_mutants(self):
        """Each wrong host answers otherwise than the native program."""
        for number, (label, old, new, compare) in enumerate(MUTANTS):
            folder = f"{self.room}/{number}"
            os.mkdir(folder)
            text = read(f"{PAGES}/module/host.js").decode()
            with self.subTest(f"{label}: the text stands once"):
                self.assertEqual(text.count(old), 1, f"{text.count(old)} times")
            write(f"{folder}/host.js", text.replace(old, new).encode())
            write(f"{folder}/command.js", read(COMMAND))
            write(f"{folder}/package.json", b'{"type": "module"}')
            both = Sides(self, folder, f"{folder}/command.js")
            compare(both)
            with self.subTest(f"{label}: that is told"):
                self.assertTrue(both.wrong, f"{both.count} calls compared")


class Arithmetic(ModuleCase):
    """Arithmetic of 128 bits."""

    def test_arithmetic(self):
        """The functions of 128 bits of the layer, beside Python's numbers."""
        import build

        if why := build.missing():
            self.skipTest(why)
        chance, all_ones = random.Random(f"arithmetic {SEED}"), (1 << 128) - 1
        functions = {"__multi3": lambda a, b: a * b, "__udivti3": lambda a, b: a // b, "__umodti3": lambda a, b: a % b, "__ashlti3": lambda a, b: a << b, "__lshrti3": lambda a, b: a >> b}
        build.layer_alone(f"{self.room}/layer.wasm", functions)
        some = lambda bits: chance.choice((chance.getrandbits(chance.randrange(1, bits + 1)), (1 << chance.randrange(bits)) - chance.randrange(2) & all_ones, all_ones - chance.getrandbits(7)))
        rows = []
        for _ in range(200000 if ALL else 20000):
            name = chance.choice([*functions])
            rows.append((name, some(128), chance.randrange(128) if "sh" in name else some(128) or 1))
        lines = "".join(f"{name} {a} {b}\n" for name, a, b in rows)
        ran = subprocess.run(["node", "-e", ARITHMETIC, f"{self.room}/layer.wasm"], input=lines, capture_output=True, text=True, timeout=MOST_SECONDS_OF_CALL)
        wanted = [functions[name](a, b) & all_ones for name, a, b in rows]
        got = [int(it) for it in ran.stdout.split()] if ran.returncode == 0 else []
        wrong = [(row, it, other) for row, it, other in zip(rows, wanted, got) if it != other]
        with self.subTest("arithmetic of 128 bits"):
            self.assertTrue(len(got) == len(rows) and not wrong, f"{wrong[:2]} {ran.stderr[-400:]}")
        print(f"arithmetic: {len(rows)} rows", flush=True)


class Moves(ModuleCase):
    """What is cleared and copied by calls."""

    def test_calls(self):
        """Small functions alone call the layer, for so many bytes and no more."""
        import retarget

        clears = "  call void @llvm.memset.p0.i64(ptr noundef align 8 dereferenceable(24) %a, i8 {}, i64 {}, i1 false), !x !3\n"
        copies = "  tail call void @llvm.memcpy.p0.p0.i64(ptr align 8 %a, ptr nonnull @b, i64 {}, i1 false)\n"
        body = clears.format(0, 24) + clears.format(1, 24) + clears.format(0, 25) + copies.format(16) + copies.format(17)
        called = "  call void @zero_24(ptr %a)\n" + clears.format(1, 24) + clears.format(0, 25) + "  call void @copy_16(ptr %a, ptr @b)\n" + copies.format(17)
        text = "define void @f(ptr %a) #0 {{\n{}}}\ndefine void @g(ptr %a) #1 {{\n{}}}\nattributes #0 = {{ minsize nounwind }}\nattributes #1 = {{ nounwind }}\n"
        wanted = text.format(called, body) + "\ndeclare void @copy_16(ptr, ptr)\ndeclare void @zero_24(ptr)\n"
        with self.subTest("calls in place of what clears and copies"):
            self.assertEqual(retarget.with_calls(text.format(body, body)), wanted)

    def test_layer(self):
        """Each function of the layer clears, or copies, as many bytes as its name says, at any address."""
        import build
        import retarget

        if why := build.missing():
            self.skipTest(why)
        names = [f"zero_{it}" for it in retarget.ZEROS] + [f"copy_{it}" for it in retarget.COPIES]
        build.layer_alone(f"{self.room}/layer.wasm", names)
        ran = subprocess.run(["node", "-e", MOVED, f"{self.room}/layer.wasm", *names], capture_output=True, text=True, timeout=MOST_SECONDS_OF_CALL)
        bytes_before, wanted = bytes((i + 1) & 255 for i in range(256)), []
        for name in names:
            what, size = name.split("_")
            size = int(size)
            put = bytes(size) if what == "zero" else bytes_before[105 : 105 + size]
            wanted.append((bytes_before[:3] + put + bytes_before[3 + size :]).hex())
        with self.subTest("so many bytes"):
            self.assertEqual(ran.stdout.split(), wanted, ran.stderr[-400:])


class Packed(ModuleCase):
    """The module as a page holds it."""

    refused = "the packed module is damaged: "

    def unpacked(self, packed):
        """What unpack.js makes of some texts of a page: a sum of the bytes, or why it refuses them."""
        words = ["node", "-e", UNPACKED, f"{PAGES}/module/unpack.js"]
        ran = subprocess.run(words, input="\n".join(packed), capture_output=True, text=True, timeout=MOST_SECONDS_OF_CALL)
        self.assertEqual(ran.stderr, "")
        return ran.stdout.split("\n")[:-1]

    def inputs(self, chance):
        """Bytes of all kinds."""
        text = read(f"{ROOT}/bench/mix.agc")
        yield from (b"", b"\0", b"\xff", b"ab", bytes(100000), b"abcdefg" * 3000, text, text[::-1] + text, chance.randbytes(5000), chance.randbytes(300) * 40)
        for _ in range(40):
            parts = [chance.randbytes(chance.randrange(1, 40)) for _ in range(chance.randrange(1, 8))]
            yield b"".join(chance.choice(parts) * chance.choice((1, 1, 1, 2, 30)) for _ in range(chance.randrange(1, 200)))

    def test_whole(self):
        """What Python packs is unpacked, by all that LZMA takes, and the same bytes are packed the same."""
        chance, module, wanted, packed = random.Random(f"packed {SEED}"), read(self.module), [], []
        for it in [*self.inputs(chance), module]:
            wanted.append(it)
            packed.append(one_file.packed(it))
            self.assertEqual(one_file.unpacked(packed[-1]), it)
        for lc, lp, pb in [(lc, lp, pb) for lc in range(5) for lp in range(5 - lc) for pb in range(5)]:
            with mock.patch.dict(one_file.LZMA, {"lc": lc, "lp": lp, "pb": pb}):
                wanted.append(chance.choice(wanted[6:-1]))
                packed.append(one_file.packed(wanted[-1]))
        got = self.unpacked(packed)
        wrong = [number for number, (it, other) in enumerate(zip(wanted, got)) if hashlib.sha256(it).hexdigest() != other]
        with self.subTest("what was packed"):
            self.assertTrue(len(got) == len(wanted) and not wrong, f"{wrong[:9]}")
        with self.subTest("twice the same"):
            self.assertEqual(one_file.packed(module), one_file.packed(module))
        print(f"packed: {len(wanted)} texts unpacked; the module has {len(module)} bytes, packed {len(base64.b64decode(one_file.packed(module)))}", flush=True)

    def test_damaged(self):
        """What is cut short, longer, or of which a bit has changed is refused, or unpacked as it was."""
        chance, texts, wanted = random.Random(f"damaged {SEED}"), [], []
        for it in (b"", b"a", bytes(3000), b"abcdefg" * 50, chance.randbytes(60), read(f"{ROOT}/bench/mix.agc")[:3000]):
            packed = base64.b64decode(one_file.packed(it))
            damaged = [packed[:cut] for cut in range(len(packed))] + [packed + b"\0"]
            for bit in range(8 * len(packed)):
                damaged.append(bytes(byte ^ (1 << bit % 8 if number == bit // 8 else 0) for number, byte in enumerate(packed)))
            chosen = damaged if ALL else damaged[:20] + damaged[-170:] + chance.sample(damaged, 300 if len(damaged) > 300 else len(damaged))
            texts += [base64.b64encode(other).decode() for other in chosen]
            wanted += [hashlib.sha256(it).hexdigest()] * len(chosen)
        got = self.unpacked(texts)
        wrong = [other for it, other in zip(wanted, got) if other != it and not other.startswith(self.refused)]
        with self.subTest("refused, or as it was"):
            self.assertTrue(len(got) == len(wanted) and not wrong, f"{wrong[:3]}")
        kinds = {it.removeprefix(self.refused) for it in got if it.startswith(self.refused)}
        with self.subTest("for each reason"):
            self.assertEqual(len(kinds), 7, f"{kinds}")
        print(f"packed: {sum(it.startswith(self.refused) for it in got)} of {len(got)} damaged texts refused", flush=True)


class Tables(ModuleCase):
    """A table of functions, which the linker may leave."""

    def test_tables(self):
        """One in which nothing stands goes, whatever else the module has, and one in which something stands is left to wasm-opt."""
        import build

        head, types, code = b"\0asm\1\0\0\0", b"\1\4\1\x60\0\0", b"\x0a\x81\1" + bytes(129)
        table, elements = b"\4\5\1\x70\5\1\1", b"\x09\7\1\0\x41\0\x0b\1\0"
        for what, module, wanted in [
            ("no table", head + types + code, head + types + code),
            ("an empty table", head + types + table + code, head + types + code),
            ("a table with a function", head + types + table + elements + code, head + types + table + elements + code),
        ]:
            with self.subTest(what):
                self.assertEqual(build.without_table(module), wanted)


class Browsers(ModuleCase):
    """Pages from the disk."""

    def test_chromium(self):
        self.try_browser("chromium")

    def test_firefox(self):
        self.try_browser("firefox")

    def test_webkit(self):
        self.try_browser("webkit")

    def try_browser(self, name):
        """A page from the disk in a browser."""
        browser, packages, is_there = BROWSERS[name]
        if not is_there():
            self.skipTest(f"{name} is not there: apt-get install {packages}")
        answers, (cases, wanted) = Answers(), zip(*page_cases(self.room))
        script = one_file.script([f"{PAGES}/module/host.js", f"{PAGES}/module/unpack.js", f"{PAGES}/engine.js", f"{PAGES}/trial.js"])
        text = json.dumps({"address": answers.address, "cases": cases}).replace("</", "<\\/")
        page = write(f"{self.room}/page.html", PAGE.format(module=one_file.packed(read(self.module)), cases=text, script=script).encode())
        words, env = browser(self.room, f"file://{page}")
        with tempfile.TemporaryFile() as said:
            home = {"HOME": self.room, "XDG_CONFIG_HOME": self.room, "XDG_CACHE_HOME": self.room}
            ran = subprocess.Popen(words, env={**os.environ, **home, **env}, stdin=subprocess.DEVNULL, stdout=said, stderr=said, start_new_session=True)
            got = json.loads(answers.wait() or "null")
            end(ran)
            said.seek(0)
            last = said.read()[-600:]
        if not got or "failed" in got:
            with self.subTest(f"{name}: the page answers"):
                self.fail(f"{(got or {}).get('failed', last)}")
            return
        self.told_of_page(name, got, cases, wanted, about(self.module)["proved"])

    def told_of_page(self, name, got, cases, wanted, is_proved):
        """Tells what a page has answered."""
        wrong = [f"{' '.join(case['words'])}: {differing(one, other)}" for case, one, other in zip(cases, wanted, got["answers"]) if one != other]
        with self.subTest(f"{name}: as the native program, {len(wrong)} of {len(cases)}"):
            self.assertTrue(len(got["answers"]) == len(cases) and not wrong, "; ".join(wrong[:3]))
        with self.subTest(f"{name}: the module says whether it is proved"):
            self.assertTrue(got["about"]["proved"] is is_proved, f"{got['about']}")
        for promise, why in got["promises"].items():
            with self.subTest(f"{name}: {promise}"):
                self.assertEqual(why, "", why)
        waits = "waits for lines" if got["about"]["waits"] else "gives lines anew"
        print(f"{name}: {len(cases)} calls and sessions compared, {waits}; ready {got['ready']:.2f} s after the script has started: {got['agent']}", flush=True)


class InPlace(ModuleCase):
    """Runs the module where a test calls the program with pipes alone."""

    simple = {"stdin", "input", "capture_output", "stdout", "stderr", "timeout", "cwd", "text", "check"}

    @classmethod
    def setUpClass(cls):
        super().setUpClass()
        room = tempfile.TemporaryDirectory(prefix="agcws-module-")
        cls.addClassCleanup(room.cleanup)
        cls.program = f"{room.name}/agcws"
        write(cls.program, f'#!/bin/sh\nexec node "{COMMAND}" "{cls.module}" "$@"\n'.encode())
        os.chmod(cls.program, 0o755)
        cls.by_module, cls.run_natively = Module(cls.module), subprocess.run
        cls.replace(subprocess, "run", cls.run_by_module)
        cls.replace(session.Session, "waits", waits)
        cls.replace(session.Session, "longest", MOST_SECONDS_OF_CALL)
        for it in [it for name, it in sys.modules.items() if hasattr(it, "PROGRAM") and it is not sys.modules[__name__] and os.path.dirname(it.__file__ or "") == TESTS]:
            cls.replace(it, "PROGRAM", cls.program)

    @classmethod
    def replace(cls, owner, name, value):
        patch = mock.patch.object(owner, name, value)
        patch.start()
        cls.addClassCleanup(patch.stop)

    @classmethod
    def run_by_module(cls, words, **how):
        if how.get("timeout"):
            how["timeout"] = MOST_SECONDS_OF_CALL
        if words[0] == cls.program and any(isinstance(it, bytes) for it in words):
            # (no page has words that are no text)
            return cls.run_natively([PROGRAM, *words[1:]], **how)
        plain = words[0] == cls.program and set(how) <= cls.simple and how.get("stdout", -1) == how.get("stderr", -1) == -1
        if not plain or how.get("stdin", subprocess.DEVNULL) != subprocess.DEVNULL:
            return cls.run_natively(words, **how)
        given = how.get("input") or b""
        given = given.encode() if isinstance(given, str) else given
        status, out, err = cls.by_module.call(words[1:], os.path.abspath(how.get("cwd", ".")), given)
        out, err = (out.decode(), err.decode()) if how.get("text") else (out, err)
        made = subprocess.CompletedProcess(words, status, out, err)
        if how.get("check"):
            made.check_returncode()
        return made


def waits(session):
    """Returns whether the program of a session sleeps in a read of its input: node has other threads, for which the first one sleeps too."""
    with open(f"/proc/{session.ran.pid}/syscall", encoding="ascii") as file:
        return file.read().startswith("0 0x0 ")


def in_place(name, is_always, **tests):
    """A class that has some tests of others, file by file, with the module in place of the program: all of a file's only class, or those that are named."""
    bases = [getattr(__import__(file), cls) for file, (cls, _) in tests.items()]
    wanted = {it for (_, names), base in zip(tests.values(), bases) for it in names or unittest.defaultTestLoader.getTestCaseNames(base)}
    others = {it: None for base in bases for it in unittest.defaultTestLoader.getTestCaseNames(base) if it not in wanted}
    made = type(name, (InPlace, *bases), {"__module__": __name__, "__doc__": f"{name} by the module.", **others})
    return made if is_always else unittest.skipUnless(ALL, "AGCWS_ALL tries them")(made)


RowsInPlace = in_place("RowsInPlace", True, test_rows=("Rows", None))
ArgumentsInPlace = in_place("ArgumentsInPlace", True, test_arguments=("Arguments", None))
DocumentsInPlace = in_place("DocumentsInPlace", False, test_documents=("Documents", None))
ExamplesInPlace = in_place("ExamplesInPlace", False, test_examples=("Examples", ["test_examples", "test_flight", "test_operators", "test_one_processor"]))
TextsInPlace = in_place("TextsInPlace", False, test_refusals=("Refusals", ["test_long_texts"]))
DebugInPlace = in_place("DebugInPlace", False, test_debug=("Debug", ["test_likely_mistakes", "test_inputs", "test_sessions"]))
TracesInPlace = in_place("TracesInPlace", False, test_trace=("Trace", None))
CoversInPlace = in_place("CoversInPlace", False, test_cover=("Cover", None))
ObjectsInPlace = in_place("ObjectsInPlace", False, test_json=("Objects", None))
AccessInPlace = in_place("AccessInPlace", False, test_access=("Access", None))
DelaysInPlace = in_place("DelaysInPlace", False, test_delays=("Delays", None))
ChecksInPlace = in_place("ChecksInPlace", False, test_check=("Check", None))
CheckJsonInPlace = in_place("CheckJsonInPlace", False, test_check_json=("CheckJson", None))
SlipsInPlace = in_place("SlipsInPlace", False, test_slips=("Slips", None))
NotesInPlace = in_place("NotesInPlace", False, test_notes=("Notes", None))
RunInPlace = in_place("RunInPlace", False, test_run=("Run", ["test_end"]))
CommandLineInPlace = in_place("CommandLineInPlace", False, test_command_line=("CommandLine", ["test_command_line"]))
ImagesInPlace = in_place("ImagesInPlace", False, test_images=("Images", None))


if __name__ == "__main__":
    unittest.main()
