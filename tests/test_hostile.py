"""Uses the built program as hostile people and failing machines would, and tries what it promises then.

memory   each single request for memory is refused, by itself and with all after it (hostile/refuse.c, loaded before the program), for each command, help and refusals: the
         answer is E2 and nothing else than a beginning of the output; a refused `add` is told and changes nothing; once a session is open its commands ask for none
devices  full devices, closed pipes, folders, files that aren't there or may not be read, devices without an end, closed standard streams, no file or memory to be had
sizes    one byte, line or input too many, or a byte too few
bytes    AGCWS_CASES sources, feeds, command files and images (hostile/cases.py; 600 of each where it is not set, by AGCWS_SEED, or the time, which is printed), each in a process
         of its own: it ends in time and in little memory, with a refusal that exists; and `check` tells a fault of each source exactly where `asm` does, and that one among its
         own, with `--flight` and without; what is taken without is taken with it, to the same listing; and of a feed the fault that `run` tells. What hostile/long_run tries in
         one process gives the same answers; and in one process as many more of each are tried with a failure besides
"""
import collections
import os
import random
import re
import resource
import shutil
import signal
import subprocess
import tempfile
import time
import unittest
import zlib
from concurrent.futures import ProcessPoolExecutor

from common import EMPTY, IMAGE_BYTES, PROGRAM, Case, read, write
import cases
import in_process
from cases import ADDED, COMMANDS, DOWNLIST, EMPTY, FIVE, REFUSALS

# The most seconds that a call may take, and the most memory in bytes: so much, and so much for each byte that is read. (The system counts what the process that starts
# the call has itself, some 33 MiB.)
MOST_SECONDS = 10
MOST_MEMORY, MEMORY_PER_BYTE = 64 << 20, 64
# The memory that suffices for an image.
MOST_DATA = 4 << 20
# How many cases of each kind are tried, and by which seed.
CASES, SEED = int(os.environ.get("AGCWS_CASES", "600")), os.environ.get("AGCWS_SEED", time.strftime("%Y-%m-%dT%H:%M:%S"))
# The options of each language.
LANGUAGES = ((), ("--flight",))
# So many cases of each kind are answered alike in one process and each in its own.
ALIKE = 600


def agcws(*words, commands=b"", **more):
    """Runs the program, and answers its status, its output and its error output."""
    ran = subprocess.run([PROGRAM, *words], input=commands, capture_output=True, timeout=600, **more)
    return ran.returncode, ran.stdout, ran.stderr


SOURCE = "".join([" SETLOC 4000\n", "START CA FIVE\n AD FIVE\n EXTEND\n WRITE 10\n TCF START\nFIVE OCT 5\n", *(f"L{number} OCT {number % 8}\n" for number in range(193))]).encode()
# (64 plain inputs fill the vector in which they stand, so that an added one asks for memory)
FEED = "".join(["EVERY 0 2560 3 4 TIME3 PINC\n", "EVERY 5 7 1 100 TIME1 PINC\n", *(f"{10 * number} TIME2 PINC\n" for number in range(64))]).encode()


class Refusing:
    """The program under a library that refuses memory."""

    def __init__(self, room):
        self.library, self.mark = cases.build(room, "refuse"), f"{room}/refused"

    def run(self, words, commands=b"", program=PROGRAM, **settings):
        """What a program answers, and whether it was refused anything."""
        names = {name: str(it) for name, it in settings.items()}
        if os.path.exists(self.mark):
            os.remove(self.mark)
        env = {**os.environ, "LD_PRELOAD": self.library, "REFUSE_TELLS": self.mark, **names}
        ran = subprocess.run([program, *words], input=commands, capture_output=True, timeout=600, env=env)
        return (ran.returncode, ran.stdout, ran.stderr), os.path.exists(self.mark)


def transcripts(words):
    """The transcripts that a session may have where at least one of its inputs is refused for memory: the replies without it, and E2 in its place."""
    lines = COMMANDS.split(b"\n")
    added, found = [place for place, line in enumerate(lines) if line.startswith(b"add")], []
    for refused in ([added[0]], [added[1]], added):
        kept = [line for place, line in enumerate(lines) if place not in refused]
        whole = agcws(*words, commands=b"\n".join(kept))[1]
        for place in reversed(refused):
            before = b"".join(line + b"\n" for at, line in enumerate(lines[:place]) if at not in refused)
            length = len(agcws(*words, commands=before)[1])
            whole = whole[:length] + b"E2 MEMORY\n" + whole[length:]
        found.append(whole)
    return found


def many_calls(count):
    """A script of so many calls of a session over five plus five, and its replies, counted by hand: the five instructions of the loop take 2, 2, 1, 2 and 1 cycles, the fourth puts 12 out on channel 010, and the
    breakpoint holds where the loop begins. A call goes many steps at once, up to a number of them or to the breakpoint, shows a step, or searches back from one; most stay among the last
    thousand steps, and each thousandth goes anywhere."""
    choose, script, replies, n, p = random.Random("agcws"), bytearray(b"break at 4000\n"), bytearray(b"BREAK 1\n"), 0, 0
    cycles = lambda t: 8 * (t // 5) + (0, 2, 4, 5, 7)[t % 5]
    for number in range(count):
        call, is_far = choose.choice(("step", "run", "goto", "seek")), number % 1000 == 0
        k, low, told = choose.randrange(100_000 if is_far else 100), n, b""
        if call == "step":
            p, n = p + k, max(n, p + k)
        elif call == "run":
            p = n = min(n + k, n - n % 5 + 5)
            told = b"HIT 1\n" if k and p % 5 == 0 else b""
        elif call == "goto":
            k = p = choose.randrange(n + 1) if is_far else max(0, n - 10 * k)
        else:
            k, told, p = "", b"HIT 1\n" if p else b"NONE\n", max(0, (p - 1) // 5 * 5)
        script += f"{call} {k}\n".encode()
        for t in range(low + (4 - low - 1) % 5 + 1, n + 1, 5):
            replies += b"%d CH 010 00012\n" % cycles(t)
        replies += told
        if told != b"NONE\n":
            replies += b"AT %d %d %04o\n" % (p, cycles(p), 0o4000 + p % 5)
    return bytes(script), bytes(replies)


E6, E7 = b"agcws: E6\n", b"agcws: E7\n"
# What is said of a file that is refused, where it is named.
MEANINGS = {
    b"E3": b"the image ends before its 73,728 bytes",
    b"E4": b"bytes stand after the 73,728 of the image",
    b"E5": b"the lowest bit of two bytes of the image is wrong: in version 1 it is 1, in version 2 they have an even number of one bits",
    b"E6": b"a file could not be opened or read",
    b"E34": b"a source, a feed or a table of names has more than 8,388,608 bytes",
}


def refused(words, path, error):
    """What a call says of a file that is refused: `check`, `compare`, `align` and `find` name it, and `differ` those of the other run."""
    if words[0] == "differ" and path in words[-2:] and path not in words[1:3]:
        return b"%s or %s: %s\n" % (words[-2].encode(), words[-1].encode(), error)
    return b"%s: error %s: %s\n" % (path.encode(), error, MEANINGS[error]) if words[0] in ("check", "compare", "align", "find") and "--symbols" not in words else b"agcws: %s\n" % error


def name_of(words):
    """A call, with the names of its files alone."""
    return " ".join(os.path.basename(it) for it in words)


def limited(words, limit, most):
    ran = subprocess.run([PROGRAM, *words], stdin=subprocess.DEVNULL, capture_output=True, timeout=300, preexec_fn=lambda: resource.setrlimit(limit, (most, most)))
    return ran.returncode, ran.stdout, ran.stderr


def in_bounds(words, length=0):
    """What a call answers to which little time is given, and little memory besides four bytes for each of a text's length."""

    def bound():
        resource.setrlimit(resource.RLIMIT_CPU, (MOST_SECONDS, MOST_SECONDS))
        resource.setrlimit(resource.RLIMIT_DATA, (MOST_DATA + 4 * length,) * 2)

    ran = subprocess.run([PROGRAM, *words], stdin=subprocess.DEVNULL, capture_output=True, timeout=300, preexec_fn=bound)
    return ran.returncode, ran.stdout, ran.stderr


# A refusal; one of a file that is compared; one with the place of the first bad parity, where that is asked for; and of a bank without room for check words.
REFUSED = re.compile(rb"agcws: E(\d+)(?: LINE [1-9]\d*)?\n")
REFUSED_COMPARED = re.compile(rb"(?:agcws: E(\d+) LINE [1-9]\d*|[^\n]+/(?:case|twin): error E(\d+): [^\n]+)\n")
REFUSED_WHERE = re.compile(rb"agcws: E(?:(5)\nagcws: BYTE \d*[02468] [0-4][0-7],[2-7][0-7]{3}\n|([34])\n)")
REFUSED_TRIED = re.compile(rb"(?:agcws|[^\n]+/case): E(\d+)(?: LINE [1-9]\d*)?\n")
# (of the other run `differ` names the file, or both where it does not know which)
REFUSED_BESIDE = re.compile(rb"(?:agcws|[^\n]+/(?:case|twin)|[^\n]+ or [^\n]+): E(\d+)(?: LINE [1-9]\d*)?\n")
NO_SERIES = b"error: a line of TRIALS begins with EVERY: each input that is tried has a line of its own\n"
NO_ROOM = re.compile(rb"agcws: bank [0-4][0-7] has no room for check words: they take 3 places after its last word\n")


class Worker:
    """Runs cases in a room of its own: what each call answers, its time, and its memory."""

    def __init__(self, made, seed):
        self.room = tempfile.mkdtemp(prefix="hostile-", dir="/dev/shm" if os.path.isdir("/dev/shm") else None)
        self.maker, self.commands, self.rope = cases.Maker(made, seed), made.commands, made.rope
        self.case, self.twin, self.made, self.out, self.err = (f"{self.room}/{name}" for name in ("case", "twin", "made", "out", "err"))

    def run(self, words, commands):
        """Its status, output and error output, the seconds that it took, and the most memory that it had, in bytes."""
        flags = os.O_WRONLY | os.O_CREAT | os.O_TRUNC
        actions = [(os.POSIX_SPAWN_OPEN, 0, commands, os.O_RDONLY, 0), (os.POSIX_SPAWN_OPEN, 1, self.out, flags, 0o600), (os.POSIX_SPAWN_OPEN, 2, self.err, flags, 0o600)]
        started = time.monotonic()
        child = os.posix_spawn(PROGRAM, [PROGRAM, *words], os.environ, file_actions=actions)
        signal.signal(signal.SIGALRM, lambda *_: os.kill(child, signal.SIGKILL))
        signal.alarm(MOST_SECONDS)
        _, status, used = os.wait4(child, 0)
        signal.alarm(0)
        # (why a file that a line of a flight source names is not read is told before the fault of that line)
        err = NOT_JOINED.sub(b"", read(self.err), count=1) if "--flight" in words else read(self.err)
        return os.waitstatus_to_exitcode(status), read(self.out), err, time.monotonic() - started, used.ru_maxrss * 1024

    def call(self, words, kind, number):
        """What a case is answered to a call, as `run` tells it, and of how many bytes it is."""
        content = self.maker.case(kind, number)
        write(self.case, content)
        if "twin" in words:
            write(self.twin, self.maker.twin(kind, number, content))
        if os.path.exists(self.made):
            os.remove(self.made)
        paths = {"case": self.case, "twin": self.twin, "made": self.made, "rope": self.rope}
        return self.run([paths.get(it, it) for it in words], self.commands if "case" in words else self.case), len(content)

    def try_case(self, kind, number):
        """Why a case is wrong, or nothing, with its time and memory."""
        words = cases.any_call_of(kind, number)
        (status, out, err, seconds, most), length = self.call(words, kind, number)
        why = self.why(kind, words, status, out, err)
        return why or ("too much memory" if most > MOST_MEMORY + MEMORY_PER_BYTE * length else ""), seconds, most

    def why(self, kind, words, status, out, err):
        has_made = os.path.exists(self.made)
        if status == 1 and words[0] in ("compare", "parity", "damages") and not err:
            return "" if re.search(rb"(^|\n)COUNT [1-9]\d*\n(UNCERTAIN .*\n(FORM .*\n)*)?$", out) else "no difference is told"
        if status == 0:
            is_made = has_made and os.path.getsize(self.made) == IMAGE_BYTES if "made" in words else not has_made
            is_silent = re.fullmatch(rb"END STEPS \d+ CYCLES \d+ OUTPUTS \d+ Z [0-7]{4}\n", err) if "--end" in words else not err
            return "" if is_silent and is_made else f"done, with {err!r}"
        if "--sums" in words and status == 1 and NO_ROOM.fullmatch(err):
            return "" if not out and not has_made else "refused, with some output"
        if words[0] == "whatif" and (status, err) == (2, NO_SERIES):
            return "refused, with some output" if out else ""
        forms = {"compare": REFUSED_COMPARED, "whatif": REFUSED_TRIED, "differ": REFUSED_BESIDE}
        number = (REFUSED_WHERE if "--where" in words else forms.get(words[0], REFUSED)).fullmatch(err)
        refusals = cases.TABLE_REFUSALS if "--symbols" in words and kind != "image" else REFUSALS[kind]
        if status != 1 or not number or int(number[number.lastindex]) not in refusals:
            return f"status {status}, {err!r}"
        return "" if not out and not has_made else "refused, with some output"

    def answer(self, kind, number):
        """What `hostile/long_run` would tell of a case."""
        (status, out, err, _, _), _ = self.call(cases.call_of(kind, number), kind, number)
        made = os.path.getsize(self.made) if os.path.exists(self.made) else -1
        # (the program that is called in process knows the case by its name alone)
        said = err.decode().replace(f"{self.room}/", "").splitlines()[0] if err else "-"
        return f"told {number} {status} {said} {len(out)} {zlib.crc32(out)} {made}"


def some_cases(made, seed, kind, first, last):
    worker, wrong, slowest, largest = Worker(made, seed), [], 0.0, 0
    try:
        for number in range(first, last):
            why, seconds, most = worker.try_case(kind, number)
            slowest, largest = max(slowest, seconds), max(largest, most)
            if why:
                wrong.append((number, why))
    finally:
        shutil.rmtree(worker.room)
    return wrong, slowest, largest


# A fault that `check` tells, and the one that `asm` does.
TOLD_FAULT = re.compile(rb"^.*:(\d+):\d+: error E(\d+): .+$", re.M)
NOT_JOINED = re.compile(rb"\A[^\n]+:[1-9]\d*: error: (?:the file|a name) after \$ [^\n]*\n")
ONE_FAULT = re.compile(rb"agcws: E(\d+) LINE (\d+)\n")
# One that stands for so many lines.
OF_LINES = re.compile(rb": error E15: the interpretive language is not taken: (\d+) lines? from this one on\n")


def some_checks(made, seed, first, last):
    """Sources of which `check` does not tell that they have a fault exactly where `asm` does, and that one among those that it tells, each once, in either language; or that the standard
    language takes and that of flight programs does not take to the same words; how many are refused, and how many of these the language of flight programs takes."""
    worker, wrong, refused, taken = Worker(made, seed), [], 0, 0
    try:
        for number in range(first, last):
            write(worker.case, worker.maker.case("source", number))
            answers = [worker.run(["asm", *options, worker.case, "/dev/null"], worker.case)[:3] for options in LANGUAGES]
            if answers[0][0] == 0 and answers[0] != answers[1]:
                wrong.append((number, "--flight", answers[1][0], answers[1][2]))
            refused += answers[0][0] != 0
            taken += answers[0][0] != 0 and answers[1][0] == 0
            for options, answer in zip(LANGUAGES, answers):
                one = ONE_FAULT.fullmatch(answer[2])
                status, out, err, _, _ = worker.run(["check", *options, worker.case], worker.case)
                found = [(int(line), int(kind)) for line, kind in TOLD_FAULT.findall(out)]
                warned = len(re.findall(rb"^.*:\d+:\d+: warning W\d+: .+$", out, re.M))
                errors = len(found) + sum(int(lines) - 1 for lines in OF_LINES.findall(out))
                count = f"{errors} error{'' if errors == 1 else 's'}, {warned} warning{'' if warned == 1 else 's'}\n".encode()
                is_right = (int(one[2]), int(one[1])) in found if one else not found
                if not is_right or status != int(bool(one)) or err or not out.endswith(count) or len(set(found)) != len(found):
                    wrong.append((number, *options, status, one and one[0], found[:5], err))
    finally:
        shutil.rmtree(worker.room)
    return wrong, refused, taken


def some_feeds(made, seed, first, last):
    """Feeds of which `check` does not tell the fault that `run` tells, alone and on its line; and how many are refused."""
    worker, wrong, refused = Worker(made, seed), [], 0
    try:
        for number in range(first, last):
            write(worker.case, worker.maker.case("feed", number))
            one = ONE_FAULT.fullmatch(worker.run(["run", FIVE, worker.case, "0"], worker.case)[2])
            status, out, err, _, _ = worker.run(["check", FIVE, worker.case], worker.case)
            found = [(int(line), int(kind)) for line, kind in TOLD_FAULT.findall(out)]
            refused += bool(one)
            if (status, found, err) != ((1, [(int(one[2]), int(one[1]))], b"") if one else (0, [], b"")):
                wrong.append((number, status, one and one[0], found[:5], err))
    finally:
        shutil.rmtree(worker.room)
    return wrong, refused


READ_STEPS = 300
NOTES = re.compile(rb"(NOTE ((QUOTIENT|SKIP|NOWORD|ERASABLE|NOHANDLER|OTHERBANK|FIXEDBANK|NOTKEPT|MINUSZERO|OVERWRITTEN|SHARED) +\S.* STEP [1-9]\d* CYCLES \d+ TIMES [1-9]\d*|INSIDE STEP \d+|WAITING \w+ STEP [1-9]\d* CYCLES \d+|UNREAD CHAN [0-7]{3} CYCLES \d+)\n)*")


def is_read_alike(run, notes, trace, cover):
    """Whether the same run is told by `run` and by those that read it; or the same refusal, and nothing else."""
    if run[0]:
        return all(it == (run[0], b"", run[2]) for it in (notes, trace, cover))
    lines = b"".join(it + b"\n" for it in re.findall(rb"\d+ CH [0-7]{3} [0-7]{5}$", trace[1], re.M))
    is_noted = notes[:2] == run[:2] and NOTES.fullmatch(notes[2])
    is_traced = (trace[0], trace[2], trace[1].count(b"\n"), lines) == (0, b"", READ_STEPS, run[1])
    cycles = trace[1].splitlines()[-1].split()[1]
    return is_noted and is_traced and (cover[0], cover[2]) == (0, b"") and cover[1].endswith(b"%10d %10d TOTAL\n" % (READ_STEPS, int(cycles)))


def some_readings(made, seed, kind, first, last):
    """Cases whose run is told in another way by `run --notes`, `trace` or `cover`; and how many run, and how many of these draw notes."""
    worker, wrong, ran, noted = Worker(made, seed), [], 0, 0
    files = {"source": [worker.case, cases.CLOCK], "image": ["--image", worker.case, cases.CLOCK], "feed": [cases.KEY_ECHO, worker.case]}[kind] + [str(READ_STEPS)]
    try:
        for number in range(first, last):
            write(worker.case, worker.maker.case(kind, number))
            run, notes, trace, cover = (worker.run([*words, *files], worker.case)[:3] for words in (["run"], ["run", "--notes"], ["trace"], ["cover"]))
            ran, noted = ran + (run[0] == 0), noted + notes[2].startswith(b"NOTE ")
            if not is_read_alike(run, notes, trace, cover):
                wrong.append((number, run[0], notes[2][:200]))
    finally:
        shutil.rmtree(worker.room)
    return wrong, ran, noted


class HostileCase(Case):
    """Tests that compile libraries, which are loaded before the program."""

    @classmethod
    def setUpClass(cls):
        super().setUpClass()
        if not shutil.which("cc"):
            raise unittest.SkipTest("there is no C compiler cc: apt-get install gcc libc6-dev")


class Memory(HostileCase):
    """Each request for memory, refused."""

    def test_memory(self):
        refusing = Refusing(self.room)
        source, feed, made, old, new, other = write(f"{self.room}/source", SOURCE), write(f"{self.room}/feed", FEED), f"{self.room}/made", f"{self.room}/old", f"{self.room}/new", f"{self.room}/other"
        for words in (("asm", source, old, "--rope", "1"), ("asm", source, new), ("asm", FIVE, other)):
            agcws(*words)
        names = ("--symbols", write(f"{self.room}/names", agcws("asm", source, new)[1]))
        octals = write(f"{self.room}/octals", agcws("words", "--octal", new)[1])
        module = write(f"{self.room}/module", b"\xfd\xff" * 6144)
        trials = write(f"{self.room}/trials", b"3 RUPT 2\n3 CHAN 15 21\n60 TIME3 PINC\n")
        sessions_of = {"debug": ("debug", source, feed), "debug --image": ("debug", "--image", new, feed), "debug --extended": ("debug", "--extended", source, feed), "debug --flight": ("debug", "--extended", "--flight", DOWNLIST, feed), "debug with names": ("debug", "--image", *names, new, feed)}
        calls = {
            "asm": ("asm", source, made),
            "run": ("run", source, feed, "300"),
            "run --end": ("run", "--end", source, feed, "300"),
            "run --progress": ("run", "--progress", source, feed, "300"),
            "run --notes": ("run", "--notes", source, feed, "300"),
            "run --notes --json": ("run", "--notes", "--json", source, feed, "300"),
            "cover --progress": ("cover", "--progress", source, feed, "300"),
            "run --image": ("run", "--image", "--rope", "1", "--end", old, feed, "300"),
            "trace": ("trace", source, feed, "300"),
            "trace --image": ("trace", "--image", "--rope", "1", old, feed, "300"),
            "cover": ("cover", source, feed, "300"),
            "cover --json": ("cover", "--json", source, feed, "300"),
            "trace --reads": ("trace", "--reads", source, feed, "300"),
            "trace --say": ("trace", "--say", source, feed, "300"),
            "access": ("access", source, feed, "300"),
            "whatif": ("whatif", source, feed, "300", trials),
            "differ": ("differ", source, feed, "300", "--with", source, os.devnull),
            "access of a cell": ("access", "--image", *names, new, feed, "300", "A"),
            "delays": ("delays", source, feed, "300"),
            "cover --image": ("cover", "--image", "--rope", "1", old, feed, "300"),
            "reach": ("reach", source),
            "bound": ("bound", source, "02,4000"),
            "bound --image": ("bound", "--image", *names, "--loops", "02,4000 3", "--kept", "100", new, "02,4000"),
            "reach --image": ("reach", "--image", *names, new),
            "reach beside a run": ("reach", "--feed", feed, "--steps", "300", source),
            "reach --roots": ("reach", "--roots", "--feed", feed, "--steps", "300", source),
            **sessions_of,
            "asm --sums": ("asm", "--sums", source, made),
            "upgrade": ("upgrade", old, made),
            "words": ("words", new),
            "words of a bank": ("words", "--rope", "1", old, "02"),
            "words as a source": ("words", "--source", new),
            "words as a source with names": ("words", "--source", *names, new, "02"),
            "words in octal": ("words", "--octal", new),
            "words of octal words": ("words", octals, "02"),
            "words of a module": ("words", "--rope", "1", "--form", "hardware,swapped,complemented,module3", module, "14"),
            "words of all forms": ("words", "--rope", "1", "--form", "hardware,swapped,complemented,numbered", old, "02"),
            "words with names": ("words", *names, new, "02"),
            "words with holes": ("words", "--flight", "--holes", "--symbols", DOWNLIST, new, "02"),
            "trace with names": ("trace", "--image", *names, new, feed, "300"),
            "cover with names": ("cover", "--image", *names, new, feed, "300"),
            "a refused table": ("words", "--symbols", source, new),
            "compare with a source": ("compare", "--only", source, other),
            "compare": ("compare", "--old", "1", old, other),
            "compare of equal images": ("compare", "--old", "1", old, new),
            "align": ("align", "--old", "1", old, other),
            "align with names": ("align", *names, new, other),
            "find": ("find", source, other),
            "sums": ("sums", new),
            "sums in both orders": ("sums", "--forms", new),
            "where an image is refused": ("words", "--where", "--rope", "1", new),
            "parity": ("parity", old),
            "damages": ("damages", old),
            "damages as a source": ("damages", "--source", old),
            "parity of the hardware's form": ("parity", "--form", "hardware", new),
            "words of the hardware's form": ("words", "--form", "hardware", "--parity", "ignore", new, "02"),
            "asm --flight": ("asm", "--flight", DOWNLIST, made),
            "run --flight --notes": ("run", "--flight", "--notes", DOWNLIST, feed, "300"),
            "trace --flight": ("trace", "--flight", "--from", "20", "--progress", DOWNLIST, feed, "300"),
            "cover --flight": ("cover", "--flight", DOWNLIST, feed, "300"),
            "check --flight": ("check", "--flight", DOWNLIST, feed),
            "compare with a flight source": ("compare", "--only", "--flight", DOWNLIST, other),
            "run --flight": ("run", "--flight", DOWNLIST, feed, "300"),
            "check": ("check", source),
            "check of a source with faults": ("check", feed),
            "check of labels": ("check", "--unused", source),
            "check as JSON": ("check", "--json", source, feed),
            "check of a source with faults as JSON": ("check", "--json", feed),
            "check of feeds": ("check", source, feed, old),
            "explain": ("explain",),
            "explain of a number": ("explain", "E16"),
            "explain of a warning": ("explain", "W4"),
            "explain of a note": ("explain", "SKIP"),
            "help of a command": ("help", "run"),
            "a refused source": ("run", feed, feed, "300"),
            "a refused image": ("words", source),
            "--help": ("--help",),
            "run --help": ("run", "--help"),
            "--version": ("--version",),
            "no command": (),
            "no file": ("run", source, feed),
            "a wrong number": ("run", source, feed, "-1"),
        }
        for name, words in calls.items():
            self.refuse_each(refusing, name, words, COMMANDS if name in sessions_of else b"", made)
        for name, words in sessions_of.items():
            self.none_in_a_session(name, words)
        self.ask_for_none("100,000 calls of an open session", ("debug", FIVE, EMPTY), *many_calls(100_000))
        self.files_without_memory(refusing, source, feed, old, made)

    def refuse_each(self, refusing, name, words, commands, path):
        """Refuses each request of a call, once and then with all after it: it answers E2 and has written a beginning of its output, and of the file of a path, if it makes that."""

        def tried(call):
            if os.path.exists(path):
                os.remove(path)
            answer = call()
            return answer, read(path) if os.path.exists(path) else b""

        right, image = tried(lambda: agcws(*words, commands=commands))
        refused_sessions = transcripts(words) if commands else []
        for setting, title in (("REFUSE_AT", "each of {} requests refused once"), ("REFUSE_FROM", "all requests refused from each of {} on")):
            at, wrong, again, refused_inputs, is_met = 0, [], 0, 0, True
            while is_met and at < 100_000:
                at += 1
                ((status, out, err), is_met), made = tried(lambda: refusing.run(words, commands, **{setting: at}))
                is_e2 = (status, err) == (3, b"agcws: E2\n") and right[1].startswith(out) and image.startswith(made)
                is_told = (status, err) == (0, b"") and out in refused_sessions
                # (a vector that is refused room for more than it needs asks again, for what it needs)
                is_whole = (status, out, err) == right and made == image
                again += is_whole and is_met
                refused_inputs += is_told
                if not (is_e2 or is_told or is_whole):
                    wrong.append((at, status, out[-80:], err[-200:]))
            most = 2 if setting == "REFUSE_AT" else 0
            with self.subTest(f"memory: {name}, {title.format(at - 1)}"):
                self.assertTrue(not wrong and not is_met and again <= most, f"{len(wrong)} wrong, the first: {wrong[:3]}; {again} asked again")
            with self.subTest(f"memory: {name}, inputs that are refused when they are added, {setting}"):
                self.assertEqual(refused_inputs > 0, bool(commands), f"{refused_inputs} sessions with a refused input")
            remarks = [f"{again} made again for less"] * (again > 0) + [f"{refused_inputs} sessions with a refused input"] * (refused_inputs > 0)
            print(f"memory: {name}: {'; '.join([title.format(at - 1), *remarks])}", flush=True)

    def none_in_a_session(self, name, words):
        """Once a session is open its commands ask for no memory: scripts with each request refused from the first reply on."""
        several = COMMANDS.replace(ADDED, b"regs").replace(b"add 6000 TIME1 PINC", b"regs").replace(b"quit\n", b"run 100000\ngoto 7\nlast 25\ngoto 90000\nback 70000\nregs\n")
        script = b"regs\nrun 20000\n" + several
        self.ask_for_none(f"an open session of {name}", words, script, agcws(*words, commands=script)[1])

    def ask_for_none(self, title, words, script, right):
        """A script with each request refused once its first reply is there, and what it has to answer."""
        opened, refused, first = f"{self.room}/opened", f"{self.room}/refused", script.split(b"\n")[0] + b"\n"
        env = {**os.environ, "LD_PRELOAD": f"{self.room}/refuse.so", "REFUSE_AFTER": opened, "REFUSE_FROM": "1", "REFUSE_TELLS": refused}
        for file in (opened, refused):
            if os.path.exists(file):
                os.remove(file)
        with subprocess.Popen([PROGRAM, *words], stdin=subprocess.PIPE, stdout=subprocess.PIPE, stderr=subprocess.PIPE, env=env, bufsize=0) as ran:
            ran.stdin.write(first)
            reply = ran.stdout.readline()
            write(opened, b"")
            out, err = ran.communicate(script.removeprefix(first), timeout=600)
        is_right = (ran.returncode, reply + out, err) == (0, right, b"")
        with self.subTest(f"memory: {title} asks for none"):
            self.assertTrue(is_right and not os.path.exists(refused), f"{ran.returncode} {err[-200:]} refused: {os.path.exists(refused)}")

    def files_without_memory(self, refusing, source, feed, old, made):
        """Where the system has no memory to open a file, or to make one, that is E2."""
        if os.path.exists(made):
            os.remove(made)
        upgrade, images = ("upgrade", old, made), ("--image", "--rope=1", old, feed)
        calls = [(("asm", source, made), (source, made)), (("run", source, feed, "1"), (source, feed)), (("trace", source, feed, "1"), (source, feed)), (("cover", source, feed, "1"), (source, feed)), (("debug", source, feed), (source, feed)), (("check", source), (source,)), (("check", source, feed), (source, feed)), (upgrade, (old, made))]
        calls += [(("words", "--symbols", feed, "--rope=1", old), (feed, old)), (("debug", "--symbols", feed, *images), (feed, old)), (("words", "--rope=1", old), (old,)), (("sums", "--rope=1", old), (old,)), (("run", *images, "1"), (old, feed)), (("debug", *images), (old, feed))]
        for words, files in calls:
            for file in files:
                (status, out, err), _ = refusing.run(words, REFUSE_OPEN=file)
                with self.subTest(f"memory: none to open {os.path.basename(file)}: {name_of(words)}"):
                    self.assertTrue((status, out, err) == (3, b"", b"agcws: E2\n") and not os.path.exists(made), f"{status} {out[-80:]!r} {err!r}")


class Devices(HostileCase):
    """Devices, pipes, folders and files that fail."""

    def test_devices(self):
        made, folder, none = f"{self.room}/made", f"{self.room}/folder", f"{self.room}/none"
        os.mkdir(folder)
        image, other = write(f"{self.room}/image", bytes(IMAGE_BYTES)), f"{self.room}/other"
        agcws("asm", "--rope", "1", FIVE, other)
        # Calls that write some output, the last five a session's.
        writing = [("run", FIVE, EMPTY, "100"), ("trace", FIVE, EMPTY, "100"), ("cover", FIVE, EMPTY, "100"), ("run", "--end", FIVE, EMPTY, "100"), ("run", "--progress", FIVE, EMPTY, "100"), ("run", "--notes", FIVE, EMPTY, "100"), ("cover", "--json", FIVE, EMPTY, "100"), ("run", "--image", "--rope=1", other, EMPTY, "100"), ("asm", FIVE, made), ("words", "--rope=1", image), ("access", FIVE, EMPTY, "100"), ("access", FIVE, EMPTY, "100", "A"), ("delays", FIVE, EMPTY, "100"), ("trace", "--reads", FIVE, EMPTY, "100"), ("trace", "--say", FIVE, EMPTY, "100"), ("whatif", FIVE, EMPTY, "100", EMPTY)]
        writing += [("asm", "--flight", DOWNLIST, made), ("run", "--flight", DOWNLIST, EMPTY, "100")]
        writing += [("check", FIVE), ("check", FIVE, EMPTY, FIVE), ("check", "--unused", FIVE), ("check", "--json", FIVE, FIVE), ("explain",), ("explain", "17"), ("explain", "SKIP")]
        writing += [("compare", "--old=1", "--new=1", image, other), ("sums", "--rope=1", image), ("sums", "--forms", "--rope=1", image), ("words", "--symbols", EMPTY, "--rope=1", image), ("words", "--source", "--symbols", EMPTY, "--rope=1", image), ("trace", "--image", "--symbols", EMPTY, "--rope=1", other, EMPTY, "100"), ("cover", "--image", "--symbols", EMPTY, "--rope=1", other, EMPTY, "100"), ("parity", image), ("damages", image), ("damages", "--source", image), ("--help",), ("words", "--help"), ("--version",)]
        writing += [("words", "--source", "--rope=1", image), ("words", "--where", "--rope=1", image), ("parity", "--form=hardware", image), ("explain", "W4"), ("help", "run"), ("check", "--flight", DOWNLIST), ("compare", "--only", "--new=1", FIVE, image), ("compare", "--only", "--flight", "--new=1", DOWNLIST, image)]
        writing += [("trace", "--flight", "--from=2", DOWNLIST, EMPTY, "40"), ("cover", "--flight", DOWNLIST, EMPTY, "40"), ("run", "--flight", "--notes", DOWNLIST, EMPTY, "100")]
        writing += [("align", "--old=1", "--new=1", image, other), ("align", "--symbols", write(f"{self.room}/table", b"START 02,4000\n"), "--old=1", "--new=1", image, other), ("find", "--rope=1", FIVE, image)]
        sessions = [("debug", FIVE, EMPTY), ("debug", "--image", "--rope=1", other, EMPTY), ("debug", "--extended", FIVE, EMPTY), ("debug", "--flight", DOWNLIST, EMPTY), ("debug", "--extended", "--image", "--symbols", EMPTY, "--rope=1", other, EMPTY)]
        writing += sessions
        self.outputs_that_fail(writing)
        for words in (("asm", FIVE, "/dev/full"), ("asm", "--sums", FIVE, "/dev/full"), ("upgrade", image, "/dev/full"), ("asm", FIVE, folder), ("upgrade", image, folder), ("asm", FIVE, f"{folder}/none/rope"), ("upgrade", image, f"{folder}/none/rope")):
            status, out, err = agcws(*words)
            with self.subTest(f"devices: {name_of(words)}"):
                self.assertEqual((status, err), (3, E7), f"{status} {out[-80:]!r} {err!r}")
        if os.path.exists(made):
            os.remove(made)
        for bad in (none, folder):
            reading = [("run", bad, EMPTY, "1"), ("run", FIVE, bad, "1"), ("trace", bad, EMPTY, "1"), ("trace", FIVE, bad, "1"), ("cover", bad, EMPTY, "1"), ("cover", FIVE, bad, "1"), ("asm", bad, made), ("debug", bad, EMPTY), ("debug", FIVE, bad), ("upgrade", bad, made), ("words", bad), ("words", bad, "02"), ("sums", bad), ("sums", "--forms", bad), ("parity", bad), ("damages", bad), ("damages", "--source", bad), ("access", bad, EMPTY, "1"), ("access", FIVE, bad, "1"), ("delays", bad, EMPTY, "1"), ("delays", FIVE, bad, "1"), ("whatif", bad, EMPTY, "1", EMPTY), ("whatif", FIVE, bad, "1", EMPTY), ("whatif", FIVE, EMPTY, "1", bad)]
            reading += [("words", "--symbols", bad, "--rope=1", image), ("words", "--symbols", EMPTY, bad), ("trace", "--image", "--symbols", bad, "--rope=1", other, EMPTY, "1"), ("cover", "--image", "--symbols", bad, "--rope=1", other, EMPTY, "1"), ("debug", "--image", "--symbols", bad, "--rope=1", other, EMPTY)]
            reading += [("compare", bad, image), ("compare", "--old=1", image, bad), ("run", "--image", bad, EMPTY, "1"), ("run", "--image", "--rope=1", image, bad, "1")]
            reading += [("debug", "--image", bad, EMPTY), ("debug", "--image", "--rope=1", image, bad), ("check", bad), ("check", FIVE, bad), ("check", FIVE, EMPTY, bad)]
            reading += [("debug", "--extended", bad, EMPTY), ("debug", "--extended", FIVE, bad), ("debug", "--flight", bad, EMPTY), ("asm", "--flight", bad, made), ("asm", "--sums", bad, made), ("run", "--flight", bad, EMPTY, "1"), ("run", "--notes", bad, EMPTY, "1"), ("run", "--notes", FIVE, bad, "1")]
            reading += [("trace", "--flight", bad, EMPTY, "1"), ("trace", "--image", bad, EMPTY, "1"), ("cover", "--flight", bad, EMPTY, "1"), ("cover", "--image", bad, EMPTY, "1"), ("check", "--flight", bad), ("compare", "--only", bad, image), ("compare", "--only", FIVE, bad), ("words", "--source", bad), ("words", "--where", bad), ("parity", "--form=hardware", bad)]
            reading += [("align", bad, image), ("align", "--old=1", image, bad), ("align", "--symbols", bad, "--old=1", "--new=1", image, other), ("find", bad, image), ("find", FIVE, bad)]
            for words in reading:
                answer = agcws(*words)
                with self.subTest(f"devices: {name_of(words)}"):
                    self.assertEqual(answer, (3, b"", refused(words, bad, b"E6")))
        with self.subTest("devices: a file that cannot be read leaves no image"):
            self.assertFalse(os.path.exists(made))
        self.inputs_that_fail(folder, sessions)
        self.no_streams(made)
        os.remove(made)
        self.endless_inputs(made)
        self.endless_commands()
        self.few_of_the_system(writing)
        self.without_rights(image)

    def outputs_that_fail(self, writing):
        """A full device, a pipe that is closed, and outputs that are closed from the beginning. The session comes last in each."""
        with open("/dev/full", "wb") as full:
            for words in writing:
                ran = subprocess.run([PROGRAM, *words], input=b"run 100\n", stdout=full, stderr=subprocess.PIPE, timeout=300)
                with self.subTest(f"devices: {name_of(words)}, on a full device"):
                    self.assertEqual((ran.returncode, ran.stderr), (3, E7), f"{ran.returncode} {ran.stderr!r}")
                ran = subprocess.run([PROGRAM, *words], input=b"run 100\n", stdout=subprocess.DEVNULL, stderr=subprocess.PIPE, timeout=300, preexec_fn=lambda: os.close(1))
                with self.subTest(f"devices: {name_of(words)}, with its output closed"):
                    self.assertEqual((ran.returncode, ran.stderr), (3, E7), f"{ran.returncode} {ran.stderr!r}")
            for words in (("run", "--end", FIVE, EMPTY, "9"), ("run", FIVE, FIVE, "9"), ("words", FIVE), ("words", "--where", FIVE), ("check", FIVE, FIVE, "/dev/zero"), ("explain", "E99"), ("trace", FIVE, EMPTY, "9", "--from=5", "--to=4"), ("run",), ("debug", FIVE, FIVE), ("debug", "--extended", FIVE, FIVE)):
                right = agcws(*words)
                for label, settings in (("full", {"stderr": full}), ("closed", {"preexec_fn": lambda: os.close(2)})):
                    ran = subprocess.run([PROGRAM, *words], stdin=subprocess.DEVNULL, stdout=subprocess.PIPE, timeout=300, **settings)
                    with self.subTest(f"devices: {name_of(words)}, with its error output {label}"):
                        self.assertEqual((ran.returncode, ran.stdout), (3, right[1]))
        for words in writing:
            reader, writer = os.pipe()
            os.close(reader)
            ran = subprocess.run([PROGRAM, *words], input=b"run 100\n", stdout=writer, stderr=subprocess.PIPE, timeout=300)
            os.close(writer)
            with self.subTest(f"devices: {name_of(words)}, into a closed pipe"):
                self.assertEqual((ran.returncode, ran.stderr), (3, E7), f"{ran.returncode} {ran.stderr!r}")

    def inputs_that_fail(self, folder, sessions):
        """Standard input that is closed ends a session at once, as an empty one does; a folder cannot be read."""
        for words in sessions:
            answer = subprocess.run([PROGRAM, *words], stdin=None, stdout=subprocess.PIPE, stderr=subprocess.PIPE, timeout=300, preexec_fn=lambda: os.close(0))
            with self.subTest(f"devices: {name_of(words)}, with its input closed"):
                self.assertIn((answer.returncode, answer.stdout, answer.stderr), ((0, b"", b""), (3, b"", E6)), f"{answer}")
            ran = subprocess.run([PROGRAM, *words], stdin=os.open(folder, os.O_RDONLY), stdout=subprocess.PIPE, stderr=subprocess.PIPE, timeout=300)
            with self.subTest(f"devices: {name_of(words)}, with a folder as its input"):
                self.assertEqual((ran.returncode, ran.stdout, ran.stderr), (3, b"", E6))
        for words in (("run", "--end", FIVE, EMPTY, "100"), ("run", FIVE, FIVE, "100"), ("--help",)):
            answer = subprocess.run([PROGRAM, *words], stdin=None, stdout=subprocess.PIPE, stderr=subprocess.PIPE, timeout=300, preexec_fn=lambda: os.close(0))
            with self.subTest(f"devices: {name_of(words)}, with its input closed"):
                self.assertEqual((answer.returncode, answer.stdout, answer.stderr), agcws(*words))

    def no_streams(self, made):
        """Where standard streams are closed, what is written to them does not go into the file of the image, which the system would give their place."""
        agcws("asm", FIVE, made)
        image = read(made)
        for closed in ((0, 1), (0, 2), (0, 1, 2)):
            os.remove(made)
            ran = subprocess.run([PROGRAM, "asm", FIVE, made], stdin=None, stdout=subprocess.PIPE, stderr=subprocess.PIPE, timeout=300, preexec_fn=lambda closed=closed: [os.close(it) for it in closed])
            status, error = (3, E7 if 2 not in closed else b"") if 1 in closed else (0, b"")
            with self.subTest(f"devices: asm with {closed} closed"):
                self.assertTrue((ran.returncode, ran.stderr) == (status, error) and read(made) == image, f"{ran} {os.path.getsize(made)} bytes")

    def endless_inputs(self, made):
        """A device without an end is read as far as the greatest input goes, and one byte more."""
        zeros = "/dev/zero"
        for words, error in (
            (("run", zeros, EMPTY, "1"), b"E34"),
            (("run", FIVE, zeros, "1"), b"E34"),
            (("trace", FIVE, zeros, "1"), b"E34"),
            (("cover", FIVE, zeros, "1"), b"E34"),
            (("access", FIVE, zeros, "1"), b"E34"),
            (("delays", FIVE, zeros, "1"), b"E34"),
            (("reach", FIVE, "--feed", zeros, "--steps", "1"), b"E34"),
            (("whatif", FIVE, zeros, "1", EMPTY), b"E34"),
            (("differ", FIVE, zeros, "1", "--with", FIVE, EMPTY), b"E34"),
            (("differ", FIVE, EMPTY, "1", "--with", FIVE, zeros), b"E34"),
            (("whatif", FIVE, EMPTY, "1", zeros), b"E34"),
            (("asm", zeros, made), b"E34"),
            (("asm", "--flight", zeros, made), b"E34"),
            (("check", zeros), b"E34"),
            (("check", "--flight", zeros), b"E34"),
            (("check", FIVE, zeros), b"E34"),
            (("compare", "--only", zeros, zeros), b"E34"),
            (("compare", "--only", FIVE, zeros), b"E5"),
            (("debug", FIVE, zeros), b"E34"),
            (("upgrade", zeros, made), b"E4"),
            (("words", "--rope=1", zeros), b"E4"),
            (("words", "--source", "--rope=1", zeros), b"E4"),
            (("words", "--parity=ignore", "--form=hardware", zeros), b"E4"),
            (("words", "--form=swapped", zeros), b"E4"),
            (("words", "--octal", "--rope=1", "--form=complemented,numbered", zeros), b"E4"),
            (("trace", "--image", "--rope=1", zeros, EMPTY, "1"), b"E4"),
            (("cover", "--image", "--rope=1", zeros, EMPTY, "1"), b"E4"),
            (("words", zeros), b"E5"),
            (("sums", "--rope=1", zeros), b"E4"),
            (("sums", "--forms", "--rope=1", zeros), b"E4"),
            (("words", "--symbols", zeros, zeros), b"E34"),
            (("words", "--source", "--symbols", zeros, zeros), b"E34"),
            (("debug", "--image", "--symbols", zeros, zeros, EMPTY), b"E34"),
            (("parity", zeros), b"E4"),
            (("damages", zeros), b"E4"),
            (("damages", "--source", zeros), b"E4"),
            (("compare", "--old=1", zeros, zeros), b"E4"),
            (("run", "--image", "--rope=1", zeros, EMPTY, "1"), b"E4"),
            (("debug", "--image", zeros, EMPTY), b"E5"),
        ):
            answer = agcws(*words)
            with self.subTest(f"devices: {name_of(words)}, which has no end"):
                self.assertTrue(answer == (1, b"", refused(words, zeros, error)) and not os.path.exists(made), f"{answer}")
        with open(zeros, "rb") as endless:
            ran = subprocess.run([PROGRAM, "debug", FIVE, EMPTY], stdin=endless, capture_output=True, timeout=300)
        with self.subTest("devices: commands without an end"):
            self.assertEqual((ran.returncode, ran.stdout, ran.stderr), (0, b"E51 LONG\n", b"agcws: commands end after 16777216 bytes\n"), f"{ran.returncode} {ran.stdout[-200:]} {ran.stderr}")

    def endless_commands(self):
        """Commands without an end are read on in an extended session, in the memory that was taken at first."""
        with open("/dev/zero", "rb") as endless, subprocess.Popen([PROGRAM, "debug", "--extended", FIVE, EMPTY], stdin=endless, stdout=subprocess.PIPE, stderr=subprocess.PIPE) as ran:
            time.sleep(2)
            with open(f"/proc/{ran.pid}/status", encoding="ascii") as file:
                most = int(re.search(r"VmHWM:\s+(\d+) kB", file.read())[1]) << 10
            is_going = ran.poll() is None
            ran.kill()
            with self.subTest("devices: commands of an extended session without an end"):
                self.assertTrue(is_going and most <= MOST_MEMORY and not ran.stderr.read(), f"{is_going}, {most} bytes of memory")

    def few_of_the_system(self, writing):
        """No memory is to be had beyond what the program starts with; and no second file."""
        for words in writing:
            ran = limited(words, resource.RLIMIT_DATA, 52 << 12)
            with self.subTest(f"devices: {name_of(words)}, with little memory"):
                self.assertEqual(ran, (3, b"", b"agcws: E2\n"))
            paths = [it for it in words if "/" in it]
            if len(paths) > 1:
                # three are the standard streams, and three stand in for those of them that may be closed; a source that is read before another file is opened is closed then
                is_read = words[0] == "asm" or "--flight" in words
                ran = limited(words, resource.RLIMIT_NOFILE, 6 if is_read else 7)
                wanted = refused(words[:1], paths[0 if is_read else 1], b"E6")
                with self.subTest(f"devices: {name_of(words)}, with {'no' if is_read else 'one'} file to be had"):
                    self.assertEqual(ran, (3, b"", wanted))

    def without_rights(self, image):
        """A file that nobody may read. The superuser may read all, so another user tries it then."""
        locked, program, feed, made = write(f"{self.room}/locked", read(FIVE)), f"{self.room}/program", write(f"{self.room}/feed", b""), f"{self.room}/unmade"
        shutil.copy(PROGRAM, program)
        for path, rights in ((locked, 0), (program, 0o755), (feed, 0o644), (image, 0o644), (self.room, 0o755)):
            os.chmod(path, rights)
        who = {"user": 65534} if os.geteuid() == 0 else {}
        for words, error in (
            (("run", locked, feed, "1"), E6),
            (("asm", locked, made), E6),
            (("asm", feed, locked), E7),
            (("debug", locked, feed), E6),
            (("trace", locked, feed, "1"), E6),
            (("cover", locked, feed, "1"), E6),
            (("access", locked, feed, "1"), E6),
            (("delays", locked, feed, "1"), E6),
            (("run", "--notes", locked, feed, "1"), E6),
            (("check", locked), E6),
            (("check", feed, locked), E6),
            (("parity", locked), E6),
            (("damages", locked), E6),
            (("compare", "--only", locked, image), E6),
            (("words", "--symbols", locked, "--rope=1", image), E6),
            (("words", locked), E6),
            (("sums", locked), E6),
            (("compare", "--old=1", image, locked), E6),
            (("run", "--image", "--rope=1", image, locked, "1"), E6),
            (("debug", "--image", locked, feed), E6),
            (("upgrade", locked, made), E6),
            (("upgrade", image, locked), E7),
        ):
            ran = subprocess.run([program, *words], stdin=subprocess.DEVNULL, capture_output=True, **who)
            wanted = refused(words, locked, b"E6") if error == E6 else error
            with self.subTest(f"devices: {name_of(words)}, without rights"):
                self.assertEqual((ran.returncode, ran.stdout, ran.stderr), (3, b"", wanted))


class Sizes(HostileCase):
    """The greatest sizes, and one more."""

    def periodic_ropes(self):
        """Ropes of few words that stand again and again, or of none in common, are aligned in bounded time."""
        rng = random.Random(5)
        periods = {"zeros": [0], "ones": [0o77777], "one word": [0o30100], "two words": [0o30100, 0o54101], "three words": [1, 2, 5], "thirteen words": list(range(100, 113)), "a bank": [rng.randrange(0o100000) for _ in range(1024)], "two random words": [rng.choice((0o1234, 0o4321)) for _ in range(36864)], "random words": [rng.randrange(0o100000) for _ in range(36864)], "other random words": [rng.randrange(0o100000) for _ in range(36864)]}
        ropes = {name: write(f"{self.room}/periodic_{number}", b"".join((2 * word).to_bytes(2, "big") for word in (words * (36864 // len(words) + 1))[:36864])) for number, (name, words) in enumerate(periods.items())}
        slow, wrong = [], []
        for old, first in ropes.items():
            for new, second in ropes.items():
                begin = time.monotonic()
                status, out, err = agcws("align", "--old=1", "--new=1", first, second)
                slow += [(old, new, time.monotonic() - begin)] if time.monotonic() - begin > 10 else []
                wrong += [(old, new, status, err)] if (status, err) != (0, b"") or b"SAME WORDS" not in out.splitlines()[-1] else []
                wrong += [(old, new, out[-80:])] if old == new and out.count(b"\n") != 1 else []
        with self.subTest(f"sizes: {len(ropes) ** 2} alignments of periodic ropes"):
            self.assertTrue(not slow and not wrong, f"slow: {slow[:5]}, wrong: {wrong[:5]}")
        self.many_names(ropes["random words"])
        self.other_lengths(ropes["random words"])

    def many_names(self, rope):
        """Names of erasable memory are carried in about the time of an alignment, however many they are."""
        names = write(f"{self.room}/many_names", b"".join(b"N%d %o\n" % (number, 0o61 + number % 1900) for number in range(30_000)))
        begin = time.monotonic()
        status, out, err = agcws("align", "--symbols", names, "--old=1", "--new=1", rope, rope)
        seconds = time.monotonic() - begin
        with self.subTest("sizes: 30,000 names"):
            self.assertTrue((status, err, out.count(b"\n")) == (0, b"", 30_000) and seconds < 10, f"{status} {err} {seconds}")

    def other_lengths(self, rope):
        """Images of other lengths than one has, to a thousand banks, are refused by what aligns and compares."""
        wrong = []
        for length in (0, 1, 2, 2047, 2048, 12288, IMAGE_BYTES - 1, IMAGE_BYTES + 1, IMAGE_BYTES + 2048, 1000 * 2048):
            other, error = write(f"{self.room}/length", bytes(length)), b"E3" if length < IMAGE_BYTES else b"E4"
            for words in (("align", "--old=1", "--new=1", rope, other), ("align", "--old=1", "--new=1", other, rope), ("find", "--rope=1", FIVE, other), ("compare", "--only", "--flight", "--new=1", FIVE, other)):
                answer = agcws(*words)
                wrong += [] if answer == (1, b"", refused(words, other, error)) else [(length, words, answer)]
        with self.subTest("sizes: images of other lengths"):
            self.assertEqual(wrong, [])

    def test_sizes(self):
        most = 8_388_608
        zeros = write(f"{self.room}/zeros", bytes(IMAGE_BYTES))
        large = write(f"{self.room}/large", b"#" * 100 + b"\n" * (most - 99))
        for words in (("run", large, EMPTY, "1"), ("run", FIVE, large, "1"), ("trace", FIVE, large, "1"), ("asm", large, f"{self.room}/rope"), ("debug", FIVE, large), ("run", "--image", "--rope=1", zeros, large, "1"), ("debug", "--image", "--rope=1", zeros, large), ("words", "--symbols", large, "--rope=1", zeros), ("trace", "--image", "--symbols", large, "--rope=1", zeros, EMPTY, "1"), ("cover", FIVE, large, "1"), ("run", "--notes", FIVE, large, "1"), ("check", large), ("check", FIVE, EMPTY, large), ("compare", "--only", large, zeros), ("debug", "--extended", FIVE, large), ("asm", "--flight", large, f"{self.room}/rope")):
            answer = agcws(*words)
            with self.subTest(f"sizes: {words[0]} of {most + 1} bytes"):
                self.assertEqual(answer, (1, b"", refused(words, large, b"E34")))
        whole = write(f"{self.room}/whole", b" SETLOC 4000\n TCF 4000\n" + b"#\n" * 65_534)
        with self.subTest("sizes: a source of 65,536 lines"):
            self.assertEqual(agcws("run", whole, EMPTY, "5"), (0, b"", b""))
        # The longest source that has no fault: as many lines as there may be, and each as long as it may be.
        longest, made = b" SETLOC 4000\n TCF 4000\n" + (b"#" * 120 + b"\n") * 65_534, f"{self.room}/longest_rope"
        write(whole, longest)
        with self.subTest(f"sizes: a source of {len(longest)} bytes"):
            self.assertEqual(agcws("run", whole, EMPTY, "5"), (0, b"", b""))
        status, out, err = agcws("asm", whole, made)
        with self.subTest(f"sizes: the image and the listing of {len(longest)} bytes"):
            self.assertTrue((status, err) == (0, b"") and os.path.getsize(made) == IMAGE_BYTES and out.endswith(b"SYMBOLS 0\n"), f"{status} {out[-80:]} {err}")
        write(whole, b" SETLOC 4000\n TCF 4000\n" + b"#\n" * 65_535)
        with self.subTest("sizes: a source of 65,537 lines"):
            self.assertEqual(agcws("run", whole, EMPTY, "5"), (1, b"", b"agcws: E12 LINE 65537\n"))
        write(whole, b" SETLOC 10000\n TCF 4000\n" + b"#\n" * 262_142)
        with self.subTest("sizes: a flight source of 262,144 lines"):
            self.assertEqual(agcws("asm", "--flight", whole, made)[::2], (0, b""))
        write(whole, b" SETLOC 10000\n TCF 4000\n" + b"#\n" * 262_143)
        with self.subTest("sizes: a flight source of 262,145 lines"):
            self.assertEqual(agcws("asm", "--flight", whole, made), (1, b"", b"agcws: E12 LINE 262145\n"))
        write(whole, b" " * 119 + b"#" * (most - 120) + b"\n")
        with self.subTest("sizes: a flight source that is a comment"):
            self.assertEqual(agcws("asm", "--flight", whole, made)[::2], (0, b""))
        write(whole, b" " * 120 + b"#" * (most - 121) + b"\n")
        with self.subTest("sizes: a flight line of 120 bytes and a comment"):
            self.assertEqual(agcws("asm", "--flight", whole, made), (1, b"", b"agcws: E11 LINE 1\n"))
        inputs = write(f"{self.room}/inputs", b"7 TIME1 PINC\n" * 65_536)
        with self.subTest("sizes: 65,536 inputs"):
            self.assertEqual(agcws("run", FIVE, inputs, "5")[0], 0)
        write(inputs, b"7 TIME1 PINC\n" * 65_537)
        with self.subTest("sizes: 65,537 inputs"):
            self.assertEqual(agcws("run", FIVE, inputs, "5"), (1, b"", b"agcws: E32\n"))
        # A line that is too long, and a command whose last byte is the last that counts.
        commands = b"x" * (16_777_216 - 8) + b"\nstep 1\n"
        right = agcws("debug", FIVE, EMPTY, commands=b"x" * 81 + b"\nstep 1\n")
        ended = (*right[:2], b"agcws: commands end after 16777216 bytes\n")
        with self.subTest("sizes: commands of 16,777,216 bytes"):
            self.assertEqual(agcws("debug", FIVE, EMPTY, commands=commands), ended)
        with self.subTest("sizes: commands of more bytes"):
            self.assertEqual(agcws("debug", FIVE, EMPTY, commands=commands + b"step 5\n"), ended)
        with self.subTest("sizes: commands of a byte less"):
            self.assertEqual(agcws("debug", FIVE, EMPTY, commands=commands[1:]), right)
        with self.subTest("sizes: an extended session of more bytes"):
            self.assertEqual(agcws("debug", "--extended", FIVE, EMPTY, commands=commands + b"echo on\n"), (0, b"E51 LONG\nAT 1 2 02,4001\non\n", b""))
        self.image_sizes(zeros)
        self.odd_images()
        self.octal_texts()

    def image_sizes(self, zeros):
        """An image of a byte less, and of a byte more."""
        self.periodic_ropes()
        short, long = write(f"{self.room}/short", bytes(IMAGE_BYTES - 1)), write(f"{self.room}/long", bytes(IMAGE_BYTES + 1))
        for image, error in ((short, b"E3"), (long, b"E4"), ("/dev/null", b"E3")):
            for words in (
                ("words", "--rope=1", image),
                ("sums", "--rope=1", image),
                ("sums", "--forms", "--rope=1", image),
                ("parity", image),
                ("parity", "--form=hardware", image),
                ("damages", image),
                ("damages", "--source", image),
                ("words", "--parity=ignore", image),
                ("words", "--symbols", EMPTY, "--rope=1", image),
                ("trace", "--image", "--rope=1", image, EMPTY, "1"),
                ("cover", "--image", "--rope=1", image, EMPTY, "1"),
                ("debug", "--extended", "--image", "--rope=1", image, EMPTY),
                ("words", "--source", "--rope=1", image),
                ("compare", "--only", "--new=1", FIVE, image),
                ("compare", "--old=1", "--new=1", image, zeros),
                ("compare", "--old=1", "--new=1", zeros, image),
                ("run", "--image", "--rope=1", image, EMPTY, "1"),
                ("debug", "--image", "--rope=1", image, EMPTY),
                ("upgrade", image, f"{self.room}/made"),
            ):
                answer = agcws(*words)
                with self.subTest(f"sizes: {name_of(words)}"):
                    self.assertEqual(answer, (1, b"", refused(words, image, error)))

    def odd_images(self):
        """Images of other lengths, up to 1,000 banks, and images of zeros, of ones, and of bytes that come again: each answer in time and in little memory."""
        image, chance = f"{self.room}/odd", random.Random(64)
        lengths = [0, 1, 2, 2047, 2048, 2049, 12_288, 24_576, 61_440, IMAGE_BYTES - 2, IMAGE_BYTES + 2, 2 * IMAGE_BYTES, 1000 * 2048, *chance.sample(range(IMAGE_BYTES), 20)]
        for length in lengths:
            write(image, bytes(length))
            for words in (("words", "--rope=1", image), ("sums", "--rope=1", image), ("sums", "--forms", "--rope=1", image), ("parity", image), ("damages", image), ("damages", "--form=swapped,numbered", image)):
                error = b"E3" if length < IMAGE_BYTES else b"E4"
                with self.subTest(f"sizes: {words[0]} of an image of {length} bytes"):
                    self.assertEqual(in_bounds(words), (1, b"", refused(words, image, error)))
            for form in ("module1", "hardware,swapped,complemented,module6"):
                error = b"E3" if length < 12_288 else b"E4"
                wanted = (1, b"", b"agcws: " + error + b"\n")
                with self.subTest(f"sizes: {form} of {length} bytes"):
                    answer = in_bounds(("damages", "--form", form, image))
                    self.assertTrue(answer == wanted or (length == 12_288 and answer[0] == 1 and answer[1].endswith(b"COUNT 6\n")), f"{answer}")
        periods = [bytes([byte]) for byte in (0, 255, 1, 254)] + [chance.randbytes(length) for length in (2, 3, 4, 6, 16, 512, 1024, 2048, 4096, 12_288, 24_576, IMAGE_BYTES)]
        for period in [*periods, b"\0\1", b"\xff\xfe"]:
            write(image, (period * (IMAGE_BYTES // len(period) + 1))[:IMAGE_BYTES])
            for words in (("words", "--parity=ignore", image), ("sums", "--parity=ignore", image), ("sums", "--forms", "--rope=1", image), ("parity", image), ("damages", image), ("damages", "--form=hardware", image), ("damages", "--form=hardware,swapped,complemented,numbered", image), ("damages", "--source", image)):
                status, out, err = in_bounds(words)
                is_right = (status, err) == (0, b"") or (status == 1 and (out.endswith(b"\n") and b"COUNT " in out[-12:] or err == b"agcws: E5\n"))
                with self.subTest(f"sizes: {words[0]} of a period of {len(period)} bytes"):
                    self.assertTrue(is_right, f"{status} {out[-80:]} {err}")

    def octal_texts(self):
        """Texts of octal words of 1,000 banks, of one line, of lines without a word and of more bytes than a text may have: each answer in time and in little memory."""
        text, bank = f"{self.room}/octals", b"00001 " * 1023 + b"77777"
        banks = b"\n".join(b"BANK=%o\n%s" % (number, bank) for number in range(36))
        write(text, banks)
        status, out, err = in_bounds(("words", "--octal", text), os.path.getsize(text))
        with self.subTest("sizes: a text of 36 banks"):
            self.assertTrue((status, err) == (0, b"") and out.replace(b"BANK=0", b"BANK=").split() == banks.split(), f"{status} {out[:80]} {err}")
        for label, it in (("1,000 banks", b"\n".join(b"BANK=%o\n%s" % (number, bank) for number in range(1000))), ("one line", b"BANK=02 " + bank * 100), ("a long line", b"BANK=02\n" + bank * 1000), ("ones", b"BANK=02\n" + b"1" * 1_000_000)):
            write(text, it)
            status, out, err = in_bounds(("words", text), os.path.getsize(text))
            with self.subTest(f"sizes: a text of octal words, {label}"):
                self.assertTrue((status, out) == (1, b"") and err.startswith(text.encode() + b":") and err.endswith((b"agcws: E3\n", b"agcws: E4\n", b"agcws: E5\n")), f"{status} {out[:80]} {err}")
        write(text, b"BANK=02\n" + b"\n" * 8_388_601)
        with self.subTest("sizes: a text of octal words of 8,388,609 bytes"):
            self.assertEqual(in_bounds(("words", text), os.path.getsize(text)), (1, b"", b"agcws: E34\n"))
        write(text, b"BANK=02\n" + b"\n" * 8_388_600)
        with self.subTest("sizes: a text of octal words of 8,388,608 bytes"):
            self.assertEqual(in_bounds(("words", text), os.path.getsize(text))[::2], (0, b""))


class Bytes(HostileCase):
    """Cases of each kind, each in a process of its own."""

    def test_bytes(self):
        print(f"hostile inputs by AGCWS_SEED={SEED}", flush=True)
        made = cases.Made(self.room)
        for kind in cases.KINDS:
            step, started = max(1, min(1000, CASES // 8 + 1)), time.monotonic()
            with ProcessPoolExecutor() as pool:
                parts = [pool.submit(some_cases, made, SEED, kind, first, min(first + step, CASES)) for first in range(0, CASES, step)]
                results = [part.result() for part in parts]
            wrong = [it for part, _, _ in results for it in part]
            slowest, largest = max(it for _, it, _ in results), max(it for _, _, it in results)
            with self.subTest(f"bytes: {kind}, {len(wrong)} of {CASES}"):
                self.assertFalse(wrong, f"seed {SEED}, the first: {wrong[:5]}")
            print(f"bytes: {CASES} of {kind}: {time.monotonic() - started:.0f} s; the slowest call took {slowest:.2f} s, the largest {largest >> 10} KiB", flush=True)
        self.checks(made)
        self.checks_of_feeds(made)
        self.readings(made)
        self.alike(made)
        self.with_failures(made)

    def checks(self, made):
        step = max(1, min(1000, CASES // 8 + 1))
        with ProcessPoolExecutor() as pool:
            parts = [pool.submit(some_checks, made, SEED, first, min(first + step, CASES)) for first in range(0, CASES, step)]
            results = [part.result() for part in parts]
        wrong, refused, taken = [it for part, _, _ in results for it in part], sum(it for _, it, _ in results), sum(it for _, _, it in results)
        with self.subTest(f"bytes: check, {len(wrong)} of {CASES}"):
            self.assertTrue(not wrong and 0 < taken < refused < CASES, f"seed {SEED}, {refused} refused, {taken} of them taken with --flight, the first: {wrong[:5]}")

    def checks_of_feeds(self, made):
        step = max(1, min(1000, CASES // 8 + 1))
        with ProcessPoolExecutor() as pool:
            parts = [pool.submit(some_feeds, made, SEED, first, min(first + step, CASES)) for first in range(0, CASES, step)]
            results = [part.result() for part in parts]
        wrong, refused = [it for part, _ in results for it in part], sum(it for _, it in results)
        with self.subTest(f"bytes: check of feeds, {len(wrong)} of {CASES}"):
            self.assertTrue(not wrong and 0 < refused < CASES, f"seed {SEED}, {refused} refused, the first: {wrong[:5]}")

    def readings(self, made):
        """Runs of hostile sources, images and feeds, as those tell them that read a run."""
        step = max(1, min(1000, CASES // 8 + 1))
        for kind in ("source", "image", "feed"):
            with ProcessPoolExecutor() as pool:
                parts = [pool.submit(some_readings, made, SEED, kind, first, min(first + step, CASES)) for first in range(0, CASES, step)]
                results = [part.result() for part in parts]
            wrong, ran, noted = [it for part, _, _ in results for it in part], sum(it for _, it, _ in results), sum(it for _, _, it in results)
            with self.subTest(f"bytes: {kind} as it is read, {len(wrong)} of {CASES}"):
                self.assertTrue(not wrong and ran > 0 and noted > 0, f"seed {SEED}, {ran} were run, {noted} drew notes; the first: {wrong[:5]}")

    def with_failures(self, made):
        """As many further cases, in one process: each is tried by itself, and then with a request for memory refused, or a read or a write that fails."""
        for kind in cases.KINDS:
            runs = [run.try_all(FAILURES=1) for run in in_process.runs_of(made, SEED, CASES, 2 * CASES, kind)]
            wrong, tried = [it for run in runs for it in run.wrong], sum(run.count for run in runs)
            with self.subTest(f"bytes: {kind} with failures, {len(wrong)} of {CASES}"):
                self.assertTrue(not wrong and tried == CASES, f"seed {SEED}, {tried} were tried; the first: {wrong[:5]}")
            failures = sum((run.failures for run in runs), collections.Counter())
            print(f"bytes: {tried} of {kind} with a failure: " + ", ".join(f"{failures[it]} of {it}" for it in ("memory", "read", "write")), flush=True)

    def alike(self, made):
        """In one process, with the files and the memory of a library, the program answers as in a process of its own."""
        worker = Worker(made, SEED)
        try:
            for kind in cases.KINDS:
                runs = in_process.runs_of(made, SEED, 0, ALIKE, kind)
                answers = sorted((line for run in runs for line in run.try_all(TELL=1).told), key=lambda it: int(it.split()[1]))
                pairs = list(zip(answers, (worker.answer(kind, number) for number in range(ALIKE)), strict=True)) if len(answers) == ALIKE else []
                other = [it for it in pairs if it[0] != it[1]]
                with self.subTest(f"bytes: {kind} in one process, as each in its own"):
                    self.assertTrue(len(pairs) == ALIKE and not other, f"{len(answers)} answers, of {len(other)} other ones the first: {other[:2]}")
        finally:
            shutil.rmtree(worker.room)
        wrong = [it for run in in_process.runs_of(made, SEED, 0, ALIKE, "source") for it in run.try_all(REFUSALS="10").wrong]
        with self.subTest("bytes: in one process a refusal that does not exist would be told"):
            self.assertTrue(any("no such refusal" in it for it in wrong), f"{wrong[:3]}")


if __name__ == "__main__":
    unittest.main()
