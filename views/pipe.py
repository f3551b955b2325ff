"""Finds the program and drives it: as a process for a whole output, as a trace step by step, or as a session of commands. All views use this module.

Nothing here knows the machine or the language: places, names and instructions are texts as the program writes them."""
import argparse
import contextlib
import json
import os
import re
import shutil
import subprocess
import sys
import textwrap
from typing import NamedTuple

ROOT = os.path.dirname(os.path.dirname(os.path.realpath(__file__)))
# A cycle is 12 pulses of 1.024 MHz.
CYCLES_PER_SECOND = 1_024_000 / 12


class Refused(Exception):
    """Why the program did nothing, in its own words, and its exit status."""

    def __init__(self, status, said):
        super().__init__(said.strip())
        self.status = status

    def __reduce__(self):
        # (a worker of another process raises it too)
        return Refused, (self.status, str(self))


@contextlib.contextmanager
def written(path, *read, encoding="utf-8", newline=None):
    """Gives a file to write to: standard output where no path is named, else one beside the path that takes its place once it is whole, so that nothing is lost where
    the work ends before. A source, a feed and what is read are not written over."""
    if not path:
        yield sys.stdout
        return
    there = os.path.exists(path)
    if path.endswith((".agc", ".feed")) or there and any(os.path.exists(it) and os.path.samefile(path, it) for it in read):
        raise Refused(2, f"{path} is a source or a feed, or is read: it is not written over")
    if there and not os.path.isfile(path):
        with open(path, "w", encoding=encoding, newline=newline) as file:
            yield file
        return
    whole = os.path.realpath(path)
    part = f"{whole}.part"
    try:
        with open(part, "w", encoding=encoding, newline=newline) as file:
            yield file
        if there:
            shutil.copymode(whole, part)
        os.replace(part, whole)
    except BaseException as wrong:
        with contextlib.suppress(OSError):
            os.remove(part)
        if isinstance(wrong, OSError) and wrong.filename == part:
            wrong.filename = path
        raise


def program():
    """Returns the path of the program: what AGCWS names, else the one that is built here, proved or else quick, else agcws on the PATH."""
    named = os.environ.get("AGCWS")
    built = f"{ROOT}/crates/agcws/out"
    for path in [named] if named else [f"{built}/agcws", f"{built}/unproved/agcws", "agcws"]:
        if shutil.which(path):
            return path
    raise Refused(3, f"{named or 'the program'} is not there: ./agcws --version builds it, or AGCWS names another")


def answer(*words, given=""):
    """Runs the program to its end over a standard input. Returns what it writes to standard output and to standard error, or raises Refused."""
    ran = subprocess.run([program(), *words], input=given, capture_output=True, text=True, errors="replace", check=False)
    if ran.returncode:
        raise Refused(ran.returncode, ran.stderr)
    return ran.stdout, ran.stderr


class Output(NamedTuple):
    """A word that the program has put out on a channel: cycles in decimal, channel and word in octal."""

    cycles: int
    channel: int
    word: int


def output_of(line):
    """Returns what a channel line tells, as `7 CH 010 00012`, or None for any other line."""
    found = re.fullmatch(r"(\d+) CH ([0-7]{3}) ([0-7]{5})", line.strip())
    return found and Output(int(found[1]), int(found[2], 8), int(found[3], 8))


class Note(NamedTuple):
    """What a line of `agcws run --notes` tells: its kind, where that was (place, word and instruction, or what else is said), and the step, or 0."""

    kind: str
    where: str
    step: int


def note_of(line):
    """Returns what a line tells, as `NOTE SKIP       02,4005  54101  TS SUM             STEP 10126 CYCLES 19240 TIMES 1`, or None for any other line."""
    found = re.fullmatch(r"NOTE (\S+)(.*)", line.strip())
    step = found and re.search(r"\bSTEP (\d+)", found[2])
    return found and Note(found[1], " ".join(re.sub(r"\b(?:STEP|CYCLES|TIMES) \d+", "", found[2]).split()), int(step[1]) if step else 0)


class Step(NamedTuple):
    """A line of `agcws trace`: numbers in decimal, the rest as it is written. What was written is pairs of a place's name and the word there."""

    number: int
    cycles: int
    place: str
    word: str
    text: str
    written: list
    output: Output


def step_of(line):
    """Returns the step that a line of a trace tells."""
    fields = re.split("  +", line.rstrip("\n")) + [""]
    number, cycles, place, word, text, written, output = fields[:7]
    pairs = [] if written == "-" else [tuple(it.rsplit("=", 1)) for it in written.split(" ")]
    return Step(int(number), int(cycles), place, word, text, pairs, output_of(output))


def steps(*words):
    """The steps of a trace, each as it comes. Raises Refused at the end where the program refuses."""
    pipes = {"stdin": subprocess.DEVNULL, "stdout": subprocess.PIPE, "stderr": subprocess.PIPE}
    with subprocess.Popen([program(), "trace", *words], text=True, start_new_session=True, **pipes) as ran:
        for line in ran.stdout:
            yield step_of(line)
        said = ran.stderr.read()
    if ran.returncode:
        raise Refused(ran.returncode, said)


class Row(NamedTuple):
    """A row of a listing: its line's number, and place, word and text as they are written, or empty."""

    line: int
    place: str
    word: str
    text: str


def row_of(line):
    """Returns the row that a line of a listing is."""
    return Row(int(line[:5]), line[6:13].strip(), line[14:19].strip(), line[21:])


def listing_of(*words):
    """Returns the rows of the listing of a source, which stands behind its options, and its symbols: each name with its kind and value as they are written."""
    rows, symbols = re.split(r"^SYMBOLS \d+\n", answer("asm", *words, "/dev/null")[0], flags=re.M)
    parts = [row_of(it) for it in rows.splitlines()]
    return parts, {name: (kind, value) for name, kind, value in map(str.split, symbols.splitlines())}


class Account(NamedTuple):
    """How often something was done, and the cycles that it took."""

    times: int
    cycles: int


def cover_of(*words):
    """Returns what `agcws cover` counts of a run of a source, which stands behind its options and before feed and steps: the rows of the listing, each with its account or None, and the accounts of the other lines by name."""
    rows, others = [], {}
    for it in map(json.loads, answer("cover", "--json", *words)[0].splitlines()):
        account = Account(it["count"], it["cycles"]) if it["count"] else None
        if it["kind"] == "line":
            rows.append((covered_row(it), account))
        else:
            others[it.get("place", it["kind"])] = account
    return rows, others


def covered_row(it):
    """Returns the row of a listing that an object of `agcws cover --json` is."""
    return Row(it["line"], *(it[name] or "" for name in ("place", "word", "text")))


def knows(*words):
    """Whether the program has a subcommand, or a subcommand an option."""
    try:
        return bool(re.search(rf"^ +{re.escape(words[-1])}\b", answer(*words[:-1], "--help")[0], re.M))
    except Refused:
        return False


def faults_of(*words):
    """What the program tells of a source, which stands behind its options, line by line: its faults and warnings. Nothing where there are none, or where it has no subcommand for that."""
    if not knows("check"):
        return []
    ran = subprocess.run([program(), "check", *words], stdin=subprocess.DEVNULL, capture_output=True, text=True, errors="replace", check=False)
    lines = (ran.stdout or ran.stderr).splitlines()
    # (the last one counts them)
    return lines if len(lines) > 1 or ran.returncode else []


def words_of(image, *options):
    """Returns the words of a rope image, as the rows of a listing that has no lines."""
    lines = answer("words", *options, image)[0].splitlines()
    return [Row(0, *it.split(" ", 2)) for it in lines]


class Session:
    """A session of `agcws debug --extended`, whose input is closed at the end of a `with`."""

    # After each command come two, whose replies stand in this order nowhere else: one command draws at most one line of any text.
    END, ENDED = "echo end\necho of reply\n", ["end", "of reply"]

    def __init__(self, *words):
        pipes = {"stdin": subprocess.PIPE, "stdout": subprocess.PIPE, "stderr": subprocess.PIPE}
        # (what is typed at a terminal to stop the view does not end the session)
        self.process = subprocess.Popen([program(), "debug", "--extended", *words], text=True, errors="replace", start_new_session=True, **pipes)

    def ask(self, command):
        """Returns the lines of the reply to a command, which is one line. Raises Refused where the session has ended, as after `quit`."""
        lines = []
        try:
            self.process.stdin.write(f"{command}\n{self.END}")
            self.process.stdin.flush()
        except BrokenPipeError:
            pass  # (standard error tells why)
        while lines[-2:] != self.ENDED:
            line = self.process.stdout.readline()
            if not line:
                raise Refused(self.process.wait(), self.process.stderr.read() or "the session has ended")
            lines.append(line.rstrip("\n"))
        return lines[:-2]

    def end(self, most_seconds=2):
        """Ends the session: at once, or where a command takes longer, after some seconds."""
        try:
            self.process.stdin.close()
        except BrokenPipeError:
            pass
        self.process.stdout.close()
        self.process.stderr.close()
        try:
            self.process.wait(most_seconds)
        except subprocess.TimeoutExpired:
            self.process.kill()
            self.process.wait()

    def __enter__(self):
        return self

    def __exit__(self, *_):
        self.end()


def with_input(feed, cycle, text):
    """A feed with one line more, after those of its cycle. Where a series stands below, whose inputs may have any cycle, it is a series of one at the end."""
    lines = feed.splitlines()
    firsts = [(line.split() or [""])[0] for line in lines]
    at = next((i for i, it in enumerate(firsts) if it.isdigit() and int(it) > cycle), len(lines))
    if "EVERY" in firsts[at:]:
        return "\n".join([*lines, f"EVERY {cycle} 1 1 1 {text}", ""])
    return "\n".join([*lines[:at], f"{cycle} {text}", *lines[at:], ""])


def at_width(text, width):
    """A text in lines of at most so many columns: paragraphs are filled, and a line that begins with a blank, as a row, goes on below its last column."""
    lines, paragraph = [], []

    def fill():
        lines.extend(textwrap.wrap(" ".join(paragraph), width, break_long_words=False, break_on_hyphens=False))
        paragraph.clear()

    for line in text.split("\n"):
        if line and not line[0].isspace():
            paragraph.append(line)
            continue
        fill()
        hang = re.match(r" +\S+(?: \S+)*  +(?=\S)|", line).end() or len(line) - len(line.lstrip())
        lines += textwrap.wrap(line, width, subsequent_indent=" " * hang, break_long_words=False, break_on_hyphens=False) or [""]
    fill()
    return "\n".join(lines)


class Help(argparse.HelpFormatter):
    """The help of a view, which fits the terminal."""

    def _fill_text(self, text, width, indent):
        return at_width(text, width)


def take_program(parser):
    """Has a view take a source or an image, as the program does."""
    parser.add_argument("source", metavar="SRC", help="the source, a file")
    kind = parser.add_mutually_exclusive_group()
    kind.add_argument("--flight", action="store_true", help="SRC has forms of flight programs")
    kind.add_argument("--image", action="store_true", help="SRC is a rope image")
    parser.add_argument("--rope", choices=["1", "2"], default="2", metavar="VERSION", help="the image's version, 1 or 2 [default: 2]")


def program_words(asked):
    """The options and the source that a view was called with, as words for the program."""
    options = ["--image", "--rope", asked.rope] if asked.image else ["--flight"] if asked.flight else []
    return [*options, asked.source]


def open_streams():
    """Has a standard stream that was closed before the view began lead to /dev/null, so that no file of the view gets its number."""
    for number, (name, mode) in enumerate([("stdin", "r"), ("stdout", "w"), ("stderr", "w")]):
        if getattr(sys, name) is None:
            null = os.open(os.devnull, os.O_RDWR)
            os.dup2(null, number)
            if null != number:
                os.close(null)
            setattr(sys, name, open(number, mode, encoding="utf-8", closefd=False))


def main(view):
    """Runs a view and ends it with its status: the program's where that refuses, 3 where a file fails, and quietly where nobody reads on."""
    open_streams()
    try:
        status = view()
        sys.stdout.flush()
    except Refused as refused:
        print(refused, file=sys.stderr)
        status = refused.status
    except OSError as failed:
        # (what was not written is not tried again)
        os.dup2(os.open(os.devnull, os.O_WRONLY), sys.stdout.fileno())
        if not isinstance(failed, BrokenPipeError):
            print(f"{os.path.basename(sys.argv[0])}: {failed.filename or 'the output'}: {failed.strerror}", file=sys.stderr)
        status = 3
    except KeyboardInterrupt:
        status = 130
    sys.exit(status)
