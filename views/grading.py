"""Judges a source beside a model solution, or by a text of tests: what it puts out over feeds, its first wrong word and how that came about, what was executed, and what is told of it. `grade` uses this module."""
import hashlib
import json
import os
import re
import subprocess
import tempfile
from itertools import zip_longest
from typing import NamedTuple

import pages
import pipe
from batch import sum_of

# The most bytes of a source, and the most rows of its listing and links of a chain that are kept.
MOST_BYTES, MOST_ROWS, MOST_LINKS = 8_388_608, 3000, 12
# So many links are looked at for those kept, and so many steps for the first that is another than the model's.
FAR, MOST_STEPS = 400, 4000
# Words that come too late, or too early, are looked for in so many times N steps.
LATER = 4
# What `agcws expect` tells of a test that is not met.
FAILS = re.compile(r"FAIL .*?: line (\d+), step (\d+), cycle (\d+): (.*)")


class Failed(Exception):
    """Why a source could not be judged."""


class Task(NamedTuple):
    """What is asked of each source: the model, feeds, steps, the options before a source, the channels that count or none for those of the model, the most seconds
    of a call, and the tests that judge it in place of the model."""

    model: str
    feeds: list
    steps: int
    options: list
    channels: list
    seconds: float
    tests: object = None


def call(task, *words, given=""):
    """The program's status, what it writes, and what it says, over a standard input."""
    try:
        ran = subprocess.run([pipe.program(), *words], input=given, capture_output=True, text=True, errors="replace", timeout=task.seconds, check=False, start_new_session=True)
    except subprocess.TimeoutExpired:
        raise Failed(f"agcws {words[0]} has no end within {task.seconds:g} seconds") from None
    return ran.returncode, ran.stdout, ran.stderr


def answer(task, *words, given=""):
    status, out, said = call(task, *words, given=given)
    if status:
        raise Failed(said.strip() or f"agcws {words[0]} has ended with status {status}")
    return out, said


def outputs_of(task, source, feed, times=1):
    """What a source puts out over a feed in so many times N steps, the notes, and how the run ends."""
    out, said = answer(task, "run", "--notes", "--end", *task.options, source, feed, str(times * task.steps))
    lines = said.splitlines()
    outputs = [it for it in map(pipe.output_of, out.splitlines()) if it]
    return outputs, [it for it in lines if pipe.note_of(it)], next((it for it in lines if it.startswith("END ")), "")


def words_of(outputs, channels):
    """The words of each of some channels, with their cycles."""
    return {channel: [(it.word, it.cycles) for it in outputs if it.channel == channel] for channel in channels}


class Model:
    """What the model puts out over each feed: in N steps, and in some times so many; and its figures."""

    def __init__(self, task):
        self.now = [outputs_of(task, task.model, it) for it in task.feeds]
        later = [outputs_of(task, task.model, it, LATER)[0] for it in task.feeds]
        self.channels = [task.channels or sorted({it.channel for it in outputs}) for outputs, _, _ in self.now]
        self.words = [words_of(it[0], channels) for it, channels in zip(self.now, self.channels)]
        self.later = [words_of(it, channels) for it, channels in zip(later, self.channels)]
        self.kinds = [{pipe.note_of(it).kind for it in notes} for _, notes, _ in self.now]

    def wanted(self):
        """What is to be put out over each feed, to be kept."""
        return [[[channel, [word for word, _ in words]] for channel, words in it.items()] for it in self.words]


def first_difference(words, wanted, later):
    """The first word of one channel that is another than is wanted, comes in addition, or is missing: its number, it, its cycles, and what is wanted. What the model
    itself puts out later is no addition."""
    for number, (found, meant) in enumerate(zip_longest(words, later), 1):
        if found is None:
            return (number, None, None, meant[0]) if number <= len(wanted) else None
        if meant is None or found[0] != meant[0]:
            return number, found[0], found[1], meant and meant[0]
    return None


def difference(words, wanted, later):
    """The same of all channels: the one that comes first, and a missing one last."""
    found = [(channel, *it) for channel in wanted if (it := first_difference(words[channel], wanted[channel], later[channel]))]
    named = [dict(zip(("channel", "number", "got", "cycles", "wanted"), it)) for it in found]
    return min(named, key=lambda it: (it["got"] is None, it["cycles"] or 0), default=None)


def judged(task, source, number, model):
    """What a source does over a feed, by the feed's number."""
    feed, channels, wanted, later = task.feeds[number], model.channels[number], model.words[number], model.later[number]
    outputs, notes, end = outputs_of(task, source, feed)
    wrong = difference(words_of(outputs, channels), wanted, later)
    if wrong and wrong["got"] is None:
        outputs = outputs_of(task, source, feed, LATER)[0]
        wrong = difference(words_of(outputs, channels), wanted, later)
    if wrong:
        wrong |= chain_of(task, source, feed, wrong)
    found, counted = words_of(outputs, channels), {it: len(words) for it, words in wanted.items()}
    last = max((words[counted[it] - 1][1] for it, words in found.items() if 0 < counted[it] <= len(words)), default=0)
    return {
        "wrong": wrong,
        "last": 0 if wrong else last,
        "others": sorted({it.channel for it in outputs} - {*channels}),
        "notes": [it for it in notes if pipe.note_of(it).kind not in model.kinds[number]],
        "end": end,
    }


class Tests:
    """A text of tests, as `agcws expect` takes it: what it runs, the names of its tests, and its lines."""

    def __init__(self, path):
        with open(path, encoding="utf-8", errors="surrogateescape", newline="") as file:
            self.lines = file.read().split("\n")
        fields = [it.split("#")[0].split() for it in self.lines]
        head = {it[0]: it[1] for it in reversed(fields) if it[:1] and it[0] in ("SOURCE", "FEED", "STEPS") and it[2:] in ([], ["UNTIL", "IDLE"]) and len(it) > 1}
        self.fields, self.names = fields, [" ".join(it[1:]) for it in fields if it[:1] == ["TEST"]]
        self.feed = os.path.join(os.path.dirname(path), head["FEED"]) if "FEED" in head else os.devnull
        if not head.get("STEPS", "").isdigit():
            raise Failed(f"{path} has no line STEPS")
        self.steps = int(head["STEPS"])

    def write(self, room, source):
        """Writes the text into a folder where it judges a source."""
        os.symlink(os.path.abspath(source), f"{room}/it.agc")
        os.symlink(os.path.abspath(self.feed), f"{room}/it.feed")
        files = {"SOURCE": "it.agc", "FEED": "it.feed"}
        lines = [f"{it[0]} {files[it[0]]}" if it[:1] in (["SOURCE"], ["FEED"]) else line for it, line in zip(self.fields, self.lines)]
        with open(f"{room}/it.expect", "w", encoding="utf-8", errors="surrogateescape", newline="") as file:
            file.write("\n".join(lines))
        return f"{room}/it.expect"

    def claimed(self, line):
        """What a line claims, and the place, register or channel of which it does; of calls none."""
        fields = self.fields[line - 1]
        if fields[0] == "CHANNEL":
            return " ".join(fields), f"CH{int(fields[1], 8):03o}"
        end = next((at for at, it in enumerate(fields) if re.fullmatch("[<>=]+", it)), 0)
        start = 1 if fields[0] != "AT" else 3 if fields[2].startswith("+") else 2
        return " ".join(fields), " ".join(fields[start:end])


def judged_by_tests(task, source):
    """What a source does by each of some tests."""
    with tempfile.TemporaryDirectory() as room:
        status, out, said = call(task, "expect", task.tests.write(room, source))
    lines = out.splitlines()
    if status > 1 or len(lines) != len(task.tests.names):
        refused = re.match(r".*?:(\d+):\d+: error: (.*)\n  *(.*)", said)
        raise Failed(f"line {refused[1]} of the tests, {refused[3].strip()}: {refused[2]}" if refused else said.strip().split("\n")[0] or f"agcws expect has ended with status {status}")
    outputs, notes, end = outputs_of(task, source, task.tests.feed)
    found = [{"wrong": failure_of(task, source, it), "last": 0, "others": [], "notes": [], "end": end} for it in lines]
    if found:
        found[0] |= {"notes": notes, "last": outputs[-1].cycles if outputs and not any(it["wrong"] for it in found) else 0}
    return found


def failure_of(task, source, line):
    """Where a test fails, what is claimed there, and how what came instead came about; or nothing."""
    found = FAILS.fullmatch(line)
    if not found:
        return None
    number, step, cycles = map(int, found.groups()[:3])
    claim, place = task.tests.claimed(number)
    noted = re.match(r"NOTE .* STEP (\d+)", found[4])
    step = int(noted[1]) if noted else step
    came = not re.match("nothing came|it is not|it is called|a call|NOTE |check: ", found[4])
    lines = asked(task, source, task.tests.feed, f"run {step}", "where", "trace 6", *[f"why {place} {FAR}"] * (came and bool(place)))
    chain = folded([it for it in lines if re.match("BY |START |ALL$|MORE ", it)]) if came else [it for it in lines if re.match(r"WHERE |LIST |IN INTERRUPT|TRACE ", it)]
    return {"said": f"{claim}: {found[4]}", "at": f"step {step}, cycle {cycles}", "step": step if came else None, "got": 0 if came else None, "chain": chain}


def chain_of(task, source, feed, wrong):
    """The step that put out a wrong word, and how the word came about; or where the run stands at the end, where a word is missing."""
    if wrong["got"] is None:
        lines = asked(task, source, feed, f"run {task.steps}", "where")
        return {"step": None, "chain": [it for it in lines if re.match("WHERE |LIST |IN INTERRUPT", it)]}
    lines = asked(task, source, feed, f"until {wrong['cycles']}", f"why CH{wrong['channel']:03o} {FAR}")
    step = next((int(it.split()[1]) for it in lines if it.startswith("AT ")), None)
    return {"step": step, "chain": folded([it for it in lines if re.match("BY |START |ALL$|MORE ", it)])}


def folded(chain):
    """A chain in which each instruction stands once, by its last step; and how many links are left out."""
    links = {re.sub(r"^BY \d+ | : .*?(?= IN STEP|$)", "", it): it for it in reversed(chain) if it.startswith(("BY ", "START "))}
    shown = [it for it in chain if it in links.values()][:MOST_LINKS]
    left_out = sum(it.startswith(("BY ", "START ")) for it in chain) - len(shown)
    return shown + [it for it in chain[-1:] if it == "ALL" and not left_out] + [f"(and {left_out} more of the same rows, or before)"] * (left_out > 0)


def steps_of(task, source):
    """The steps of a run over the first feed: of each its place, and what it did without the places to which calls lead back."""
    out = answer(task, "trace", *task.options, source, task.feeds[0], str(min(task.steps, MOST_STEPS)))[0]
    found = [re.split(r"  +", it) for it in out.splitlines()]
    return [(it[2], re.sub(r"\b(Q|BB|ZRUPT|BRUPT|[A-Z0-9,]*00(15|17))=\d+", r"\1", " ".join(it[4:6]))) for it in found if len(it) > 5]


def parting(task, source, rows):
    """The first step at which a source does another thing than the model, and the line of its instruction; nothing where it is the first of all, or none."""
    if not task.model:
        return None
    steps, model = steps_of(task, source), steps_of(task, task.model)
    at = next((it for it, (one, other) in enumerate(zip(steps, model)) if one[1] != other[1]), 0)
    if not at:
        return None
    lines = {it[1]: it[0] for it in rows if it[2]}
    line = next((lines[place] for place, _ in reversed(steps[: at + 1]) if place in lines), None)
    return {"step": at + 1, "line": line, "text": steps[at][1]}


def asked(task, source, feed, *commands):
    """What a session replies to some commands."""
    return answer(task, "debug", "--extended", *task.options, source, feed, given="".join(f"{it}\n" for it in commands))[0].splitlines()


def cover_of(task, source):
    """The rows of the listing with how often each was executed over all feeds: line, place, word, text, times, and whether it is an instruction."""
    rows = []
    for feed in task.feeds:
        objects = map(json.loads, answer(task, "cover", "--json", *task.options, source, feed, str(task.steps))[0].splitlines())
        found = [[pipe.covered_row(it), it["count"] or 0] for it in objects if it["kind"] == "line"]
        rows = [[row, times + more] for (row, times), (_, more) in zip(rows, found)] if rows else found
    return [[row.line, row.place, row.word, row.text, times, pages.is_instruction(row)] for row, times in rows]


def faults_of(task, source):
    """Whether a source is refused, and what `agcws check` tells of it, without its name."""
    status, out, said = call(task, "check", *task.options, source)
    lines = (out or said).splitlines()
    return bool(status), [it.removeprefix(f"{source}:") for it in lines if not re.fullmatch(r"\d+ errors?, \d+ warnings?", it)]


def result_of(task, source, model):
    """What comes of a source, as it is kept. Whatever fails is told in it."""
    try:
        size = os.path.getsize(source)
        if size > MOST_BYTES:
            raise Failed(f"it has {size} bytes, and a source {MOST_BYTES} at most")
        with open(source, "rb") as file:
            text = file.read().decode("ascii", "replace")
        is_refused, lines = faults_of(task, source)
        if is_refused:
            return {"refused": lines or ["it is refused"]}
        rows = cover_of(task, source)
        feeds = judged_by_tests(task, source) if task.tests else [judged(task, source, number, model) for number in range(len(task.feeds))]
        parts = parting(task, source, rows) if any(it["wrong"] for it in feeds) else None
    except (Failed, pipe.Refused) as failed:
        return {"failed": str(failed).replace(source, "it")}
    except OSError as failed:
        return {"failed": f"it cannot be read: {failed.strerror}"}
    except Exception as failed:
        # (nothing of one hand-in ends the others)
        return {"failed": f"what the program says of it is not understood: {failed!r}"}
    executed, never = [[it for it in rows if it[5] and bool(it[4]) == is_so] for is_so in (True, False)]
    return {
        "parts": parts,
        "feeds": feeds,
        "warnings": [it for it in lines if re.search(r"^\d+:\d+: ", it)],
        "executed": len(executed),
        "instructions": len(executed) + len(never),
        "rows": rows[:MOST_ROWS],
        "words": sum_of_all(f"{it[1]} {it[2]}" for it in rows if it[2]),
        "text": sum_of_all(" ".join(plain(it)) for it in text.splitlines() if plain(it)),
    }


def plain(line):
    """The fields of a line without its comment; a label is marked."""
    code = line.split("#")[0]
    fields = code.split()
    return [":", *fields] if code[:1].strip() else fields


def sum_of_all(lines):
    return hashlib.sha256("\n".join(lines).encode()).hexdigest()


def is_right(result):
    """Whether all is put out over each feed."""
    return "feeds" in result and not any(it["wrong"] for it in result["feeds"])


def passed(result):
    return sum(not it["wrong"] for it in result.get("feeds", []))


def cycles_of(result):
    """The cycles up to the last word that is wanted, over all feeds, where all are right."""
    return sum(it["last"] for it in result["feeds"]) if is_right(result) else 0


def kinds_of(result):
    """The kinds of what is told of the runs, beside the model's."""
    return sorted({pipe.note_of(line).kind for it in result.get("feeds", []) for line in it["notes"]})


def noted(result):
    """The kinds of its notes, in words, or nothing."""
    kinds = kinds_of(result)
    return f"notes: {' '.join(kinds)}" if kinds else ""


def told_word(word):
    """A word in octal and decimal."""
    return "no word" if word is None else f"{word:05o} ({word if word < 0o40000 else word - 0o77777})"


def kind_of_wrong(wrong):
    """What is wrong, in words, without the step and the cycle at which it is."""
    if "said" in wrong:
        return re.sub(r"called \d+ times", "called some times", wrong["said"])
    return f"word {wrong['number']} of CH {wrong['channel']:03o} is {told_word(wrong['got'])}"


def told_wrong(wrong):
    """The first wrong word, in words."""
    if "said" in wrong:
        return f"{wrong['said']} ({wrong['at']})"
    at = f"word {wrong['number']} of CH {wrong['channel']:03o}"
    if wrong["got"] is None:
        where = next((it.split(" ", 2)[-1] for it in wrong["chain"] if it.startswith("WHERE ")), "")
        return f"{at} is missing: {told_word(wrong['wanted'])} is wanted{f', and the run ends at {where}' if where else ''}"
    if wrong["wanted"] is None:
        return f"{at} is one too many: {told_word(wrong['got'])} at cycle {wrong['cycles']}, step {wrong['step']}"
    return f"{at} is {told_word(wrong['got'])} at cycle {wrong['cycles']}, step {wrong['step']}, and not {told_word(wrong['wanted'])}"


def never_executed(result):
    """The lines of instructions that were never executed, as ranges: 4-7 12. Lines without a word are passed over."""
    ends, is_open = [], False
    for line, _, word, _, times, is_instruction in result.get("rows", []):
        if not word:
            continue
        is_never = is_instruction and not times
        if is_never and is_open:
            ends[-1][1] = line
        elif is_never:
            ends.append([line, line])
        is_open = is_never
    return " ".join(f"{first}-{last}" if first < last else f"{first}" for first, last in ends)


def first_fault(result, names):
    """What is wrong first, in words, or nothing; feeds have names."""
    if "failed" in result:
        return result["failed"]
    if "refused" in result:
        return next((it for it in result["refused"] if re.match(r"\d+:\d+: error", it)), result["refused"][0])
    return next((f"{name}: {told_wrong(it['wrong'])}" for name, it in zip(names, result["feeds"]) if it["wrong"]), "")


def key_of(path):
    """A sum by which a source's result is found again, whatever its name; of one that is too large its size."""
    try:
        size = os.path.getsize(path)
        return sum_of(path) if size <= MOST_BYTES and os.access(path, os.R_OK) else f"{size} bytes"
    except OSError as failed:
        return failed.strerror
