"""The runs of a campaign: how the inputs of each are drawn, and what comes of it. A worker of Dask has this module, `pipe`, `results`, `panel` and `whatif`, and nothing else of the views."""
import hashlib
import os
import random
import re
import subprocess
import tempfile
from itertools import groupby, islice
from typing import NamedTuple

import pipe
import whatif
from panel import KEYS, PRO_BIT, PRO_CHANNEL, keys_of
from results import words_of

# Of how inputs are drawn: a campaign that goes on has to draw them as it began.
GENERATOR = 1
SERIES = re.compile(r"EVERY (\d+)-(\d+) (\d+) (\d+) (\d+) (\S.*)")
KEYED = re.compile(r"KEYS (\d+)-(\d+) (\d+)-(\d+) (\S.*)")
SINGLE = re.compile(r"(\d+)-(\d+)(?: TIMES (\d+))? (\S.*)")


class Plan(NamedTuple):
    """What all runs of a campaign have alike. The source is its bytes; the feed a text; the inputs are as they are asked for."""

    source: bytes
    options: tuple
    steps: int
    feed: str
    inputs: tuple
    seed: int
    channels: tuple
    has_notes: bool
    seconds: float
    # An input that comes at each cycle of a window in turn: the first cycle, how many, and the input; or nothing.
    window: tuple = ()
    # A text of tests, as agcws expect takes it, without the lines before its first test; or nothing.
    tests: str = ""


def keyed(random_of, first, last, least, most, keys):
    """The lines of keys, one after another."""
    at = random_of.randint(first, last)
    for name in keys_of(keys):
        if name == "PRO":
            yield f"{at} CHAN {PRO_CHANNEL:03o} {0o37777 & ~PRO_BIT:05o}"
            yield f"{at + least // 2} CHAN {PRO_CHANNEL:03o} 37777"
        else:
            yield f"{at} CHAN 015 {KEYS[name]:05o}"
        at += random_of.randint(least, most)


def lines_of(random_of, asked):
    """The lines of a feed that an input comes to, as it is asked for."""
    if found := SERIES.fullmatch(asked):
        first, last = int(found[1]), int(found[2])
        yield f"EVERY {random_of.randint(first, last)} {found[3]} {found[4]} {found[5]} {found[6]}"
    elif found := KEYED.fullmatch(asked):
        yield from keyed(random_of, *map(int, found.groups()[:4]), found[5])
    else:
        found = SINGLE.fullmatch(asked)
        for _ in range(int(found[3] or 1)):
            yield f"{random_of.randint(int(found[1]), int(found[2]))} {found[4]}"


def is_well(asked):
    """Whether an input is asked for in a form that is known, with spans that are not backwards."""
    found = SERIES.fullmatch(asked) or KEYED.fullmatch(asked) or SINGLE.fullmatch(asked)
    spans = re.findall(r"(\d+)-(\d+)", asked[: found.start(found.lastindex)]) if found else []
    return bool(spans) and all(int(a) <= int(b) for a, b in spans)


def draw_of(plan, number):
    """Of which draw a run is, and at which cycle it has the input of the window, if there is one."""
    if not plan.window:
        return number, None
    first, size, _ = plan.window
    return number // size, first + number % size


def drawn_at(plan, draw):
    """The lines of a draw."""
    random_of = random.Random(f"{GENERATOR} {plan.seed} {draw}")
    return [line for asked in plan.inputs for line in lines_of(random_of, asked)]


def drawn(plan, number):
    """The lines that run NUMBER has besides those of the feed."""
    draw, cycle = draw_of(plan, number)
    return [*drawn_at(plan, draw), *([f"{cycle} {plan.window[2]}"] if plan.window else [])]


def feed_with(feed, lines):
    """A feed with some lines more, each after those of its cycle."""
    series = [it for it in lines if it.startswith("EVERY")]
    for line in sorted((it for it in lines if not it.startswith("EVERY")), key=lambda it: int(it.split()[0])):
        cycle, _, text = line.partition(" ")
        feed = pipe.with_input(feed, int(cycle), text)
    return "\n".join([*feed.splitlines(), *series, ""])


def source_at(source):
    """A file with the source, made once."""
    path = f"{tempfile.gettempdir()}/campaign-{os.getuid()}-{hashlib.sha256(source).hexdigest()[:24]}"
    if not os.path.exists(path):
        made, own = tempfile.mkstemp(dir=tempfile.gettempdir())
        with open(made, "wb") as file:
            file.write(source)
        os.replace(own, path)
    return path


def result_over(plan, feed, times=1):
    """What comes of the run over a feed within so many times the steps: the words that each channel gets and the notes, or why it has neither."""
    words = [pipe.program(), "run", *["--notes"] * plan.has_notes, *plan.options, source_at(plan.source), "/dev/stdin", str(plan.steps * times)]
    try:
        ran = subprocess.run(words, input=feed, capture_output=True, text=True, errors="replace", timeout=plan.seconds * times, check=False)
    except subprocess.TimeoutExpired:
        return {"failed": f"it takes more than {plan.seconds:g} seconds"}
    if ran.returncode not in (0, 1):
        raise pipe.Refused(ran.returncode, ran.stderr or f"the program has ended by signal {-ran.returncode}")
    if ran.returncode:
        return {"failed": ran.stderr.strip()}
    outputs = [it for it in map(pipe.output_of, ran.stdout.splitlines()) if not plan.channels or it.channel in plan.channels]
    notes = dict.fromkeys((it.kind, it.where) for it in map(pipe.note_of, ran.stderr.splitlines()) if it)
    return {"words": words_of(outputs), "notes": list(notes), **({"tests": failing(plan, feed, times)} if plan.tests else {})}


def failing(plan, feed, times):
    """The tests that a run does not meet, as agcws expect tells them."""
    with tempfile.TemporaryDirectory() as room:
        for name, text in (("it.agc", plan.source), ("it.feed", feed.encode()), ("it.expect", f"SOURCE it.agc\nFEED it.feed\nSTEPS {plan.steps * times}\n{plan.tests}".encode())):
            with open(f"{room}/{name}", "wb") as file:
                file.write(text)
        ran = subprocess.run([pipe.program(), "expect", f"{room}/it.expect"], capture_output=True, text=True, errors="replace", timeout=plan.seconds * times, check=False)
    if ran.returncode not in (0, 1) or ran.stderr:
        raise pipe.Refused(ran.returncode or 1, ran.stderr.replace(f"{room}/", "").strip() or f"agcws expect has ended with status {ran.returncode}")
    return [it[5:] for it in ran.stdout.splitlines() if it.startswith("FAIL ")]


def result_of(plan, number):
    """What comes of run NUMBER."""
    return result_over(plan, feed_with(plan.feed, drawn(plan, number)))


def results_of(plan, numbers):
    """What comes of some rising runs, each with its number. Those of one draw that have the input of a window are made by one process."""
    if not plan.window:
        return [(it, result_of(plan, it)) for it in numbers]
    return [it for draw, runs in groupby(numbers, lambda number: draw_of(plan, number)[0]) for it in results_in_window(plan, draw, list(runs))]


def results_in_window(plan, draw, numbers):
    """What comes of some runs of a draw. Of runs one after another that put out the same, and have the same notes of steps, the first tells the notes and the tests of all."""
    feed = feed_with(plan.feed, drawn_at(plan, draw))
    words = [*plan.options, source_at(plan.source)]
    lines = [f"{draw_of(plan, it)[1]} {plan.window[2]}" for it in numbers]
    base = [pipe.output_of(it) for it in pipe.answer("run", *words, "/dev/stdin", str(plan.steps), given=feed)[0].splitlines()]
    with tempfile.NamedTemporaryFile("w", suffix=".feed") as file:
        file.write(feed)
        file.flush()
        left, found = iter(numbers), []
        spans = whatif.noted_spans if plan.has_notes else whatif.spans
        for span in spans(words, file.name, plan.steps, lines, base):
            own = list(islice(left, span.count))
            made = result_of(plan, own[0])
            found += [(it, made) for it in own]
    return found
