"""Many runs of the program: side by side, with progress at a terminal, and kept in a file so that what was broken off goes on. `shake` and `grade` use this module."""
import hashlib
import json
import os
import sys
import time
from concurrent.futures import ThreadPoolExecutor, as_completed

import pipe

# So many pieces of work are handed out at once, and the progress is told at most each so many seconds.
BATCH, PAUSE = 1000, 0.2


def take_jobs(parser, kind):
    """Has a view take what it needs for many runs of a kind."""
    parser.add_argument("--jobs", type=int, default=len(os.sched_getaffinity(0)), metavar="J", help=f"how many {kind} at once [default: one a processor]")
    parser.add_argument("--keep", metavar="FILE", help=f"keep in FILE what comes of each of the {kind}, and take from it what is kept there: so what was broken off goes on")


class Progress:
    """Tells at a terminal how many are done, and how long the others will take."""

    def __init__(self, name, total):
        self.name, self.total, self.done = name, total, 0
        self.begun = self.told = time.monotonic()
        self.is_shown = sys.stderr.isatty()

    def take(self, count=1):
        self.done += count
        now = time.monotonic()
        if self.is_shown and now - self.told > PAUSE:
            self.told = now
            left = (now - self.begun) / self.done * (self.total - self.done)
            print(f"\r{self.name}: {self.done} of {self.total}, {left:.0f} s left\x1b[K", end="", file=sys.stderr, flush=True)

    def end(self):
        if self.is_shown and self.told != self.begun:
            print("\r\x1b[K", end="", file=sys.stderr, flush=True)


def each(work, items, jobs, name, sizes=lambda it: 1):
    """Some work on each item, so many at once: the items with what comes of them, as they come. The progress counts their sizes."""
    progress, pool = Progress(name, sum(map(sizes, items))), ThreadPoolExecutor(max(1, jobs))
    try:
        for at in range(0, len(items), BATCH):
            asked = {pool.submit(work, it): it for it in items[at : at + BATCH]}
            for it in as_completed(asked):
                progress.take(sizes(asked[it]))
                yield asked[it], it.result()
    finally:
        pool.shutdown(cancel_futures=True)
        progress.end()


def sum_of(path):
    """A sum by which a file, or one that is not there, is told from others."""
    try:
        with open(path, "rb") as file:
            made = hashlib.sha256()
            for part in iter(lambda: file.read(1 << 20) if os.path.isfile(path) else b"", b""):
                made.update(part)
            return made.hexdigest()
    except OSError as failed:
        return failed.strerror


def sum_of_text(text):
    return hashlib.sha256(text.encode()).hexdigest()


def program_sum():
    return sum_of(pipe.program())


class Kept:
    """Lines of JSON in a file, the first of which says of what the others are results. Without a path nothing is kept."""

    def __init__(self, path, about):
        self.file, self.found = None, []
        if path is None:
            return
        text = text_at(path)
        values = [it for it in map(value_of, text.splitlines()) if it is not None]
        if values[:1] != [about] and not json.dumps(about).startswith(text):
            raise pipe.Refused(2, f"{path} keeps something else: the results of another source, feed, program or option")
        self.found = values[1:]
        self.file = open(path, "a", encoding="utf-8")
        # (after a line that is cut short)
        self.file.write("\n" if text and not text.endswith("\n") else "")
        if not values:
            self.add(about)

    def add(self, value):
        if self.file:
            self.file.write(json.dumps(value) + "\n")
            self.file.flush()


def text_at(path):
    """The text of a file, or none where it is not there."""
    try:
        with open(path, encoding="utf-8", errors="replace") as file:
            return file.read()
    except FileNotFoundError:
        return ""


def value_of(line):
    """What a line of JSON is, or None where it was cut short."""
    try:
        return json.loads(line)
    except ValueError:
        return None
