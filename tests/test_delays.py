"""Compares what `agcws delays` tells with what the lines of `agcws trace` of the same steps come to, and where a session says that Z leads."""
import re
import subprocess
import unittest
from collections import defaultdict

from common import PROGRAM, Case, example_runs

STEPS = 10_000
INTERRUPTS = ["T6RUPT", "T5RUPT", "T3RUPT", "T4RUPT", "KEYRUPT1", "KEYRUPT2", "UPRUPT", "DOWNRUPT", "RADARUPT", "RUPT10"]
# An overflow in A is not seen in a trace: what it bars is taken for MAIN.
HIDDEN = {"OVERFLOW": "MAIN"}
# How many calls are known to be in progress.
MOST_CALLS = 32


def lines_of(program, *words):
    return subprocess.run([program, *words], capture_output=True, text=True, timeout=300).stdout.splitlines()


def places_led_to(program, files):
    """Where Z leads at the start and after each step, as an extended session says."""
    commands = "goto 0\n" + "step 1\n" * STEPS
    run = subprocess.run([program, "debug", "--extended", *files], input=commands, capture_output=True, text=True, timeout=300)
    return [line.split()[3] for line in run.stdout.splitlines() if line.startswith("AT ")]


def is_fixed(place):
    return place[0] != "E"


def moved(place, by):
    return f"{place[:3]}{int(place[3:], 8) + by:04o}"


class Reference:
    """A run as the lines of its trace tell it: the cycles by cause, and the waits, spans and calls that its steps end."""

    def __init__(self, places):
        self.places, self.calls = places, []
        self.inhibit, self.inside, self.last = True, False, None
        self.extra = self.indexed = self.waits = False
        self.cycles, self.spent = 0, defaultdict(int)
        self.asked, self.closed = {}, ("START", 0, {}, 1)
        self.rows = defaultdict(list)

    def mark(self):
        return self.cycles, dict(self.spent)

    def cause(self, kind, name):
        if kind == "INPUT":
            return "INPUT"
        if kind == "ENTRY":
            return name
        if self.inside:
            return self.last
        if self.inhibit:
            return "INHIBITED"
        return "EXTEND" if self.extra else "INDEX" if self.indexed else "RESUME" if self.waits else "MAIN"

    def end(self, word, name, step, start, to, end):
        shares = {it: count - start[1].get(it, 0) for it, count in to[1].items() if count > start[1].get(it, 0)}
        self.rows[word, name].append((to[0] - start[0], step, shares, end))

    def leave(self, place):
        """Takes away the first call that returns to a place, and all that it made, and answers them."""
        first = next((it for it, call in enumerate(self.calls) if call[0] == place), len(self.calls))
        self.calls, gone = self.calls[:first], self.calls[first:]
        return gone

    def call(self, step, place, text, before):
        """A TC from a place of fixed memory to another is a call: where it returns, where it leads, and when it began."""
        back = self.places[step - 1] if place == "BRUPT" else moved(place, 1) if is_fixed(place) else None
        to = self.places[step]
        if text.startswith("TC ") and back and is_fixed(back) and is_fixed(to) and to != moved(back, -1):
            self.leave(back)
            self.calls = [*self.calls, (back, to, *before)][-MOST_CALLS:]

    def step(self, step, cycles, place, kind, text):
        before = self.mark()
        was_inside = self.inside
        cause = self.cause(kind, text)
        if kind == "ENTRY":
            self.end("WAIT", text, step, self.asked.pop(text), before, None)
            self.last, self.inside = text, True
        elif kind != "INPUT":
            name = text.split()[0]
            self.inhibit = name == "INHINT" or self.inhibit and name != "RELINT"
            self.inside = self.inside and name != "RESUME"
            self.waits = name == "RESUME"
            self.indexed = name in ("INDEX", "NDX")
            self.extra = name == "EXTEND" or self.extra and self.indexed
        self.spent[cause] += cycles - self.cycles
        self.cycles = cycles
        asks = re.search(" ASKS (.*)", text) if kind == "INPUT" else None
        if asks and asks[1] not in self.asked:
            self.asked[asks[1]] = (*self.mark(), step)
        is_closed = self.inhibit or self.inside
        if is_closed and not self.closed:
            self.closed = (place, *before, step)
        if not is_closed and self.closed:
            self.end("SPAN", self.closed[0], step, self.closed[1:], self.mark(), place)
            self.closed = None
        if kind not in ("INPUT", "ENTRY") and not was_inside:
            self.call(step, place, text, before)
        if not self.inside:
            for _, to, *start in self.leave(self.places[step])[:1]:
                self.end("CALL", to, step, start, self.mark(), None)


def wanted(program, files):
    """The rows that the lines of a trace come to."""
    reference = Reference(places_led_to(program, files))
    for line in lines_of(program, "trace", *files, str(STEPS)):
        step, cycles, place, kind, text = re.split("  +", line)[:5]
        reference.step(int(step), int(cycles), place, kind, text)
    rows = {}
    now = reference.mark()
    for name, since in reference.asked.items():
        reference.end("OPEN WAIT", name, since[2], since, now, None)
    if reference.closed:
        place, *since = reference.closed
        reference.end("OPEN SPAN", place, since[2], since, now, None)
    for (word, name), all_of in reference.rows.items():
        longest = max(it[0] for it in all_of)
        first = next(it for it in all_of if it[0] == longest)
        lengths = [it[0] for it in all_of]
        rows[word, name] = (longest, sum(lengths) // len(lengths), min(lengths), len(lengths), first[1], first[3], first[2])
    return {it: count for it, count in reference.spent.items() if count}, rows


def shown(lines):
    """The rows of `agcws delays`."""
    spent, rows, last = {}, {}, None
    for line in lines:
        word, rest = line[:6].strip(), line[6:]
        if word == "SPENT":
            spent[rest.split()[1]] = int(rest.split()[0])
        elif word == "OPEN":
            *figures, kind, name = rest.split(None, 6)
            last = f"{word} {kind}", name.split()[0]
            rows[last] = [*map(int, figures), None, {}]
        elif word in ("WAIT", "SPAN", "CALL"):
            *figures, name = rest.split(None, 5)
            last = word, name.split()[0]
            rows[last] = [*map(int, figures), None, {}]
        elif word == "TO":
            rows[last][5] = rest.split()[0]
        elif word == "OF":
            rows[last][6][rest.split()[1]] = int(rest.split()[0])
    return spent, {it: tuple(row) for it, row in rows.items()}


def without_hidden(shares):
    found = defaultdict(int)
    for name, count in shares.items():
        found[HIDDEN.get(name, name)] += count
    return dict(found)


class Delays(Case):
    """Where cycles go, beside a reference of its own."""

    def test_examples(self):
        for name, files in example_runs():
            self.compare(name, files)

    def compare(self, name, files):
        """Compares the rows of the first steps of a program, and whether the cycles of all causes are those of the run."""
        lines = lines_of(PROGRAM, "delays", *files, str(STEPS))
        spent, rows = shown(lines)
        rows = {it: (*row[:6], without_hidden(row[6])) for it, row in rows.items()}
        want_spent, want_rows = wanted(PROGRAM, files)
        with self.subTest(f"delays of {name}: its first line"):
            self.assertEqual(lines[:1], [f"GREATEST OF THIS FEED IN {STEPS} STEPS"])
        with self.subTest(f"delays of {name}: cycles by cause"):
            self.assertEqual(without_hidden(spent), want_spent)
        with self.subTest(f"delays of {name}: rows"):
            self.assertEqual(rows, want_rows)
        with self.subTest(f"delays of {name}: shares"):
            self.assertTrue(all(sum(row[6].values()) == row[0] for row in rows.values()))


if __name__ == "__main__":
    unittest.main()
