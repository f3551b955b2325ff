"""Where a session stands, and by which calls and interrupts it came there. `dap` uses this module.

A routine is what TC enters from a place of fixed memory to another; it returns to the word after TC. It is in progress until that word is come to."""
import re
from typing import NamedTuple

import pipe

# Calls are looked for in so many steps before the position.
MOST_BACK = 20_000


class Spot(NamedTuple):
    """Where the next instruction stands: its row of the listing, its symbol as LOOP +4 or none, if it waits, and the number and the first step of the interrupt
    that is served, or None."""

    row: pipe.Row
    symbol: str
    waits: bool
    interrupt: tuple


def spot_of(lines):
    """What the reply to `where` tells."""
    words = lines[0].split(None, 2)
    text = lines[1].removeprefix("LIST ")
    placed = re.match(r"[0-7E][0-7],[0-7]{4}", text)
    row = pipe.Row(0, *(text.split(" ", 2) + ["", ""])[:3]) if placed else pipe.row_of(text)
    waits = words[1] == "BRUPT"
    inside = next((tuple(int(it[i]) for i in (2, 4)) for line in lines[2:] if (it := line.split())[:2] == ["IN", "INTERRUPT"]), None)
    return Spot(row, "" if waits or len(words) < 3 else words[2], waits, inside)


class Frame(NamedTuple):
    """A place that a session has left by a call or an interrupt, or that it stands at: the step at which it stood there, the step that entered what it is
    part of, and the interrupt that was entered there, by its name, if that is how it was left."""

    spot: pipe.Row
    step: int
    begin: int
    interrupted_by: str


class Calls:
    """The frames of a session, the innermost first."""

    def __init__(self, desk):
        self.desk, self.entries = desk, {}

    def frames(self):
        """All that are known, and the step from which on calls were looked for, or 0 where there was none before."""
        position = self.desk.position
        try:
            return self.found(position)
        finally:
            self.desk.ask(f"goto {position}")

    def found(self, position):
        spot, spots, end = self.spot(position), [], position
        if spot.interrupt:
            entered = spot.interrupt[1]
            spots = [(it, "") for it in reversed(self.calls(max(entered, end - MOST_BACK), end))]
            spots.append((entered - 1, self.entry(entered).text))
            end = entered - 1
        first = max(0, end - MOST_BACK)
        spots += [(it, "") for it in reversed(self.calls(first, end))]
        begins = [it + 1 for it, _ in spots] + [0]
        inner = Frame(spot, position, begins[0], "")
        frames = [inner, *(Frame(self.spot(it), it, begin, name) for (it, name), begin in zip(spots, begins[1:]))]
        self.desk.ask(f"goto {first}")
        return frames, 0 if first == 0 or self.desk.ask("out 0") == ["NONE"] else first

    def spot(self, step):
        self.desk.ask(f"goto {step}")
        return spot_of(self.desk.ask("where"))

    def entry(self, step):
        """The step that has entered an interrupt."""
        if step not in self.entries:
            self.desk.ask(f"goto {step}")
            self.entries = {step: pipe.step_of(self.desk.ask("trace 1")[0])}
        return self.entries[step]

    def calls(self, first, last):
        """The positions before the TC that have entered the routines in progress, the outer ones first, of the steps after one up to another."""
        if last <= first:
            return []
        end = self.place(last)
        lines = self.desk.session.ask(f"trace {last - first}")
        return in_progress(map(pipe.step_of, lines), end, self.place)

    def place(self, step):
        """The place that stood next after so many steps."""
        return self.desk.ask(f"goto {step}")[-1].split()[3]


def in_progress(steps, end, place):
    """The same of steps after which a place stands next. `place` tells the one that stood next after so many."""
    routines, called, is_inside = [], None, False

    def come_to(at):
        nonlocal routines, called
        if called and is_fixed(called[0]) and is_fixed(at) and at != called[0]:
            routines = [*without(routines, called[1]), called[1:]]
        called, routines = None, without(routines, at)

    for step in steps:
        if step.word == "ENTRY" and not is_inside:
            come_to(place(step.number - 1))
            is_inside = True
        elif step.place == "BRUPT":
            # (it stood before the place that stands next; where its interrupt was entered before these steps, they were of the interrupt)
            routines = routines if is_inside else []
            back, is_inside = place(step.number - 1), False
            start = beside(back, -1)
            come_to(back)
        elif not is_inside and step.word != "INPUT":
            start, back = step.place, beside(step.place, 1)
            come_to(start)
        if not is_inside and step.word not in ("ENTRY", "INPUT") and step.text.split()[:1] == ["TC"]:
            called = start, back, step.number - 1
    if not is_inside:
        come_to(end)
    return [it[1] for it in routines]


def without(routines, place):
    """Those that are in progress where a place is come to: the one that returns there is over, and all that it has entered."""
    at = next((i for i, it in enumerate(routines) if it[0] == place), len(routines))
    return routines[:at]


def is_fixed(place):
    return not place.startswith("E")


def beside(place, count):
    """The place so many words after one, as a listing has it."""
    bank, address = place.split(",")
    return f"{bank},{int(address, 8) + count:04o}"
