"""What a run puts out that is restarted after a step, for many steps at once: `shake` asks `whatif RESTART` of a session."""
from itertools import islice
from typing import NamedTuple

import pipe
import whatif

# What a session says before each answer.
MARK = "restarts"


class Where(NamedTuple):
    """Where a run stands after a step: its cycles, and the place and the instruction of the next step, or what that takes."""

    cycles: int
    place: str
    text: str


def asked_of(program, feed, made, commands):
    """What a session says to each of some commands, after so many steps."""
    given = "".join(f"echo {MARK}\n{it}\n" for it in [f"run {made}", *commands])
    lines = pipe.answer("debug", "--extended", *program, feed, given=given)[0].splitlines()
    found = []
    for line in lines:
        if line == MARK:
            found.append([])
        elif found:
            found[-1].append(line)
    return found[1:]


def in_a_row(steps):
    """Rising numbers, those one after another together: the first and the last of each."""
    ends = []
    for it in steps:
        if ends and ends[-1][1] == it - 1:
            ends[-1][1] = it
        else:
            ends.append([it, it])
    return ends


def without_of(lines):
    """How many words the run puts out without a restart, of what a session says."""
    if not lines or not lines[0].startswith("WITHOUT WORDS "):
        raise pipe.Refused(2, lines[0] if lines else "whatif RESTART tells nothing")
    return int(lines[0].split()[2])


def tries(program, feed, total, steps, base):
    """What comes of a run of so many steps in all that is restarted after each of some rising numbers of steps: that number, what is put out, and whether erasable memory
    is executed. Without a restart the run puts out what stands in a list."""
    rows = in_a_row(steps)
    told = asked_of(program, feed, steps[-1], [f"whatif RESTART {total - last} from {first} to {last}" for first, last in rows])
    groups = []
    for (first, last), lines in zip(rows, told):
        left = iter(range(first, last + 1))
        without_of(lines)
        groups += [list(islice(left, int(found[1]))) for found in map(whatif.SPAN.fullmatch, lines) if found]
    # (of those that come to the same the first tells all words)
    whole = asked_of(program, feed, steps[-1], [f"whatif RESTART {total - it[0]} from {it[0]} to {it[0]}" for it in groups])
    for group, lines in zip(groups, whole):
        begun = len(base) - without_of(lines)
        [found] = [it for it in map(whatif.SPAN.fullmatch, lines) if it]
        more = [it.groups() for it in map(whatif.WORD.fullmatch, lines) if it]
        outputs = base[: begun + int(found[2])] + [pipe.Output(0, int(channel, 8), int(word, 8)) for channel, word in more]
        yield from ((it, outputs, bool(found[4])) for it in group)


def steps_between(program, feed, steps, first, last):
    """Where a run stands after each step from which it goes on, with cycles from one to another."""
    found, cycles = {}, 0
    for it in pipe.steps(*program, feed, str(steps)):
        if first <= cycles <= last:
            found[it.number - 1] = Where(cycles, it.place, it.text)
        cycles = it.cycles
    return found


def spans_told(steps, where):
    """A line for steps one after another: from which cycle to which, and what they put off."""
    for first, last in in_a_row(steps):
        one, other = where[first], where[last]
        if first == last:
            yield f"  {one.cycles} {one.place} {one.text}"
        else:
            yield f"  {one.cycles}-{other.cycles} {one.place} {one.text} to {other.place} {other.text}"
