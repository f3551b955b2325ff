"""What a run puts out with one input more, for many inputs at once: views ask `agcws whatif`."""
import re
from itertools import islice
from typing import NamedTuple

import pipe
from results import Result, differences, words_of

SPAN = re.compile(r"FROM \d+ TO \d+ COUNT (\d+) ALIKE (\d+) OTHERS (\d+)( ERASABLE)?( NEVER)?")
WORD = re.compile(r"CH ([0-7]{3}) ([0-7]{5})")
END = re.compile(r"END (\S+)(?: CELL (\S+) ([0-7]{5}) NOT ([0-7]{5}))?")


class Span(NamedTuple):
    """Trials one after another that come to the same: how many they are, what is put out with each, whether erasable memory is executed, and whether the run ends
    before they come; and of the first of them the place of its next instruction at the end, and the first erasable word that then differs: its place, that word, and the other, or three times None."""

    count: int
    outputs: list
    is_lost: bool
    is_never: bool
    end: str
    differs: tuple


def told_of_trials(option, words, feed, steps, trials):
    """The lines that `agcws whatif` tells of trials."""
    try:
        return iter(pipe.answer("whatif", *option, *words, feed, str(steps), "/dev/stdin", given="".join(f"{it}\n" for it in trials))[0].splitlines())
    except pipe.Refused as refused:
        # (a fault of a trial is told by its line)
        found = re.fullmatch(r"/dev/stdin: (E\d+) LINE (\d+)", str(refused))
        if not found:
            raise
        raise pipe.Refused(refused.status, f"{trials[int(found[2]) - 1].partition(' ')[2]}: {found[1]}") from None


def spans(words, feed, steps, trials, base):
    """What comes of trials, the lines of a feed in the order of their cycles, each of them alone. The program and its options are some words; the feed is a file; and
    without a trial so many steps put out what stands in a list."""
    told = told_of_trials([], words, feed, steps, trials)
    # (the run without a trial, and its end)
    next(told), next(told)
    for line in told:
        count, alike, others, is_lost, is_never = SPAN.fullmatch(line).groups()
        more = [WORD.fullmatch(next(told)).groups() for _ in range(int(others))]
        end, *differs = END.fullmatch(next(told)).groups()
        outputs = base[: int(alike)] + [pipe.Output(0, int(channel, 8), int(word, 8)) for channel, word in more]
        yield Span(int(count), outputs, bool(is_lost), bool(is_never), end, tuple(differs))


def note_changes(words, feed, steps, trials):
    """Which notes come and go with trials, as `spans` takes them: how many one after another change the same, and the lines that tell what."""
    count, lines = 0, []
    for line in told_of_trials(["--notes"], words, feed, steps, trials):
        if line.startswith("FROM "):
            if count:
                yield count, tuple(lines)
            count, lines = int(line.split()[-1]), []
        elif not line.startswith("NOTE "):
            lines.append(line)
    if count:
        yield count, tuple(lines)


def noted_spans(words, feed, steps, trials, base):
    """The same as `spans`, where each span has trials alone with which the same notes come and go."""
    changed, left = note_changes(words, feed, steps, trials), 0
    for span in spans(words, feed, steps, trials, base):
        rest = span.count
        while rest:
            left = left or next(changed)[0]
            count = min(rest, left)
            yield span._replace(count=count)
            rest, left = rest - count, left - count


def changes(words, feed, steps, cycles, text):
    """What an input would change at each of some cycles one after another: in words, or that all is the same, with the first and the last cycle."""
    base = [pipe.output_of(it) for it in pipe.answer("run", *words, feed, str(steps))[0].splitlines()]
    usual, left, found = Result(words_of(base), ()), iter(cycles), []
    for span in spans(words, feed, steps, [f"{it} {text}" for it in cycles], base):
        own = list(islice(left, span.count))
        said = [*differences(usual, Result(words_of(span.outputs), ())), *(["erasable memory is executed"] if span.is_lost else [])]
        found.append((own[0], own[-1], "; ".join(said) or ("it never comes" if span.is_never else "the same")))
    return found
