"""What comes of a run, as `shake` and `campaign` compare runs: the words that each channel gets, and the notes."""
from collections import defaultdict
from itertools import zip_longest
from typing import NamedTuple


class Result(NamedTuple):
    """What comes of a run: the words that each channel gets, in their order; the notes, each a kind and where; and beside another those of its notes that are gone."""

    words: tuple
    notes: tuple
    gone: tuple = ()


def words_of(outputs):
    """The words that each channel gets, in their order."""
    words = defaultdict(list)
    for it in outputs:
        words[it.channel].append(it.word)
    return tuple(sorted((channel, tuple(it)) for channel, it in words.items()))


def begin(words, others):
    """Whether each channel gets the beginning of what it gets among others."""
    others = dict(others)
    return all(others.get(channel, ())[: len(it)] == it for channel, it in words)


def more_notes(result, measure):
    """The notes of a run that another has not, by their kinds and places: what stands at a place of erasable memory is another word now and then."""
    return {*map(place_of, result.notes)} - {*map(place_of, measure.notes)}


def place_of(note):
    kind, where = note
    return kind, where.split(" ")[0]


def deep(value):
    """A list of lists as tuples."""
    return tuple(map(deep, value)) if isinstance(value, list) else value


def told(words):
    """The words of a channel, at most the first eight."""
    return " ".join(f"{it:05o}" for it in words[:8]) + (f" .. ({len(words)} words)" if len(words) > 8 else "")


def name_of(channel):
    """A channel, or a place whose word at the end is looked at."""
    return channel if isinstance(channel, str) else f"CH {channel:03o}"


def told_of(result):
    return "; ".join(f"{name_of(channel)} {told(words)}" for channel, words in result.words) or "nothing is put out"


def first_words(usual, result):
    """The first word of each channel that differs: the channel, its number, what it was and what it is."""
    was, now = dict(usual.words), dict(result.words)
    for channel in sorted({*was, *now}, key=name_of):
        for number, (old, new) in enumerate(zip_longest(was.get(channel, ()), now.get(channel, ())), 1):
            if old != new:
                yield channel, number, old, new
                break


def differences(usual, result):
    """The first word of each channel that differs, the first note, and the first that is gone."""
    for channel, number, old, new in first_words(usual, result):
        which = "" if isinstance(channel, str) else f" word {number}"
        yield f"{name_of(channel)}{which} is {word_or_none(new)} in place of {word_or_none(old)}"
    if result.notes:
        yield first_note("NOTE", result.notes)
    if result.gone:
        yield first_note("gone is NOTE", result.gone)


def first_note(said, notes):
    """The first of some notes, and how many more there are."""
    return f"{' '.join((said, *notes[0])).strip()}{f' and {len(notes) - 1} more' if len(notes) > 1 else ''}"


def shape(usual, result):
    """How a run differs from the usual, without the words: channels that get other words, fewer or more, the kinds of notes, and of those that are gone."""
    was, now = dict(usual.words), dict(result.words)
    channels = []
    for it in sorted({*was, *now}, key=name_of):
        old, new = was.get(it, ()), now.get(it, ())
        if old != new:
            channels.append((it, "fewer" if begin(((it, new),), ((it, old),)) else "more" if begin(((it, old),), ((it, new),)) else "other"))
    return tuple(channels), frozenset(kind for kind, _ in result.notes), frozenset(kind for kind, _ in result.gone)


def word_or_none(word):
    return "none" if word is None else f"{word:05o}"
