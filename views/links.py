"""What `why` tells of a word: its links, the choices by which these were reached, and rounds of a loop among them. `chain` and `talk` use this module."""
import re
from typing import NamedTuple

# A round of a chain has at most so many lines, and is told as one from so many rounds on. (Its words are not the same, so that three are better read.)
MOST_ROUND, FEWEST_ROUNDS = 16, 4
REGISTERS = {"A", "L", "Q"}
PLACE = r"(?:\d\d|E\d),[0-7]{4}(?: \S+(?: \+[0-7]+)?)?"


class Link(NamedTuple):
    """A line of `why`: what it wrote and read are pairs of a place and the word there, as they are written; and in an interrupt the step that entered this."""

    number: int
    text: str
    written: list
    read: list
    entered: str


class Way(NamedTuple):
    """A choice that led to some step: its own step, its instruction, the place to which it led, and what it was made by, as pairs."""

    number: int
    text: str
    to: str
    read: list


def pairs(text):
    """The places and words that stand after one another, or none."""
    words = text.split()
    return [] if words == ["NOTHING"] else list(zip(words[::2], words[1::2]))


def link_of(line):
    """Returns the link that a line of `why` tells, or None for any other."""
    found = re.fullmatch(r"BY (\d+) (.*?) : (.*) FROM (.*?)(?: IN STEP (?:([1-9]\d*)|BEFORE \d+))?", line)
    return found and Link(int(found[1]), found[2], pairs(found[3]), pairs(found[4]), found[5])


def way_of(line):
    """Returns the choice that the first line of `why step` tells, or None where there was none."""
    found = re.fullmatch(rf"WAY (\d+) (.*) TO ({PLACE}) FROM (.*)", line)
    return found and Way(int(found[1]), found[2], found[3], pairs(found[4]))


def sameness_of(link):
    """What links of two rounds of a loop have in common: instruction, places, and whether an interrupt is served. Of an operand that INDEX moved neither the place counts nor by how much."""
    text, moved = re.subn(r" [+-][0-7]+$", " +", link.text)
    written, read = ([place if place in REGISTERS or not moved else "" for place, _ in it] for it in (link.written, link.read))
    return text, written, read, bool(link.entered)


def rounds_in(said, fewest=FEWEST_ROUNDS):
    """Where a round of some items comes again and again in a list: the first item, how many it has, and how often it stands there."""
    at = 0
    while at < len(said):
        for size in range(1, min(MOST_ROUND, (len(said) - at) // fewest) + 1):
            same = 0
            while at + size + same < len(said) and said[at + same] == said[at + size + same]:
                same += 1
            if (count := same // size + 1) >= fewest:
                yield at, size, count
                at += size * count - 1
                break
        at += 1


def said_of(line):
    """What a line of `why` has in common with that of another round, or the line itself."""
    link = link_of(line)
    if link:
        return sameness_of(link)
    # (of an INDEX, and of where a step stands, neither step nor word)
    told = re.fullmatch(r"(INDEX|WHERE) \d+ (.*?)(?: : \S+ FROM (\S+) \S+)?", line)
    return told.groups() if told else line


def folded_links(lines):
    """The lines of `why` with the rounds of a loop as one: the first is told, the others are counted. Other lines stay as they are."""
    if not any(link_of(it) for it in lines):
        return lines
    shown, done = [], 0
    for at, size, count in rounds_in([said_of(it) for it in lines]):
        steps = [it.number for it in map(link_of, lines[at : at + size * count]) if it]
        links = len(steps) // count
        shown += [*lines[done : at + size], f"..  {told_rounds(count, links)}, steps {steps[links]} to {steps[-1]}"]
        done = at + size * count
    return shown + lines[done:]


def told_rounds(count, links):
    return f"rounds 2 to {count} of {links} link{'s' * (links > 1)}"
