"""A source as an editor shows it: its labels, and what each field of a line is. `lsp` uses this module. What a field means only the program knows."""
import bisect
import functools
import re
from typing import NamedTuple

FIELDS = re.compile(r"([^ \t#]*)(?:[ \t]+([^ \t#]+))?(?:[ \t]+([^ \t#]+))?(?:[ \t]+([^ \t#]+))?[ \t]*(#.*)?")
LABEL, OPERATOR, OPERAND, OFFSET, COMMENT = range(1, 6)
NUMBER = re.compile(r"[+-]?\d+(\.\d*)?D?|[+-]?\.\d+")
MOST_LABEL = 8
LOCATING = ("SETLOC", "BANK", "BLOCK")


class Field(NamedTuple):
    """A field of a line: which it is, its text, and the characters from START to before END."""

    kind: int
    text: str
    start: int
    end: int


def fields_of(line):
    """The fields of a line that are there."""
    found = FIELDS.match(line)
    return [Field(it, found[it], found.start(it), found.end(it)) for it in range(1, 6) if found[it]]


def is_number(text):
    return bool(NUMBER.fullmatch(text))


def why_no_label(name):
    """Why a text cannot be a label, or nothing."""
    if not re.fullmatch(r"[!-~]+", name) or "#" in name:
        return "a label is of ASCII characters without blanks and #"
    if len(name) > MOST_LABEL:
        return f"a label has {MOST_LABEL} characters at most"
    if "$" in name or name[0] in "+-":
        return "a label has no $, and does not begin with a sign"
    if re.fullmatch(r"\d+D?", name):
        return "this is a number"
    return ""


class Source:
    """The lines of a source; once they are asked for, their fields, its labels by name, each with its line (from 0), and the fields that name something."""

    def __init__(self, text):
        self.lines = text.split("\n")

    @functools.cached_property
    def fields(self):
        return [fields_of(it) for it in self.lines]

    @functools.cached_property
    def labels(self):
        found = {}
        for row, fields in enumerate(self.fields):
            if fields and fields[0].kind == LABEL:
                found.setdefault(fields[0].text, (row, fields[0]))
        return found

    @functools.cached_property
    def uses(self):
        found = {}
        for row, fields in enumerate(self.fields):
            for it in fields:
                if it.kind == OPERAND and not is_number(it.text):
                    found.setdefault(it.text, []).append((row, it))
        return found

    def at(self, row, column):
        """The field at a place, or None."""
        return next((it for it in self.of(row) if it.start <= column <= it.end), None)

    def of(self, row):
        return self.fields[row] if row < len(self.fields) else []

    def operator(self, row):
        return next((it.text for it in self.of(row) if it.kind == OPERATOR), "")

    def is_extended(self, row):
        """Whether the word of a line follows EXTEND, or an INDEX that does."""
        above = next((it for it in range(row - 1, -1, -1) if self.operator(it)), -1)
        return above >= 0 and (self.operator(above) == "EXTEND" or self.operator(above) in ("INDEX", "NDX") and self.is_extended(above))

    def named(self, name, with_label=True):
        """The fields that are a name: its label first."""
        own = [self.labels[name]] if with_label and name in self.labels else []
        return [*own, *self.uses.get(name, [])]

    def parts(self, row):
        """Whether nothing of a routine stands on a line: no field, or an operator that only says where words go on."""
        return not any(it.kind < COMMENT for it in self.of(row)) or self.operator(row) in LOCATING

    def routines(self):
        """Where lines fold: from a label behind a line that parts to the last line before the next such place, or before words go on elsewhere."""
        starts = [row for row, fields in enumerate(self.fields) if fields and fields[0].kind == LABEL and (row == 0 or self.parts(row - 1))]
        moved = [row for row in range(len(self.lines)) if self.operator(row) in LOCATING]
        ends = sorted({*starts, *moved, len(self.lines)})
        for start in starts:
            end = ends[bisect.bisect_right(ends, start)] - 1
            while end > start and self.parts(end):
                end -= 1
            if end > start:
                yield start, end


def formed(line, most=120):
    """A line with its fields at the columns that listings use: a label at the first, operators at the 9th, operands at the 17th; a comment stays where it is, if it can.
    A line that would be too long stays as it is."""
    fields = fields_of(line)
    code = [it for it in fields if it.kind < COMMENT]
    if not code:
        return line.rstrip()
    made = ""
    for it in code:
        column = {LABEL: 0, OPERATOR: 8, OPERAND: 16}.get(it.kind, 0)
        made = made.ljust(column) if len(made) < column else f"{made} " if made else made
        made += it.text
    if len(fields) > len(code):
        comment = fields[-1]
        made = made.ljust(comment.start) if len(made) < comment.start else f"{made}  "
        made += comment.text.rstrip()
    return made if len(made.encode()) <= most and [it.text for it in fields_of(made) if it.kind < COMMENT] == [it.text for it in code] else line
