"""The findings of `agcws check --json` over a text that is being written, each with its range and the edit that mends it. `lsp` uses this module."""
import json
import os
import subprocess
from typing import NamedTuple

import pipe


class Edit(NamedTuple):
    """A text in the place of some bytes of a line. Lines and columns count from 1, the end is one past the last byte."""

    line: int
    column: int
    end: int
    text: str
    is_sure: bool


class Place(NamedTuple):
    """Some bytes of a line, as of an edit."""

    line: int
    column: int
    end: int


class Finding(NamedTuple):
    """A fault or a warning: its range, as of an edit, what is said and the cure or "", whether `--flight` takes what stands there, the edit that mends it or None, and
    the place that it speaks of besides, or None."""

    line: int
    column: int
    end: int
    is_error: bool
    number: str
    said: str
    cure: str
    is_of_flight: bool
    fix: Edit
    related: Place


def ran(*words, given):
    """Runs the program over bytes. Returns its status, its lines, and what it said of a failure."""
    ran_so = subprocess.run([pipe.program(), *words], input=given, capture_output=True, check=False)
    return ran_so.returncode, ran_so.stdout.decode("utf-8", "replace").split("\n"), ran_so.stderr.decode("utf-8", "replace").strip()


def objects_of(rows):
    """The objects that stand one a line."""
    return [json.loads(it) for it in rows if it]


def finding_of(it):
    """A finding by its object."""
    fix, related = it["fix"], it["related"]
    return Finding(
        it["line"], it["column"], it["end"], it["kind"] == "error", it["number"], it["said"], it["cure"] or "", it["flight"],
        fix and Edit(fix["line"], fix["column"], fix["end"], fix["text"], fix["sure"]), related and Place(related["line"], related["column"], related["end"]),
    )


def findings_of(text, options=(), is_feed=False, most=200):
    """The first findings over the bytes of a source, or of a feed; how many there are; and what is said of the whole text, or why the program could not read it."""
    status, rows, said = ran("check", "--json", *options, *([os.devnull] if is_feed else []), "/dev/stdin", given=text)
    # (the last rows are of the whole text)
    found = objects_of([*rows[:most], *rows[max(most, len(rows) - 4) :]])
    of_file = [it["said"] for it in found if it["kind"] == "other"]
    count = sum(it["errors"] + it["warnings"] for it in found if it["kind"] == "total")
    return [finding_of(it) for it in found if "line" in it][:most], count, "\n".join(of_file + ([said] if said else [])) if status else ""
