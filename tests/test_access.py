"""Compares what `agcws access` counts with the lines of `agcws trace --reads` of the same steps."""
import re
import subprocess
import unittest
from collections import Counter

from common import PROGRAM, Case, example_runs

STEPS = 10_000
CELL = r"(?:READS)?((?: (?:-|[^ =]+=[0-7]+))+)"


def lines_of(program, *words):
    return subprocess.run([program, *words], capture_output=True, text=True, timeout=300).stdout.splitlines()


def cells_of(field, fixed):
    """The cells of a field of a trace, each as often as it stands there; those of fixed memory are left out."""
    names = [it.split("=")[0] for it in field.split() if "=" in it]
    return [it for it in names if it not in fixed and not re.fullmatch(r"\d\d,\d{4}", it)]


def listed(cell, places):
    """A cell as `access` shows it: a trace calls one without a name by the symbol before it, as X+1, and `access` by its place, as a listing does."""
    base, plus, more = cell.partition("+")
    if cell in places or not plus:
        return cell
    place = places[base] + int(more, 8)
    return f"E{place >> 8},{place if place < 0o1400 else 0o1400 | place & 0o377:04o}"


def erasable_places(program, source):
    """The places of the symbols of erasable memory."""
    found = (re.fullmatch(r"(\S+) +ERASABLE (\d+)", line) for line in lines_of(program, "asm", source, "/dev/null"))
    return {it[1]: int(it[2], 8) for it in found if it}


def traced(program, files, fixed):
    """How often each cell but Z is read and written, by the place of the step, from the lines of a trace."""
    found, places = Counter(), erasable_places(program, files[0])
    for line in lines_of(program, "trace", "--reads", *files, str(STEPS)):
        _, _, place, kind, _, reads, written = re.split("  +", line)[:7]
        name = kind if kind in ("INPUT", "ENTRY") else place
        for sign, field in (("R", reads), ("W", written)):
            for cell in cells_of(field, fixed):
                found[listed(cell, places), name, sign] += 1
    return found


def fixed_names(listing):
    """The symbols of fixed memory."""
    return {line.split()[0] for line in listing if re.search(r" FIXED \d\d,\d{4}$", line)}


def near_names(listing):
    """What tells a cell of a trace as `access` does: an unnamed erasable place by the nearest name before it."""
    named = {}
    for line in listing:
        found = re.fullmatch(r"(\S+) +ERASABLE (\d{4})", line)
        if found:
            named.setdefault(int(found[2], 8), found[1])

    def told(cell):
        found = re.fullmatch(r"E(\d),(\d{4})", cell)
        if not found:
            return cell
        number = int(found[1]) * 0o400 + int(found[2], 8) % 0o400
        before = max((it for it in named if it <= number), default=None)
        return cell if before is None else f"{named[before]} +{number - before:o}"

    return told


# The registers, which are never told as unread, nor are channels.
REGISTERS = {"A", "L", "Q", "EB", "FB", "Z", "BB"}


def unread(cells):
    """The cells that are written and never read."""
    names = {it[0] for it in cells} - REGISTERS
    return {it for it in names if not cells[it, "R"] and not re.fullmatch(r"CH\d{3}", it)}


def counted(rows):
    """The sums of rows over all levels, by what stands behind these: a cell, or a place."""
    found = Counter()
    for row in rows:
        if row.startswith(("SHARED ", "UNREAD ")):
            continue
        name = row[33:]
        name = name[:7] if re.match(r"\d\d,\d{4} ", name) else name
        found[name, "R"] += int(row[:10])
        found[name, "W"] += int(row[11:21])
    return +found


class Access(Case):
    """Counts of reads and writes, of all cells and of each by its places."""

    def test_examples(self):
        for name, files in example_runs():
            self.compare(name, files)

    def compare(self, name, files):
        """Compares the counts of the first steps of a program, of all cells and of each cell by its places."""
        listing = lines_of(PROGRAM, "asm", files[0], "/dev/null")
        wanted, near = traced(PROGRAM, files, fixed_names(listing)), near_names(listing)
        cells = Counter()
        for (cell, _, sign), count in wanted.items():
            cells[near(cell), sign] += count
        rows = lines_of(PROGRAM, "access", *files, str(STEPS))
        got = {row.removeprefix("UNREAD ") for row in rows if row.startswith("UNREAD ")}
        with self.subTest(f"access of {name}: what is never read"):
            self.assertEqual(got, unread(cells))
        got = counted(rows)
        got = Counter({it: count for it, count in got.items() if it[0] != "Z"})
        with self.subTest(f"access of {name} beside trace"):
            self.assertEqual(got, cells)
        for cell in sorted({it[0] for it in wanted})[:8]:
            places = Counter({(place, sign): count for (it, place, sign), count in wanted.items() if it == cell})
            got = counted(lines_of(PROGRAM, "access", *files, str(STEPS), cell))
            with self.subTest(f"access of {name} at {cell}"):
                self.assertEqual(got, places)
            for other in sorted({near(cell), re.sub("^CH0+", "CH", cell)} - {cell}):
                again = counted(lines_of(PROGRAM, "access", *files, str(STEPS), other))
                with self.subTest(f"access of {name} at {other}"):
                    self.assertEqual(again, got)


if __name__ == "__main__":
    unittest.main()
