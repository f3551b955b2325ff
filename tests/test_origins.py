"""Compares `why CELL inputs` and `why CELL interrupts` with what the lines of `why CELL` say, step by step, where these are few enough to be all."""
import os
import re
import subprocess
import unittest

from common import PROGRAM, Case, rows_of_runs, EXAMPLES

MOST = 999
LINE = re.compile(r"BY (\d+) (.*?) :(.*?) FROM (.*?)(?: IN STEP (\d+))?$")
INPUT = re.compile(r"(?:\w+ (?:PINC|MINC|DINC|PCDU|MCDU|SHINC|SHANC)|CHAN [0-7]{3} [0-7]{5})$")
CELLS = ["A", "Q", "TIME3", "CH010", "CH011", "100", "101", "102"]


def asked(source, feed, steps, commands):
    """The replies of an extended session after so many steps, one for each command."""
    lines = [f"run {steps}", "echo BEGUN", *(it for command in commands for it in (command, "echo DONE")), "quit"]
    words = [PROGRAM, "debug", "--extended", source, feed]
    text = subprocess.run(words, input="\n".join(lines) + "\n", capture_output=True, text=True, check=True, timeout=300).stdout
    return text.partition("BEGUN\n")[2].split("DONE\n")[:-1]


class Tally:
    """Some steps: how many, the first and the last."""

    def __init__(self):
        self.count, self.first, self.last = 0, None, None

    def add(self, step):
        self.count, self.first = self.count + 1, step
        self.last = step if self.last is None else self.last

    def __str__(self):
        return f"COUNT {self.count} FIRST {self.first} LAST {self.last}"


def spots_of(text):
    """What a line of `why` says was read: each name with its word."""
    words = text.split()
    return [] if words == ["NOTHING"] else list(zip(words[::2], words[1::2]))


def told(chain, is_fixed, interrupt_of):
    """What the two commands tell, by the lines of a whole chain."""
    inputs, fixed, levels = {}, {}, {}
    for line in chain[:-1]:
        number, what, _, read, entry = LINE.match(line).groups()
        if INPUT.match(what):
            inputs.setdefault(f"INPUT {what}", Tally()).add(int(number))
        for name, word in spots_of(read):
            if is_fixed(name):
                fixed.setdefault(f"FIXED {name} {word}", Tally()).add(int(number))
        level = interrupt_of(int(entry)) if entry else 0
        levels.setdefault(level, Tally()).add(int(number))
    lines = [f"{name} {tally}" for name, tally in [*inputs.items(), *fixed.items()]] + [chain[-1]]
    names = {0: "OUTSIDE", **{it: f"INTERRUPT {it}" for it in range(1, 11)}}
    return lines, [f"{names[it]} {levels[it]}" for it in sorted(levels)] + [f"COUNT {len(levels)}"]


class Origins(Case):
    def test_chains(self):
        compared = 0
        for name, feed, steps in rows_of_runs():
            source, feed, steps = f"{EXAMPLES}/{name}.agc", f"{EXAMPLES}/{feed}", min(int(steps), 3000)
            for cell, chain in zip(CELLS, asked(source, feed, steps, [f"why {it} {MOST}" for it in CELLS])):
                chain = chain.splitlines()
                if not chain or chain[0].startswith("E50") or chain[-1].startswith("MORE"):
                    continue
                with self.subTest(program=name, cell=cell):
                    names = sorted({it for line in chain[:-1] for it, _ in spots_of(LINE.match(line).group(4))})
                    entries = sorted({int(line.rsplit(" ", 1)[1]) for line in chain[:-1] if " IN STEP " in line})
                    questions = [f"why {it} 1" for it in names] + [it for entry in entries for it in (f"goto {entry}", "why")]
                    replies = asked(source, feed, steps, [f"why {cell} inputs", f"why {cell} interrupts", *questions])
                    fixed = {it for it, reply in zip(names, replies[2:]) if "is in fixed memory" in reply}
                    interrupts = {it: int(re.search(r"INTERRUPT (\d+)", reply).group(1)) for it, reply in zip(entries, replies[3 + len(names):: 2])}
                    inputs, levels = told(chain, fixed.__contains__, interrupts.__getitem__)
                    self.assertEqual(replies[0].splitlines(), inputs)
                    self.assertEqual(replies[1].splitlines(), levels)
                    compared += 1
        self.assertGreater(compared, 40)


if __name__ == "__main__":
    unittest.main()
