"""The sources and the feeds that are measured. Each is made from a seed, so that it is the same on every machine."""

import random

BANKS = 0o44
LINE_BYTES = 120

# of a source of 65,536 lines; one of fewer lines has as many less of each
FULL = 65536
ERASED = 1512
EQUALS = 6120
ALONE = 504
LABELLED_WORDS = 11864
WORD_LINES = 34560


def full_line(label, operator, operand, comment):
    """A line of 120 bytes: its fields, and a comment that fills it."""
    fields = f"{label:<8} {operator:<8}{operand:<16}# "
    words = f"{comment}, " * LINE_BYTES
    return (fields + words)[:LINE_BYTES] + "\n"


def shares(total, parts):
    """A total in parts that differ by at most one."""
    return [total * (i + 1) // parts - total * i // parts for i in range(parts)]


class Operands:
    """Operands by kind, from all labels of the source: those of lines before and after."""

    def __init__(self, chance, erased, fixed):
        self.chance = chance
        self.erased = erased
        self.fixed = fixed

    def erasable(self):
        return self.chance.choice(self.erased) + self.chance.choice(["", "", " +1"])

    def place(self):
        return self.chance.choice(self.fixed) + self.chance.choice(["", "", " +2"])

    def any(self):
        return self.chance.choice([self.erasable, self.place, self.place, lambda: f"{self.chance.randrange(0o1400):o}"])()


def word_fields(operands):
    """Operators and operands of lines that give words, without end; what follows EXTEND is an extracode."""
    chance = operands.chance
    while True:
        kind = chance.randrange(64)
        if kind < 20:
            yield chance.choice(["CA", "AD", "CS", "MASK"]), operands.any()
        elif kind < 36:
            yield chance.choice(["TS", "XCH", "CCS", "INDEX", "INCR", "DXCH"]), operands.erasable()
        elif kind < 48:
            yield chance.choice(["TC", "TCF"]), operands.place()
        elif kind < 50:
            yield "EXTEND", ""
            yield chance.choice(["MP", "DCA"]), operands.any()
        elif kind < 52:
            yield "NOOP", ""
        elif kind < 56:
            yield "OCT", f"{chance.randrange(0o100000):o}"
        elif kind < 59:
            yield "DEC", f"{chance.randrange(-16383, 16384)}"
        elif kind < 62:
            yield chance.choice(["ADRES", "CADR"]), operands.place()
        elif kind < 63:
            yield "ECADR", operands.erasable()
        else:
            yield "2CADR", operands.place()


def equals_operand(chance, defined):
    """An operand of EQUALS: a number, or a symbol of an earlier line."""
    if chance.randrange(2):
        return f"{chance.randrange(0o40000):o}"
    return chance.choice(defined)


def source(lines):
    """A source of so many lines of 120 bytes each: for 65,536 lines 20,000 symbols, and words in all 36 banks."""
    chance = random.Random(lines)
    erased, equals, alone, labelled, word_lines = (
        count * lines // FULL for count in (ERASED, EQUALS, ALONE, LABELLED_WORDS, WORD_LINES)
    )
    erased_names = [f"E{i}" for i in range(erased)]
    fixed_names = [f"JOB{i}" for i in range(labelled + alone)]
    equal_names = iter([f"SAME{i}" for i in range(equals)])
    operands = Operands(chance, erased_names, fixed_names)
    words = word_fields(operands)
    text = [full_line("", "SETLOC", "61", "erasable memory")]
    text += [full_line(name, "ERASE", "", "a cell") for name in erased_names]
    defined = erased_names[:]
    unused = iter(fixed_names)
    per_bank = zip(shares(equals, BANKS), shares(alone, BANKS), shares(labelled, BANKS), shares(word_lines, BANKS),
                   shares(lines - len(text) - 2 * BANKS, BANKS))
    for bank, (equals_here, alone_here, labelled_here, words_here, lines_here) in enumerate(per_bank):
        text.append(full_line("", "BANK", f"{bank:o}", "the next bank"))
        text.append(full_line("", "EBANK=", chance.choice(erased_names), "for far addresses"))
        kinds = ["labelled"] * labelled_here + ["word"] * (words_here - labelled_here)
        kinds += ["equals"] * equals_here + ["alone"] * alone_here
        kinds += ["comment"] * (lines_here - len(kinds))
        chance.shuffle(kinds)
        for kind in kinds:
            if kind == "comment":
                text.append(("# " + "what the next lines do, " * 8)[:LINE_BYTES] + "\n")
                continue
            name = "" if kind == "word" else next(equal_names) if kind == "equals" else next(unused)
            if kind == "alone":
                text.append(full_line(name, "", "", "a place"))
            elif kind == "equals":
                text.append(full_line(name, "EQUALS", equals_operand(chance, defined), "a name by hand"))
            else:
                text.append(full_line(name, *next(words), "what it does"))
            if name:
                defined.append(name)
    assert len(text) == lines
    return "".join(text)


def feed(lines):
    """A feed of so many inputs, a line each, of all three forms, by rising cycles."""
    chance = random.Random(lines)
    pulses = [("TIME1", "PINC"), ("TIME3", "PINC"), ("TIME6", "DINC"), ("CDUX", "PCDU"), ("CDUZ", "MCDU"),
              ("PIPAX", "PINC"), ("PIPAZ", "MINC"), ("INLINK", "SHINC"), ("INLINK", "SHANC")]
    text = []
    cycle = 0
    for _ in range(lines):
        cycle += chance.randrange(2000)
        kind = chance.randrange(4)
        if kind == 0:
            text.append(f"{cycle} CHAN {chance.choice([0o15, 0o16, 0o30, 0o33]):03o} {chance.randrange(0o100000):05o}\n")
        elif kind == 1:
            text.append(f"{cycle} RUPT {chance.randrange(1, 11)}\n")
        else:
            text.append(" ".join([str(cycle), *chance.choice(pulses)]) + "\n")
    return "".join(text)
