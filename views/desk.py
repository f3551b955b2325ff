"""A session as people use it: where it stands in the listing, long moves in parts, places that are watched, values. `talk` and `dap` use this module."""
import bisect
import functools
import itertools
import os
import re
import shutil
import tempfile
import time
from typing import NamedTuple

import panel
import pipe
import whatif

# The most steps of a run, and of the position up to which the rows of the listing are told: a run to there takes a second or so.
MOST_STEPS, MOST_TOLD = 1_099_511_627_774, 100_000_000
# The most bytes of a file that is copied: a longer one is no source, image or feed.
MOST_BYTES = 1 << 28
# A part of a long move takes about so many seconds.
PART_SECONDS = 0.1


# The least address of a switched erasable bank, and of fixed memory.
SWITCHED, FIXED = 0o1400, 0o2000
# Registers, which steps tell by letters whatever symbols have their places.
REGISTERS = {"0000": "A", "0001": "L", "0002": "Q", "0003": "EB", "0004": "FB"}
# Cells with a use of their own, by their names in section 5 of the manual, as a trace tells them where no symbol stands for them.
SPECIAL = dict(zip([0o10, 0o11, 0o12, 0o15, 0o16, 0o17, *range(0o20, 0o42), 0o45], """ARUPT LRUPT QRUPT ZRUPT BBRUPT BRUPT CYR SR CYL EDOP TIME2 TIME1 TIME3 TIME4
TIME5 TIME6 CDUX CDUY CDUZ OPTY OPTX PIPAX PIPAY PIPAZ INLINK""".split()))
# Those that steps do not tell, and why.
UNTOLD = {"0005": "Z changes at each step", "0006": "BB is EB and FB: watch these"}


class Coming(NamedTuple):
    """What stands at the position: the step that led there, or None; the next step; and the row that is executed next, or None."""

    last: pipe.Step
    next: pipe.Step
    row: pipe.Row


class Desk:
    """A session over a source or an image, with its listing. Its feed has the inputs that were added. Both are copies, so that what is asked beside the session is
    of the same program, whatever is saved to the files meanwhile."""

    def __init__(self, words, feed):
        if os.path.exists(words[-1]) and not os.path.isfile(words[-1]) and not os.path.isdir(words[-1]):
            raise pipe.Refused(2, f"{words[-1]} is no file, as a source or an image is to be")
        self.room = tempfile.TemporaryDirectory(prefix="agcws-")
        self.words, self.feed = [*words[:-1], self.copied(words[-1], "program")], self.copied(feed, "feed")
        self.session = pipe.Session(*self.words, self.feed)
        try:
            self.commands = [line.split()[1] for line in self.session.ask("help")]
            is_image = "--image" in words
            self.rows, self.symbols = (pipe.words_of(self.words[-1], *words[1:-1]), {}) if is_image else pipe.listing_of(*self.words)
            # (where Z leads, as a listing has it)
            self.place = self.session.ask("goto 0")[-1].split()[3]
        except pipe.Refused:
            self.end()
            raise
        self.worded = [row for row in self.rows if row.word]
        self.lines = [row.line for row in self.worded]
        self.at = {row.place: row for row in self.worded}
        self.position, self.cycles, self.made = 0, 0, 0
        self.kept, self.outputs, self.watched, self.part = [], set(), {}, 1 << 12
        self.display_words = []
        self.feed_text = None

    def copied(self, path, name):
        """The path of a copy of a file as it stands now; its own, of a device, and where the program is to say why it cannot be read."""
        if not os.path.isfile(path) or not os.access(path, os.R_OK) or os.path.getsize(path) > MOST_BYTES:
            return path
        return shutil.copyfile(path, os.path.join(self.room.name, name))

    def end(self):
        self.session.end()
        self.room.cleanup()

    def ask(self, command):
        """Returns the lines of the reply to a command. What it has changed is kept in mind."""
        lines = self.session.ask(command)
        changes = False
        for line in lines:
            first, *rest = line.split() or [""]
            changes |= first in ("AT", "BREAK", "CLEAR", "ADDED", "QUIET")
            if first == "AT":
                self.position, self.cycles, self.place = int(rest[0]), int(rest[1]), rest[2]
                self.made = max(self.made, self.position)
            elif output := pipe.output_of(line):
                self.outputs.add(output.channel)
                self.display_words += [output] if output.channel in panel.CHANNELS else []
        if lines[:1] == ["ADDED"]:
            self.keep_input(command)
        if changes and command != "breaks":
            self.kept.append(command)
        return lines

    def keep_input(self, command):
        """Writes the feed anew, with an input that was added."""
        _, cycle, text = command.split("#")[0].split(None, 2)
        self.feed_text = pipe.with_input(self.whole_feed(), int(cycle), text.strip())
        self.feed = os.path.join(self.room.name, "added")
        with open(self.feed, "w", encoding="utf-8") as file:
            file.write(self.feed_text)

    def whole_feed(self):
        """The feed with the inputs that were added: a run over it is the session's."""
        if self.feed_text is None:
            with open(self.feed, encoding="utf-8", errors="replace") as file:
                self.feed_text = file.read()
        return self.feed_text

    def steps(self, last, *options):
        """The steps of the session's run, as `agcws trace` tells them."""
        return pipe.steps(*self.words, self.feed, str(last), *options)

    def coming(self):
        """What stands at the position, or None where that is far from the start."""
        if self.position > MOST_TOLD:
            return None
        last = min(self.position + 6, MOST_STEPS)
        found = list(self.steps(last, "--from", str(max(self.position, 1))))
        led = found.pop(0) if self.position else None
        row = next((self.at[it.place] for it in found if it.place in self.at and it.word != "ENTRY"), None)
        return Coming(led, found[0] if found else None, row)

    def what_if(self, text, count, last):
        """What an input would change in so many steps from the position on, taken at its cycle, and at each one up to another. The session stays as it is."""
        steps = min(self.position + count, MOST_STEPS)
        return whatif.changes(self.words, self.feed, steps, range(self.cycles, max(self.cycles, last) + 1), text)

    def forward(self):
        """The name of the command that goes on from the position up to a breakpoint."""
        return "on" if "on" in self.commands else "run"

    def move(self, name, count=None):
        """Goes on by a command that takes a number of steps, in parts: the lines of each reply but the AT lines, as they come. Ends where a reply has another
        line than those of channels, or than their number, as at a breakpoint, and right after a step that has changed a watched place."""
        left, first, start = count, len(self.kept), self.made if name == "run" else self.position
        begun = self.made if name == "run" else self.position
        seen = self.steps(MOST_STEPS, "--from", str(start + 1)) if self.watched else iter(())
        try:
            while left is None or left > 0:
                size = self.part if left is None else min(left, self.part)
                change = self.first_change(seen, size)
                size = change[0] - start if change else size
                at = time.monotonic()
                lines = [it for it in self.ask(f"{name} {size}") if not it.startswith("AT ")]
                self.fit_part(time.monotonic() - at)
                yield lines
                start += size
                left = None if left is None else left - size
                if any(not (it.startswith("WORDS ") or pipe.output_of(it)) for it in lines):
                    return
                if change:
                    yield [change[1]]
                    return
        finally:
            seen.close() if self.watched else None
            # (one command in place of the parts)
            made = self.position - begun
            self.kept[first:] = [f"{name} {made}"] if len(self.kept) > first and made else self.kept[first:]

    def until(self, cycles):
        """Moves to the first step after which so many cycles have passed, in parts: the lines of each reply but the AT lines, as they come."""
        first, target = len(self.kept), None
        try:
            while target != cycles:
                is_far = cycles > self.cycles + self.part
                target = self.cycles + self.part if is_far else cycles
                at = time.monotonic()
                lines = [it for it in self.ask(f"until {target}") if not it.startswith("AT ")]
                self.fit_part(time.monotonic() - at)
                yield lines
                if any(not (it.startswith("WORDS ") or pipe.output_of(it)) for it in lines):
                    return
        finally:
            # (one command in place of the parts)
            self.kept[first:] = self.kept[-1:] if len(self.kept) > first else []

    def display(self):
        """The display and keyboard (DSKY) at the position."""
        return panel.Display(it for it in self.display_words if it.cycles <= self.cycles)

    def reverse(self):
        """Goes back to the last step before the position at which a breakpoint holds or that has changed a watched erasable place, else to the start: why it
        stands there."""
        start, changed = self.position, 0
        if self.watched and start:
            self.ask("back 1")
            replies = [self.ask(f"last {self.in_command(name)}")[0].split() for name in self.watched]
            changed = max((int(it[1]) for it in replies if it[:1] == ["LAST"]), default=0)
            self.ask(f"goto {start}")
        hit = self.position if self.ask("seek")[0].startswith("HIT") else 0
        reason = "breakpoint" if hit else "entry"
        if changed > hit or not hit:
            self.ask(f"goto {changed}")
        return "data breakpoint" if changed > hit else reason

    def fit_part(self, seconds):
        if seconds < PART_SECONDS / 2:
            self.part = min(self.part * 2, 1 << 24)
        elif seconds > PART_SECONDS * 2:
            self.part = max(self.part // 2, 1)

    def first_change(self, steps, count):
        """The first of so many steps that changes a watched place: its number, and what is told of it."""
        for step in itertools.islice(steps, count if self.watched else 0):
            changed = [f"{name} {self.watched[name]} -> {word}" for name, word in step.written if self.watched.get(name, word) != word]
            self.watched.update({name: word for name, word in step.written if name in self.watched})
            if changed:
                return step.number, f"changed: {', '.join(changed)}"
        return None

    def watch(self, place):
        """Watches a place: the name by which steps tell it, or None where there is no such place. Raises ValueError where steps do not tell it."""
        name = self.word(self.in_command(place)) and self.name_of(place)
        if name:
            self.watched[name] = self.told_word(name)
        return name

    def told_word(self, name):
        """The word of a watched place as steps write it."""
        number = next((it for it in ("0003", "0004") if REGISTERS[it] == name), None)
        return self.one_word(f"mem {number}") if number else self.registers()[name] if name in REGISTERS.values() else self.word(self.in_command(name))

    def name_of(self, place):
        """The name by which `agcws trace` tells a place."""
        base, plus, more = place.partition(" +")
        if plus and self.symbols.get(base, ("",))[0] == "ERASABLE" and re.fullmatch("[0-7]+", more):
            place = f"{int(self.symbols[base][1], 8) + int(more, 8):o}"
        elif re.fullmatch(r"E[0-7],[0-7]{4}", place):
            place = place_in_command(place)
        kind, value = self.symbols.get(place, ("NUM", {"Z": "5", "BB": "6"}.get(place, place)))
        if not re.fullmatch("[0-7]+", value):
            return place
        number = f"{int(value, 8):04o}"
        if number in UNTOLD or int(value, 8) >= FIXED:
            raise ValueError(UNTOLD.get(number, "fixed memory does not change"))
        return REGISTERS.get(number) or self.symbol_at(int(value, 8)) or SPECIAL.get(int(value, 8)) or self.behind(int(value, 8)) or listed(int(value, 8))

    def symbol_at(self, number):
        """The first symbol of an erasable place, or None."""
        return next((name for name, it in self.symbols.items() if it == ("ERASABLE", f"{number:04o}")), None)

    def behind(self, number):
        """An erasable place by the symbol before it, as X+1, or None."""
        found = ((self.symbol_at(number - by), by) for by in range(1, min(0o77, number - 0o61) + 1))
        return next((f"{name}+{by:o}" for name, by in found if name), None)

    def in_command(self, name):
        """A place that a trace names so, as commands take it."""
        base, plus, more = name.partition("+")
        if name in self.symbols:
            return name
        return f"{base} +{more}" if plus else next((f"{number:o}" for number, it in SPECIAL.items() if it == name), name)

    def look_again(self):
        """The watched places have the words of the position."""
        self.watched = {name: self.told_word(name) or word for name, word in self.watched.items()}

    def registers(self):
        """The registers and flags, each with its word as it is written, and what is asked for, where the program tells that."""
        lines = [it.split(" ", 1) for it in self.ask("regs all")]
        if lines[0][0] == "E50":
            words = self.ask("regs")[0].split()
            lines = list(zip(words[::2], words[1::2]))
        # (the cycles are no word)
        return {name: word for name, word in lines if name != "CYCLES"}

    def word(self, place):
        """The word at a place, a symbol, a register or a channel (CH010), as it is written, or None."""
        channel = re.fullmatch("CH([0-7]{1,3})", place)
        if place not in self.symbols:
            if channel:
                return self.one_word(f"chan {channel[1]}")
            if place.isalpha():
                return self.registers().get(place) or self.one_word(f"mem {place}")
        return self.one_word(f"mem {place}")

    def one_word(self, command):
        """The word of a reply as MEM 00012, or None."""
        words = self.ask(command)[0].split()
        return words[1] if len(words) == 2 and re.fullmatch("[0-7]{5,6}", words[1]) else None

    def place_of_line(self, line):
        """The first row from a line on that has a word, or None."""
        at = bisect.bisect_left(self.lines, line)
        return self.worded[at] if at < len(self.worded) else None

    def arrays(self):
        """The symbols to which ERASE +n gives several words, each with their number."""
        found = {}
        for row in self.rows:
            words = re.match(r"(\S+)\s+ERASE\s+\+(?:([0-7]+)|([0-9]+)D)(?![^\s#])", row.text)
            if words and (count := int(words[2], 8) if words[2] else int(words[3])) and self.symbols.get(words[1], [""])[0] == "ERASABLE":
                found[words[1]] = count + 1
        return found

    @functools.cached_property
    def name_form(self):
        """The form of a name in an expression."""
        names = "|".join(sorted(map(re.escape, self.symbols), key=len, reverse=True))
        return re.compile(rf"\s*({names + '|' if names else ''}[A-Z][A-Z0-9]*)(?![^\s\]()*&|^~<>=!+-])")

    def breakpoints(self):
        """What each breakpoint is, by its number."""
        return {int(it[1]): it[2] for line in self.ask("breaks") if (it := line.split(None, 2))[0] == "BREAK"}


def listed(number):
    """An erasable place as a listing writes it, from its number."""
    return f"E{number >> 8:o},{number if number < SWITCHED else SWITCHED | number & 0o377:04o}"


def place_in_command(place):
    """A place as commands take it, from a place as a listing writes it: in fixed memory bank and offset, in erasable memory its number."""
    bank, address = place.split(",")
    if bank.startswith("E"):
        return f"{int(bank[1:], 8) << 8 | int(address, 8) & 0o377:o}"
    return f"{bank},{int(address, 8) & 0o1777:04o}"


def value_of(word):
    """The number that a word is, in ones' complement: of 16 bits where it has six digits, else of 15."""
    sign, value = 1 << (15 if len(word) == 6 else 14), int(word, 8)
    return value - (2 * sign - 1) if value & sign else value


def forms_of(word):
    """A word in octal, decimal, as a fraction and in binary."""
    value, bits = value_of(word), 16 if len(word) == 6 else 15
    digits = f"{int(word, 8):0{bits}b}"
    groups = ([digits[0]] if bits == 16 else []) + [digits[i : i + 3] for i in range(bits % 3, bits, 3)]
    return f"{word} = {value} = {value / 16384:+.5f} = {' '.join(groups)}"


class Expression:
    """Sums of words and numbers, several with blanks between them, as `SUM`, `A L`, `SUM +3`, `[100] & 77` or `SUM < 0`, which is 1 or 0. Numbers are octal, or
    decimal with D behind."""

    TOKEN = re.compile(r"\s*(?:(\[[^\]]*\])|([0-7]+|[0-9]+D)(?![0-9A-Za-z])|([-+*&|^~()]|[<>=!]=|[<>=]))")

    def __init__(self, desk, text):
        self.desk, self.text, self.start, self.tokens = desk, text, 0, []

    def results(self):
        """Each expression with the word that it is where it is one place, or its value. Raises ValueError with words."""
        parts, ends = [[]], True
        while self.text[self.start :].strip():
            begin = self.start
            kind, token = self.take()
            is_operand = kind != "operator" or token in "(~"
            if is_operand and not ends and parts[-1]:
                parts.append([])
            parts[-1].append((kind, token, begin, self.start))
            ends = kind == "operator" and token != ")"
        for part in parts:
            if part:
                yield self.text[part[0][2] : part[-1][3]].strip(), self.result(part)

    def take(self):
        """The next token."""
        found = self.desk.name_form.match(self.text, self.start)
        if found:
            self.start = found.end()
            return "place", found[1]
        found = self.TOKEN.match(self.text, self.start)
        if not found:
            raise ValueError(f"{self.text[self.start:].split()[0]} is no number, place or operator")
        self.start = found.end()
        place, number, operator = found.groups()
        return ("place", place[1:-1].strip()) if place else ("number", number) if number else ("operator", operator)

    def result(self, part):
        if len(part) == 1 and part[0][0] == "place":
            return self.word(part[0][1])
        # (with blanks, since two operators are none)
        code = " ".join(self.term(kind, token) for kind, token, _, _ in part)
        try:
            # (numbers and operators alone stand in it)
            return int(eval(code, {"__builtins__": {}}))
        except (SyntaxError, TypeError, ValueError, OverflowError, MemoryError, RecursionError):
            raise ValueError(f"{self.text.strip()} is no expression") from None

    def term(self, kind, token):
        if kind == "operator":
            return "==" if token == "=" else token
        if kind == "place":
            return f"({value_of(self.word(token))})"
        return token[:-1].lstrip("0") or "0" if token.endswith("D") else f"0o{token}"

    def word(self, place):
        word = self.desk.word(place)
        if word is None:
            raise ValueError(f"no place {place}")
        return word
