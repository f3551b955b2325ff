"""Breakpoints as editors set them, with conditions, counts of hits and messages, over those of a session. `dap` uses this module."""
import bisect
import dataclasses
import operator
import re
from typing import NamedTuple

import pipe
from desk import Expression, value_of

# What an editor is told of a stop at each kind.
REASONS = {"line": "breakpoint", "function": "function breakpoint", "instruction": "instruction breakpoint", "data": "data breakpoint"}
# In the order in which a session has them: it tells the first that holds, so of those that ask what has changed it tells before it tells places.
KINDS = ["data", "line", "function", "instruction"]
COMPARED = {"": operator.eq, "=": operator.eq, "==": operator.eq, ">": operator.gt, ">=": operator.ge, "<": operator.lt, "<=": operator.le}
FULL = "there are as many breakpoints as there can be: 16"
COUNT = re.compile(r"\s*(==?|>=?|<=?|%|)\s*([0-9]{1,15})\s*")


class Stop(NamedTuple):
    """Why a move has ended, with what is told of it, and the numbers of the breakpoints that hold."""

    reason: str
    text: str = ""
    ids: tuple = ()


@dataclasses.dataclass
class Breakpoint:
    """A breakpoint of an editor. Its spec is the command that sets it, without `break` and as the session has it, or empty where there is none: then the message
    says why. `asked` is that command with the names of the source."""

    kind: str
    spec: str = ""
    message: str = ""
    line: int = 0
    name: str = ""
    condition: str = ""
    count: str = ""
    log: str = ""
    asked: str = ""
    id: int = 0
    # the steps at which it held, its condition too, where a move came by
    hits: list = dataclasses.field(default_factory=list)

    def is_counted(self, step, is_forward):
        """Whether it stops at a step by the count of its hits. Going back, those count that are known."""
        at = bisect.bisect_left(self.hits, step)
        if self.hits[at : at + 1] != [step]:
            self.hits.insert(at, step)
        if not self.count:
            return True
        compared, number = COUNT.fullmatch(self.count).groups()
        return (at + 1) % int(number) == 0 if compared == "%" else COMPARED[compared](at + 1, int(number))


class Stops:
    """The breakpoints of an editor in a session. Those that the console has set stand before them."""

    def __init__(self, desk, tell, change):
        """`tell` is handed the messages of breakpoints that have one, `change` a breakpoint that has changed."""
        self.desk, self.tell, self.change = desk, tell, change
        self.wanted, self.set, self.others, self.number = {}, [], 0, 0
        self.is_off, self.is_lent = False, False

    def all(self):
        return [it for kind in KINDS for it in self.wanted.get(kind, [])]

    def is_any(self):
        return bool(self.set or self.others)

    def replace(self, kind, wanted):
        """Has these breakpoints in place of all of a kind. Those that stay as they were keep their hits. What cannot be set has a message then."""
        before = {(it.spec, it.condition, it.count, it.log): it.hits for it in self.wanted.get(kind, [])}
        for it in wanted:
            self.number += 1
            it.id = self.number
            it.hits = before.get((it.spec, it.condition, it.count, it.log), [])
            it.message = it.message or self.fault_of(it)
            it.spec = "" if it.message else it.spec
        self.wanted[kind] = wanted
        self.arrange()

    def fault_of(self, asked):
        """What is wrong with the condition or the count of a breakpoint, or nothing."""
        counted = COUNT.fullmatch(asked.count)
        if asked.count and (not counted or counted[1] == "%" and not int(counted[2])):
            return f"{asked.count} is no count of hits: it is as 3, >= 3 or % 3"
        try:
            return "" if not asked.condition or self.values(asked.condition) else "a condition is a sum of places"
        except ValueError as wrong:
            return str(wrong)

    def values(self, text):
        return [value_of(it) if isinstance(it, str) else it for _, it in Expression(self.desk, text).results()]

    def take_away(self):
        """Has the session without them."""
        for i in reversed(range(len(self.set))):
            self.desk.ask(f"clear {self.others + i + 1}")
        self.set = []

    def arrange(self):
        """Has the session with them, each place once."""
        self.take_away()
        is_full, refused = False, {}
        for it in self.all():
            if not it.spec or it.spec in self.set or self.is_off:
                continue
            reply = "E52" if is_full else self.desk.ask(f"break {it.spec}")[0]
            is_full = reply.startswith("E52")
            if reply.startswith("BREAK"):
                self.set.append(it.spec)
            else:
                refused[it.spec] = FULL if is_full else words_of(reply)
        for it in self.all():
            it.message = refused.get(it.spec, it.message)

    def is_set(self, asked):
        return asked.spec in self.set

    def specs_of(self, commands):
        """For each of some commands without `break`: the breakpoint that it sets, as the session has it, or nothing, and why."""
        self.take_away()
        specs = [self.spec_of(it) for it in commands]
        self.arrange()
        return specs

    def spec_of(self, command):
        reply = self.desk.ask(f"break {command}")[0]
        if not reply.startswith("BREAK"):
            return "", FULL if reply.startswith("E52") else words_of(reply)
        spec = self.texts()[-1]
        self.desk.ask(f"clear {self.others + 1}")
        return ("", "Z changes at each step") if spec == "change E0,0005" else (spec, "")

    def texts(self):
        """All breakpoints of the session, each as the command that sets it."""
        return [line.split(None, 2)[2] for line in self.desk.ask("breaks") if line.startswith("BREAK ")]

    def from_console(self, command):
        """Hands on `break` or `clear`, as one types them, so that the numbers that are told hold. What is cleared is told."""
        if command.split()[0] == "break":
            self.take_away()
            lines = self.desk.ask(command)
            self.others = len(self.texts())
            self.arrange()
            return lines
        lines = self.desk.ask(command)
        left = self.texts()
        if lines[0] == "CLEAR":
            gone, self.others, self.set = self.set, 0, []
        elif lines[0].startswith("CLEAR ") and (number := int(lines[0].split()[1])) > self.others:
            gone = [self.set.pop(number - self.others - 1)]
        else:
            gone, self.others = [], len(left) - len(self.set)
        for it in self.all():
            if it.spec in gone:
                it.spec, it.message = "", "the console has cleared it"
                self.change(it)
        return lines

    def at(self, lines, is_forward=True):
        """Why the session stops where lines of a reply say that a breakpoint holds, or None where it is to go on."""
        number = next(int(it.split()[1]) for it in lines if it.startswith("HIT "))
        if number <= self.others:
            return Stop("breakpoint", f"breakpoint {number} of the console: {self.texts()[number - 1]}")
        changes = self.changes() if self.set[number - self.others - 1].startswith("change ") else {}
        return self.stop([*changes, *self.here()], changes, is_forward)

    def at_start(self):
        """The same of the place where a session begins."""
        return self.stop(self.here(), {}, True)

    def here(self):
        """The spec of the place that comes next, where a breakpoint is to stop there: once for each time that the word there is executed."""
        spec = f"at {self.desk.place}"
        if spec not in self.set:
            return []
        # (after an input that was taken it stands there still; a word that waits stands at none)
        is_still = any(pipe.step_of(it).word == "INPUT" for it in self.desk.ask("trace 1"))
        return [] if is_still or self.desk.ask("where")[0].startswith("WHERE BRUPT ") else [spec]

    def changes(self):
        """What the step up to here has changed of what is watched: the words before and after, by spec."""
        watched = [it for it in self.set if it.startswith("change ")]
        position = self.desk.position
        after = {it: self.word_of(it) for it in watched}
        self.desk.ask("back 1")
        before = {it: self.word_of(it) for it in watched}
        self.desk.ask(f"goto {position}")
        return {it: (before[it], after[it]) for it in watched if before[it] != after[it]}

    def word_of(self, spec):
        cell = spec.split()[1]
        return self.desk.one_word(f"chan {cell[2:]}" if cell.startswith("CH") else f"mem {cell}")

    def stop(self, specs, changes, is_forward):
        stopping = [it for it in self.all() if it.spec in specs and self.stops(it, is_forward)]
        if not stopping:
            return None
        changed = ", ".join(f"{it.name} {' -> '.join(changes[it.spec])}" for it in stopping if it.spec in changes)
        wrong = "; ".join(it.message for it in stopping if it.message)
        return Stop(REASONS[stopping[0].kind], f"changed: {changed}" if changed else wrong, tuple(it.id for it in stopping))

    def stops(self, asked, is_forward):
        """Whether a breakpoint that holds stops the session: by its condition, the count of its hits, and if it has no message, which is told."""
        asked.message = ""
        try:
            if asked.condition and not any(self.values(asked.condition)):
                return False
        except ValueError as wrong:
            asked.message = f"{asked.condition}: {wrong}"
            return True
        if not asked.is_counted(self.desk.position, is_forward):
            return False
        if asked.log and is_forward:
            self.tell(asked, re.sub(r"\{([^{}]*)\}", self.inserted, asked.log))
        return not asked.log

    def inserted(self, found):
        try:
            return ", ".join(it if isinstance(it, str) else f"{it:o}" for _, it in Expression(self.desk, found[1]).results())
        except ValueError as wrong:
            return str(wrong)


class Lent:
    """A session that stops at one place alone, within a `with`: all other breakpoints are set aside."""

    def __init__(self, stops, spec):
        self.stops, self.spec = stops, spec

    def __enter__(self):
        stops = self.stops
        stops.take_away()
        self.kept = stops.texts(), stops.wanted, stops.is_off
        stops.desk.ask("clear")
        stops.others, stops.wanted, stops.is_off, stops.is_lent = 0, {"line": [Breakpoint("line", self.spec)]}, False, True
        stops.arrange()

    def __exit__(self, *_):
        stops = self.stops
        texts, stops.wanted, stops.is_off = self.kept
        stops.is_lent = False
        try:
            stops.take_away()
            for it in texts:
                stops.desk.ask(f"break {it}")
            stops.others = len(texts)
            stops.arrange()
        except pipe.Refused:
            pass  # (the session has ended)


def words_of(reply):
    """A refusal of the session in words."""
    return reply.removeprefix("E50 COMMAND ")
