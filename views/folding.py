"""Rounds of a loop in a trace, as one."""
import re

# A loop has at most so many steps, and is told as one from so many rounds on.
MOST_ROUND, FEWEST_ROUNDS = 16, 3


def said_of(line):
    """What a line of a trace says of its step, without its number and the cycles, also those of what it puts out; or nothing, of a line that is no step's."""
    found = re.match(r"(\d+)  +(?:(\d+)  +)?(?=BRUPT|-|[0-9E]\d,\d{4})(.*)", line)
    return re.sub(r"  \d+ (CH \d+ \d+)$", r"  \1", found.group(3)) if found else None


class Folding:
    """Lines of a trace as they come; those of rounds that repeat the one before them word for word are counted."""

    def __init__(self, write):
        self.write = write
        self.lines, self.said = [], []
        # the size of the round that is repeated, how many lines repeat it so far, and the last of them
        self.size, self.repeated, self.last = 0, 0, ""

    def take(self, line):
        said = said_of(line)
        if self.size:
            if said is not None and said == self.said[-self.size]:
                self.said.append(said)
                del self.said[0]
                self.repeated, self.last = self.repeated + 1, line
                self.lines.append(line)
                if len(self.lines) == self.size:
                    self.lines.clear()
                return
            self.end()
        self.lines.append(line)
        self.said.append(said)
        if said is None:
            self.flush()
            return
        self.find()
        if not self.size and len(self.lines) > MOST_ROUND * FEWEST_ROUNDS:
            self.write(self.lines.pop(0))
            del self.said[0]

    def find(self):
        """Whether the last lines are enough rounds of one loop, which then is written once."""
        count = len(self.said)
        for size in range(1, min(MOST_ROUND, count // FEWEST_ROUNDS) + 1):
            first = count - size * FEWEST_ROUNDS
            if self.said[first + size :] == self.said[first : count - size]:
                for line in self.lines[: first + size]:
                    self.write(line)
                self.size, self.repeated, self.last = size, size * (FEWEST_ROUNDS - 1), self.lines[-1]
                self.lines, self.said = [], self.said[-size:]
                return

    def end(self):
        """Tells how often a round came again; steps of one that has not come to its end are lines of their own."""
        rounds = self.repeated // self.size
        kind = "step" if self.size == 1 else f"round of {self.size} steps"
        whole = int(self.last.split()[0]) - len(self.lines)
        self.write(f"..        this {kind} {rounds} times more, to step {whole}")
        # (of the lines that began another round none is lost)
        rest, self.said = self.lines, self.said[len(self.said) - len(self.lines) :] if self.lines else []
        self.lines, self.size, self.repeated = rest, 0, 0

    def flush(self):
        """Writes what is kept."""
        if self.size:
            self.end()
        for line in self.lines:
            self.write(line)
        self.lines, self.said = [], []


def folded(lines):
    """Lines with rounds that repeat as one."""
    found = []
    folding = Folding(found.append)
    for line in lines:
        folding.take(line)
    folding.flush()
    return found
