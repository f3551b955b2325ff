"""Compares the lines of `agcws trace` with what `agcws debug` replies of the same steps: step 1, changed, regs, mem and chan."""
import re
import subprocess
import unittest

from common import EXAMPLES, PROGRAM, Case, agcws, example_runs, write

STEPS = 10_000
REGISTERS = {"A": 0, "L": 1, "Q": 2, "EB": 3, "FB": 4, "Z": 5, "BB": 6}
# Cells with a use of their own, by their names in section 5 of the manual, where no symbol stands for them.
NAMES = "ARUPT LRUPT QRUPT ZRUPT BBRUPT BRUPT CYR SR CYL EDOP TIME2 TIME1 TIME3 TIME4 TIME5 TIME6 CDUX CDUY CDUZ OPTY OPTX PIPAX PIPAY PIPAZ INLINK"
SPECIAL = dict(zip(NAMES.split(), [0o10, 0o11, 0o12, 0o15, 0o16, 0o17, *range(0o20, 0o42), 0o45]))
# Z changes in nearly every step, and BB with EB or FB: neither is shown.
NOT_SHOWN = {5, 6}


def replies(program, files, commands):
    """What a session replies to commands."""
    return subprocess.run([program, "debug", *files], input="".join(f"{it}\n" for it in commands), capture_output=True, text=True, timeout=600).stdout.splitlines()


def symbols_of(program, source):
    """The symbols that stand for places, each with the erasable place or the address of the fixed one."""
    listing = subprocess.run([program, "asm", source, "/dev/null"], capture_output=True, text=True, timeout=300).stdout
    found = {}
    for name, kind, value in re.findall(r"^(\S+) +(ERASABLE|FIXED) (\S+)$", listing.split("\nSYMBOLS ")[-1], re.M):
        if kind == "ERASABLE":
            found[name] = int(value, 8)
        else:
            bank, offset = (int(it, 8) for it in value.split(","))
            found[name] = {2: 0o4000, 3: 0o6000}.get(bank, 0o2000) + offset
    return found


class Line:
    """A line of a trace."""

    def __init__(self, text):
        fields = re.split("  +", text)
        self.step, self.cycles, self.place, self.kind, self.text, written = fields[:6]
        self.written = [] if written == "-" else [it.split("=") for it in written.split(" ")]
        self.output = fields[6:]

    def is_instruction(self):
        return self.kind not in ("INPUT", "ENTRY")


class Step:
    """What a session tells after a step."""

    def __init__(self, lines):
        self.output = [it for it in lines if " CH " in it]
        rest = [it for it in lines if " CH " not in it]
        _, self.step, self.cycles, self.z = rest[0].split()
        count = next(i for i, it in enumerate(rest) if it.startswith("COUNT "))
        self.changed = {int(it, 8) for it in rest[1:count]}
        words = rest[count + 1].split()
        self.registers = dict(zip(words[::2], words[1::2]))
        self.next = rest[count + 2].split()[1:]


def steps_of(program, files):
    commands = ["step 0", "changed 0", "regs"]
    for step in range(STEPS):
        commands += ["step 1", f"changed {step}", "regs"]
    lines = replies(program, files, commands)
    ends = [i + 1 for i, it in enumerate(lines) if it.startswith("NEXT ")]
    return [Step(lines[a:b]) for a, b in zip([0] + ends, ends)]


def number_of(name, symbols):
    """The place that a name stands for, also of a word behind a symbol, as X+1; or None."""
    if name in REGISTERS or name in symbols:
        return REGISTERS.get(name, symbols.get(name))
    base, plus, more = name.partition("+")
    if plus:
        return symbols[base] + int(more, 8)
    return SPECIAL.get(name)


def place_asked(name, symbols):
    """The command that asks for the word at a place of a line."""
    if name.startswith("CH") and name not in symbols:
        return f"chan {name[2:]}"
    number = number_of(name, symbols)
    if number is None:
        # (an erasable place as a listing has it)
        bank, address = name[1:].split(",")
        number = int(bank, 8) << 8 | int(address, 8) & 0o377
    return f"mem {number:o}"


def is_same_text(line, told, symbols):
    """Whether a line's instruction is the one that was told, but for the name of a place."""
    if re.search(r" [+-][0-7]+$", line.text):
        return True
    name, _, operand = line.text.partition(" ")
    if line.text == " ".join(told[1:]):
        return operand not in symbols
    number = number_of(operand, symbols)
    if number is None or name != told[1]:
        return False
    address = int(told[2], 8)
    return number == address or 0o1400 <= address < 0o2000 and number % 0o400 == address % 0o400


def is_right(line, before, after, symbols):
    """Whether a line says what the session told before and after the step."""
    shown = {int(place_asked(name, symbols).split()[1], 8) for name, _ in line.written if not name.startswith("CH") or name in symbols}
    enters = (before.registers["INT"], after.registers["INT"]) == ("0", "1")
    kind = line.kind == "ENTRY" if enters else line.kind != "ENTRY"
    if line.is_instruction():
        what = line.kind == before.next[0] and is_same_text(line, before.next, symbols)
        place = line.place == "BRUPT" or line.place.split(",")[1] == before.z
    else:
        what = line.kind == "INPUT" or line.text.startswith(("T", "KEY", "UP", "DOWN", "RADAR", "RUPT"))
        place = line.place == "-" if line.kind == "INPUT" else line.place.split(",")[1] == after.z
    return (line.step, line.cycles, line.output) == (after.step, after.cycles, after.output) and kind and what and place and after.changed - NOT_SHOWN <= shown


class Trace(Case):
    """Lines of traces, beside sessions of the same steps."""

    def test_examples(self):
        for name, files in example_runs():
            self.compare(name, files)

    def compare(self, name, files):
        """Compares the first steps of a program."""
        text = subprocess.run([PROGRAM, "trace", *files, str(STEPS)], capture_output=True, text=True, timeout=300).stdout
        lines = [Line(it) for it in text.splitlines()]
        symbols, steps = symbols_of(PROGRAM, files[0]), steps_of(PROGRAM, files)
        wrong = [it for it, before, after in zip(lines, steps, steps[1:]) if not is_right(it, before, after, symbols)]
        with self.subTest(f"trace of {name} beside debug"):
            self.assertTrue(len(lines) == STEPS and not wrong, f"{len(lines)} lines, {vars(wrong[0]) if wrong else ''}")
        commands, wanted = [], []
        for line in lines:
            commands += ["step 1"] + [place_asked(place, symbols) for place, _ in line.written]
            wanted += [word[-5:] if place not in ("A", "Q") else word for place, word in line.written]
        got = [it.split()[1] for it in replies(PROGRAM, files, commands) if it.startswith(("MEM ", "CHAN "))]
        # (mem shows the 15 bits of A and Q that a word has)
        same = [a if len(a) == 5 else f"{int(a, 8) >> 1 & 0o40000 | int(a, 8) & 0o37777:05o}" for a in wanted]
        with self.subTest(f"what trace of {name} shows written"):
            self.assertEqual(got, same)

    def test_inputs(self):
        """What INDEX adds, here minus one, and what inputs ask for: the keyboards' channels, DINC of a zero, and RUPT."""
        source = write(f"{self.room}/traced.agc", b" SETLOC 100\nX ERASE\n SETLOC 4000\n CA MINUS\n TS X\n INDEX X\n CA TABLE +1\nDONE TCF DONE\nMINUS OCT 77776\nTABLE OCT 7\n OCT 10\n")
        feed = write(f"{self.room}/traced.feed", b"8 CHAN 015 00021\n8 TIME6 DINC\n8 RUPT 10\n8 CDUX PCDU\n")
        lines = [
            b"1         2         02,4000  34005  CA MINUS            A=177776\n",
            b"2         4         02,4001  54100  TS X                X=77776\n",
            b"3         6         02,4002  50100  INDEX X             -\n",
            b"4         8         02,4003  34006  CA 4007 -1          A=000007\n",
            b"5         8         -        INPUT  CHAN 015 00021 ASKS KEYRUPT1   CH015=00021\n",
            b"6         9         -        INPUT  TIME6 DINC ASKS T6RUPT   TIME6=00000\n",
            b"7         9         -        INPUT  RUPT 10 ASKS RUPT10   -\n",
            b"8         10        -        INPUT  CDUX PCDU           CDUX=00001\n",
        ]
        with self.subTest("a trace of inputs"):
            self.assertAnswer(agcws("trace", source, feed, "8"), 0, b"".join(lines))

    def test_images_and_spans(self):
        """Traces of an image, of some steps, of none, and of a refused feed."""
        source, empty, rope = f"{EXAMPLES}/five_plus_five.agc", f"{EXAMPLES}/empty.feed", f"{self.room}/traced.rope"
        agcws("asm", source, rope)
        lines = [
            b"1         2         02,4000  34005  CA 4005             A=000005\n",
            b"2         4         02,4001  64005  AD 4005             A=000012\n",
            b"3         5         02,4002  00006  EXTEND              -\n",
            b"4         7         02,4003  01010  WRITE 010           CH010=00012  7 CH 010 00012\n",
        ]
        with self.subTest("a trace of an image"):
            self.assertAnswer(agcws("trace", "--image", rope, empty, "4"), 0, b"".join(lines))
        with self.subTest("a trace of some steps"):
            self.assertAnswer(agcws("trace", "--image", rope, empty, "1099511627774", "--from", "2", "--to", "3"), 0, b"".join(lines[1:3]))
        with self.subTest("a trace of later steps than there are"):
            self.assertAnswer(agcws("trace", source, empty, "4", "--from", "5", "--to", "9"), 0, b"")
        with self.subTest("a trace that ends before it begins"):
            self.assertAnswer(agcws("trace", source, empty, "60", "--from", "50", "--to", "40"), 2, b"", b"error: --to names an earlier step than --from, which is 1 where it is not given\n")
        with self.subTest("a trace of no steps"):
            self.assertAnswer(agcws("trace", source, empty, "0"), 0, b"")
        with self.subTest("a trace of a refused feed"):
            self.assertAnswer(agcws("trace", source, source, "4"), 1, b"", b"agcws: E30 LINE 2\n")


if __name__ == "__main__":
    unittest.main()
