"""Compares the sentences of `agcws trace --say` with the lines of `agcws trace --reads` of the same steps: what each found, and what it left."""
import os
import re
import subprocess
import unittest

from common import EMPTY, EXAMPLES, PROGRAM, Case, rows_of_runs

STEPS = 10_000
# What a sentence says nothing of: where to go on, the bank registers, and what an interrupt keeps by itself.
UNSAID = {"Q", "EB", "FB", "ZRUPT", "BRUPT"}
# The cells that edit what is stored there, which a read writes back.
EDITING = {"CYR", "SR", "CYL", "EDOP"}
# Each counter with its sequences.
SEQUENCES = {
    "TIME1 TIME2 TIME3 TIME4 TIME5": "PINC", "TIME6": "DINC", "CDUX CDUY CDUZ OPTY OPTX": "PCDU MCDU", "PIPAX PIPAY PIPAZ": "PINC MINC", "INLINK": "SHINC SHANC",
}
INTERRUPTS = "T6RUPT T5RUPT T3RUPT T4RUPT KEYRUPT1 KEYRUPT2 UPRUPT DOWNRUPT RADARUPT RUPT10".split()
# A word in octal, and behind it as a number; of 16 bits with overflow.
WORD = re.compile(r"\b([0-7]{5,6}) \((-?\d+)(, overflow)?\)")
# Each instruction, but for EDRUPT, of which there is no operator.
INSTRUCTIONS = set("""AD ADS AUG BZF BZMF CA CCS CS DAS DCA DCS DIM DV DXCH EXTEND INCR INDEX INHINT LXCH MASK MP MSU QXCH RAND READ RELINT RESUME ROR RXOR SU TC TCF
TS WAND WOR WRITE XCH""".split())
# The sentences that an instruction has, where it has more than one, by how they begin or end.
WAYS = {
    "CCS": (" above 0: ", " is +0: ", " below 0: ", " is -0: "),
    "BZF": ("it goes to", "next word follows"),
    "BZMF": ("it goes to", "next word follows"),
    "TS": ("takes A: ", "word is skipped"),
}


def said_runs():
    """The examples that are run, and the model solutions of the course: a name, the source, the feed and the steps."""
    for name, feed, steps in rows_of_runs():
        yield name, f"{EXAMPLES}/{name}.agc", f"{EXAMPLES}/{feed}", int(steps)
    for folder in sorted(os.listdir(f"{EXAMPLES}/course")):
        room = f"{EXAMPLES}/course/{folder}"
        feed = f"{room}/exercise.feed"
        yield f"lesson {folder}", f"{room}/model.agc", feed if os.path.exists(feed) else EMPTY, 2000


def value_of(word):
    """The number that a word of 15 or 16 bits stands for, as people write it."""
    number, most = int(word, 8), 0o177777 if len(word) == 6 else 0o77777
    if number <= most // 2:
        return str(number)
    return f"-{most - number}"


def shown(word):
    """A word as a sentence has it: 16 bits where they overflow, else 15."""
    if len(word) == 6:
        if int(word[0]) ^ (int(word[1], 8) >> 2):
            return f"{word} ({value_of(word)}, overflow)"
        word = f"{int(word, 8) >> 1 & 0o40000 | int(word, 8) & 0o37777:05o}"
    return f"{word} ({value_of(word)})"


class Traced:
    """A line of `agcws trace --reads`: what it is, and each place with the word that was found and left there."""

    def __init__(self, text):
        fields = re.split("  +", text)
        self.what = [fields[0], *fields[2:5]]
        self.kind, self.text = fields[3:5]
        self.reads = [it.split("=") for it in fields[5].removeprefix("READS ").split(" ") if "=" in it]
        self.writes = [it.split("=") for it in fields[6].split(" ") if "=" in it]
        self.output = fields[7:]


class Said:
    """A line of `agcws trace --say`."""

    def __init__(self, text):
        *self.what, self.sentence = re.split("  +", text)


def wrong_in(traced, said):
    """What a sentence has wrong, or nothing."""
    words = [it[0] for it in WORD.finditer(said.sentence)]
    known = {shown(word) for _, word in traced.reads + traced.writes}
    name = traced.text.split()[0]
    if said.what != traced.what:
        return "another step"
    if re.search("[<>\\[\\]{}@&~#!$%^|]", said.sentence) or not said.sentence.endswith("."):
        return "a sign of the table is left"
    if set(words) - known and "Z" not in traced.text.split():
        return f"{set(words) - known} is neither found nor left"
    if any(value_of(word) != number for word, number, _ in WORD.findall(said.sentence)):
        return "a number is not that of its word"
    if traced.kind == "ENTRY":
        return "" if f"The interrupt {traced.text} is entered" in said.sentence else "another interrupt"
    if traced.kind == "INPUT":
        asked = traced.text.partition(" ASKS ")[2]
        return "" if said.sentence.endswith(f" It asks for {asked}." if asked else ("." if " It asks " not in said.sentence else "?")) else "asks for another"
    left = [word for place, word in traced.writes if place not in UNSAID and not (place in EDITING and name not in ("TS", "XCH"))]
    for word in left:
        if shown(word) not in words and name not in ("TC",):
            return f"{shown(word)} is left, and not said"
    if traced.output and "goes out" not in said.sentence or not traced.output and re.search(r"\bgoes out\b", said.sentence.replace("Nothing goes out", "")):
        return "what goes out"
    return ""


def lines_of(program, option, files, steps):
    return subprocess.run([program, "trace", option, *files, str(steps)], capture_output=True, text=True, timeout=300).stdout.splitlines()


class Say(Case):
    """Sentences of steps, beside traces."""

    def test_examples_and_model_solutions(self):
        """Compares the first steps of each run."""
        met = {}
        for name, source, feed, steps in said_runs():
            files, steps = [source, feed], min(steps, STEPS)
            traced = list(map(Traced, lines_of(PROGRAM, "--reads", files, steps)))
            said = list(map(Said, lines_of(PROGRAM, "--say", files, steps)))
            wrong = [f"{why}: {b.what} {b.sentence}" for a, b in zip(traced, said) for why in [wrong_in(a, b)] if why]
            with self.subTest(f"the sentences of {name}"):
                self.assertTrue(len(said) == len(traced) == steps and not wrong, f"{len(said)} lines; {len(wrong)} wrong, as {wrong[:3]}")
            for it in said:
                met.setdefault(it.what[3].split()[0], set()).add(it.sentence)
        with self.subTest("a sentence of each instruction was met"):
            self.assertTrue(INSTRUCTIONS <= set(met), f"{sorted(INSTRUCTIONS - set(met))}")
        for name, ways in WAYS.items():
            with self.subTest(f"each way of {name} was met"):
                self.assertTrue(all(any(way in it for it in met.get(name, ())) for way in ways), f"{[way for way in ways if not any(way in it for it in met.get(name, ()))]}")

    def test_each_input(self):
        """A run with each input and each interrupt: all have a sentence, which names them, and none is wrong."""
        source, feed = f"{self.room}/each.agc", f"{self.room}/each.feed"
        vectors = "".join(f" SETLOC {0o4000 + 4 * k:o}\n RESUME\n" for k in range(1, 11))
        with open(source, "w", encoding="ascii") as file:
            file.write(f" SETLOC 4000\n TCF START\n{vectors} SETLOC 4100\nSTART RELINT\nIDLE TCF IDLE\n")
        pulses = [f"{counter} {sequence}" for counters, sequences in SEQUENCES.items() for counter in counters.split() for sequence in sequences.split()]
        inputs = pulses + ["CHAN 015 00021", "CHAN 016 00021", "CHAN 030 77777"] + [f"RUPT {k}" for k in range(1, 11)]
        with open(feed, "w", encoding="ascii") as file:
            file.writelines(f"{100 + 50 * i} {it}\n" for i, it in enumerate(inputs))
        traced = list(map(Traced, lines_of(PROGRAM, "--reads", [source, feed], 2000)))
        said = list(map(Said, lines_of(PROGRAM, "--say", [source, feed], 2000)))
        wrong = [f"{why}: {b.what} {b.sentence}" for a, b in zip(traced, said) for why in [wrong_in(a, b)] if why]
        with self.subTest("the sentences of each input"):
            self.assertTrue(len(said) == len(traced) == 2000 and not wrong, f"{wrong[:3]}")
        taken = {a.text.partition(" ASKS ")[0] for a in traced if a.kind == "INPUT"}
        with self.subTest("each input has a sentence"):
            self.assertEqual(taken, set(inputs))
        entered = {a.text for a in traced if a.kind == "ENTRY"}
        with self.subTest("each interrupt has a sentence"):
            self.assertEqual(entered, set(INTERRUPTS))

    def test_named_cells(self):
        """What a line calls a cell: its symbol, the manual's name of one with a use of its own, the symbol before it; and in a sentence. A number by EQUALS names none: it may be
        a channel."""
        source = f"{self.room}/named.agc"
        with open(source, "w", encoding="ascii") as file:
            file.write("""KEEP EQUALS 10
SPOT EQUALS 300
 SETLOC 100
BUFFER ERASE +3
LATER ERASE
 SETLOC 4000
 CA FIVE
 TS BUFFER +1
 TS 12
 TS LATER
 TS SPOT
 TS 13
DONE TCF DONE
FIVE DEC 5
""")
        lines = [re.split("  +", it) for it in lines_of(PROGRAM, "--reads", [source, "/dev/null"], 6)]
        cells = [(it[4], [cell for cell in it[6].split(" ") if cell]) for it in lines]
        with self.subTest("cells by their names"):
            self.assertEqual(cells, [
            ("CA FIVE", ["A=000005"]), ("TS BUFFER +1", ["BUFFER+1=00005"]), ("TS QRUPT", ["QRUPT=00005"]), ("TS LATER", ["LATER=00005"]), ("TS 0300", ["E0,0300=00005"]),
            ("TS 0013", ["E0,0013=00005"])])
        said = [re.split("  +", it)[-1] for it in lines_of(PROGRAM, "--say", [source, "/dev/null"], 3)]
        with self.subTest("a word behind a symbol in a sentence"):
            self.assertEqual(said[1:], ["BUFFER +1 takes A: 00005 (5).", "QRUPT takes A: 00005 (5)."])

    def test_edrupt(self):
        """EDRUPT, which no operator names: a word 07000 behind one that is EXTEND's."""
        source = f"{self.room}/edrupt.agc"
        with open(source, "w", encoding="ascii") as file:
            file.write(" SETLOC 4000\n OCT 6\n OCT 7000\nDONE TCF DONE\n")
        said = [Said(it) for it in lines_of(PROGRAM, "--say", [source, "/dev/null"], 2)]
        with self.subTest("the sentence of EDRUPT"):
            self.assertTrue(said[1].what[3] == "EDRUPT 000" and said[1].sentence == "Nothing happens.", f"{said[1].what} {said[1].sentence}")


if __name__ == "__main__":
    unittest.main()
