"""What a client of the debug adapter is shown of a session that stands: frames, variables, memory, and the words of the image. `dap` uses this module."""
import base64
import re
import tempfile

import pipe
from calls import beside
from desk import MOST_TOLD, forms_of, place_in_command
from protocol import Refusal, argument

THREAD = 1
REGISTERS, SYMBOLS, CHANNELS, FIXED = 1, 2, 3, 4
PLACES = {"A": "0", "L": "1", "Q": "2", "EB": "3", "FB": "4", "Z": "5", "BB": "6"}
NUMBERS = {"STEP", "CYCLES"}
# What one `mem` tells at most; where the bytes of erasable memory begin, as a client refers to them, above the words of the image; and its words.
MOST_WORDS, MEMORY, ERASABLE_WORDS = 999, 0x100000, 0o4000
CHANNEL_COUNT = 0o1000
MOST_INSTRUCTIONS = 65_536


class Shown:
    """The part of an adapter that shows where its session stands. It has the session's desk and calls, what was launched, the frames and words that were asked for
    before, or None, and the arrays, each with a number."""

    def do_stackTrace(self, asked):
        if argument(asked, "threadId", int, THREAD) != THREAD:
            raise Refusal(f"there is no thread but {THREAD}")
        frames, first = self.all_frames()
        told = [self.frame_told(i, it) for i, it in enumerate(frames)]
        if first:
            told.append({"id": len(told) + 1, "name": f"calls before step {first} are not looked for", "line": 0, "column": 0, "presentationHint": "label"})
        start, levels = argument(asked, "startFrame", int, 0), argument(asked, "levels", int, 0)
        return {"stackFrames": told[max(start, 0) :][: levels if levels > 0 else None], "totalFrames": len(told)}

    def all_frames(self):
        """The frames at the position, and the step from which on they were looked for."""
        if not self.frames:
            self.frames = self.calls.frames()
            self.desk.kept.clear()
        return self.frames

    def frame(self, number):
        frames = self.all_frames()[0]
        if not 1 <= number <= len(frames):
            raise Refusal(f"there is no frame {number}")
        return frames[number - 1]

    def frame_told(self, i, frame):
        row = frame.spot.row
        name = frame.spot.symbol or self.name_of(row, frame)
        if i == 0:
            coming = self.coming()
            name += ", which RESUME has brought" if frame.spot.waits else ""
            name += f", after {coming.word} {coming.text}" if coming and coming.word in ("INPUT", "ENTRY") else ""
        name += f", interrupted by {frame.interrupted_by}" if frame.interrupted_by else ""
        told = {"id": i + 1, "name": name, "line": self.line_out(row.line) if row.line else 0, "column": self.column_out() if row.line else 0}
        if row.line:
            told["source"] = self.source()
        if row.place in self.places():
            told["instructionPointerReference"] = f"0x{self.places()[row.place]:x}"
        return told

    def coming(self):
        """The next step, or None where that is new and far from the start."""
        position = self.desk.position
        if position < self.desk.made:
            self.desk.ask(f"goto {position + 1}")
            line = self.desk.ask("trace 1")[0]
            self.desk.ask(f"goto {position}")
            return pipe.step_of(line)
        return next(iter(self.desk.steps(position + 1, "--from", str(position + 1))), None) if position < MOST_TOLD else None

    def name_of(self, row, frame):
        """A row by the last symbol at its place or before it in its bank; in the words at which an interrupt enters by this."""
        if frame.spot.interrupt:
            position = self.desk.position
            entered = self.calls.entry(frame.spot.interrupt[1])
            self.desk.ask(f"goto {position}")
            for words in range(4):
                if beside(entered.place, words) == row.place:
                    return f"{entered.text} +{words}" if words else entered.text
        bank, _, offset = place_in_command(row.place).partition(",")
        places = [(*value.split(","), name) for name, (kind, value) in self.desk.symbols.items() if kind == "FIXED"]
        found = [(at, name) for other, at, name in places if other == bank and at <= offset]
        if not found:
            return row.place
        at, name = max(found)
        return f"{name} +{int(offset, 8) - int(at, 8):o}" if at != offset else name

    def do_scopes(self, asked):
        self.frame(argument(asked, "frameId", int, 1))
        scopes = [("Registers", REGISTERS, "registers"), ("Symbols", SYMBOLS, "locals"), ("Channels", CHANNELS, "globals"), ("Fixed words", FIXED, "globals")]
        return {"scopes": [{"name": name, "variablesReference": it, "presentationHint": hint, "expensive": it >= CHANNELS} for name, it, hint in scopes]}

    def do_variables(self, asked):
        which = argument(asked, "variablesReference", int)
        start, count = argument(asked, "start", int, 0), argument(asked, "count", int, 0)
        if which in self.arrays:
            found, start, count = self.elements(which, start, count), 0, 0
        else:
            work = {REGISTERS: self.registers, SYMBOLS: self.symbols, CHANNELS: self.channels, FIXED: self.constants}.get(which)
            if not work:
                raise Refusal(f"there are no variables {which}")
            found = work() if asked.get("filter") != "indexed" else []
        found = found[max(start, 0) :][: count if count > 0 else None]
        return {"variables": [{"variablesReference": 0, **it} for it in found]}

    def registers(self):
        """The step, registers and flags, the cycles, and what waits or is asked for, if anything."""
        words = {"STEP": str(self.desk.position), **dict(it.split(" ", 1) for it in self.desk.ask("regs all") if " " in it)}
        shown = [(name, word) for name, word in words.items() if word != "NONE"]
        return [{"name": name, "value": word if name in NUMBERS else formed(word), **self.evaluated(name)} for name, word in shown]

    def evaluated(self, name):
        """How a register is asked for, where no symbol has its name."""
        return {"evaluateName": name} if name in PLACES and name not in self.desk.symbols else {}

    def symbols(self):
        """Symbols of erasable memory; one of several words has them as children."""
        numbers = {name: (reference, count) for reference, (name, count) in self.arrays.items()}
        found = []
        for name, (kind, _) in self.desk.symbols.items():
            if kind == "ERASABLE":
                told = {"name": name, "value": formed(self.desk.word(name)), "evaluateName": name, "memoryReference": self.memory_of(name)}
                if name in numbers:
                    reference, count = numbers[name]
                    told |= {"variablesReference": reference, "indexedVariables": count, "value": f"{count} words: {told['value'].split(' ')[0]} .."}
                found.append(told)
        return found

    def elements(self, reference, start, count):
        """The words of an array from one on, so many, or all."""
        name, whole = self.arrays[reference]
        first = max(start, 0)
        words = self.words_from(name, first, min(count, whole - first) if count > 0 else whole - first)
        return [{"name": f"+{i:o}", "value": formed(it), "evaluateName": f"[{name} +{i:o}]"} for i, it in enumerate(words, first)]

    def words_from(self, place, first, count):
        """So many words from one after a place on."""
        words = []
        while len(words) < count:
            lines = self.desk.ask(f"mem {place} +{first + len(words):o} {min(count - len(words), MOST_WORDS)}")
            words += [it.split()[-1] for it in lines]
        return words

    def memory_of(self, name):
        """How a client refers to the bytes of a symbol."""
        return f"0x{MEMORY + 2 * int(self.desk.symbols[name][1], 8):x}"

    def do_readMemory(self, asked):
        """Words of erasable memory, each as two bytes, the upper one first."""
        first = self.index(argument(asked, "memoryReference", str)) + argument(asked, "offset", int, 0) - MEMORY
        count = argument(asked, "count", int)
        if first < 0 or count < 0:
            raise Refusal("memory is read in erasable memory alone: disassemble shows the words of the image")
        last = min(first + count, 2 * ERASABLE_WORDS)
        words = self.words_from("0", first // 2, -(-last // 2) - first // 2) if last > first else []
        data = b"".join(int(it, 8).to_bytes(2, "big") for it in words)[first % 2 :][: max(last - first, 0)]
        return {"address": hex(MEMORY + first), "data": base64.b64encode(data).decode(), "unreadableBytes": count - len(data)}

    def channels(self):
        words = [(it, self.desk.one_word(f"chan {it:o}")) for it in range(CHANNEL_COUNT)]
        shown = [(f"CH{it:03o}", word) for it, word in words if word and (int(word, 8) or it in self.desk.outputs)]
        return [{"name": name, "value": formed(word), **({"evaluateName": name} if name not in self.desk.symbols else {})} for name, word in shown]

    def constants(self):
        return [{"name": name, "value": formed(self.desk.word(name)), "evaluateName": name} for name, (kind, _) in self.desk.symbols.items() if kind == "FIXED"]

    # The words of the image, by their numbers in `agcws words`.

    def rows(self):
        if self.words is None:
            if self.launched.get("image"):
                self.words = self.desk.rows
            else:
                with tempfile.TemporaryDirectory(prefix="agcws-") as room:
                    pipe.answer("asm", *self.desk.words, f"{room}/rope")
                    self.words = pipe.words_of(f"{room}/rope")
            self.by_place = {it.place: i for i, it in enumerate(self.words)}
            self.names = {}
            for name, (kind, value) in self.desk.symbols.items():
                self.names.setdefault(value if kind == "FIXED" else None, name)
        return self.words

    def places(self):
        self.rows()
        return self.by_place

    def row_at(self, index):
        return self.rows()[index] if 0 <= index < len(self.rows()) else None

    def index(self, reference):
        found = re.fullmatch(r"0x([0-9a-fA-F]{1,12})|([0-9]{1,12})", reference)
        if not found:
            raise Refusal(f"{reference[:40]} is no place of an instruction")
        return int(reference, 16 if found[1] else 10)

    def do_disassemble(self, asked):
        count = argument(asked, "instructionCount", int)
        if not 0 <= count <= MOST_INSTRUCTIONS:
            raise Refusal(f"{MOST_INSTRUCTIONS} instructions at most are told at once")
        first = self.index(argument(asked, "memoryReference", str)) + argument(asked, "offset", int, 0) + argument(asked, "instructionOffset", int, 0)
        return {"instructions": [self.instruction(i) for i in range(first, first + count)]}

    def instruction(self, index):
        row = self.row_at(index)
        if not row:
            return {"address": hex(max(index, 0)), "instruction": "", "presentationHint": "invalid"}
        shown = {"address": hex(index), "instructionBytes": row.word, "instruction": f"{row.place} {row.text}"}
        name = self.names.get(place_in_command(row.place))
        shown |= {"symbol": name} if name else {}
        listed = self.desk.at.get(row.place)
        if listed and listed.line:
            shown |= {"line": self.line_out(listed.line), "location": self.source()}
        return shown


def formed(word):
    """A word in octal and its other forms; what is none as it is."""
    return forms_of(word) if re.fullmatch("[0-7]{5,6}", word or "") else str(word)
