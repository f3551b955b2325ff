"""What the program is tried on: cases of hostile bytes (generator.c), the calls that they are tried by, and the refusals that a text of each kind may meet."""
import ctypes
import os
import re
import shutil
import subprocess

from files import read, write

HERE = os.path.dirname(os.path.abspath(__file__))
ROOT = os.path.dirname(os.path.dirname(HERE))
EXAMPLES = f"{ROOT}/examples"
PROGRAM = os.environ.get("AGCWS", f"{ROOT}/crates/agcws/out/agcws")
IMAGE_BYTES, MOST_BYTES = 73728, 1 << 18
KINDS = ["source", "feed", "commands", "image"]
REFUSALS = {"source": range(10, 27), "feed": (30, 31, 32, 33, 35), "commands": (), "image": (3, 4, 5)}
FIVE, KEY_ECHO, LOST_SUM, SECONDS = (f"{EXAMPLES}/{name}.agc" for name in ("five_plus_five", "key_echo", "lost_sum", "seconds"))
NAMES, DOWNLIST = f"{EXAMPLES}/names.lst", f"{EXAMPLES}/flight/downlist.agc"
# Operators of flight programs alone, each as it is written.
FLIGHT_OPERATORS = "COUNT* BNKSUM SUBRO MEMORY CHECK= OCTAL 2OCT VN 2DEC DEC* 2DEC* GENADR REMADR 1DNADR 6DNADR DNCHAN -DNCHAN -CADR -GENADR -CCS -1DNADR -2CADR BBCON".split()
# The refusals of a table of names, and of the image without an end that is read after it.
TABLE_REFUSALS = (4, 36)
FLIGHT = [f"{EXAMPLES}/flight/{name}.agc" for name in ("bankcall", "downlist", "waitlist")]
EMPTY, CLOCK, KEYS = (f"{EXAMPLES}/{name}.feed" for name in ("empty", "clock", "key_echo"))

# The calls by which the cases of a kind are tried in turn: 'case' is the case, 'twin' an image that differs a little from it, 'rope' an image, 'made' a file that is not there yet.
# Where neither stands, the case is standard input.
CALLS = {
    "source": [["asm", "case", "made"], ["run", "case", EMPTY, "200"], ["asm", "--rope=1", "case", "made"], ["run", "--end", "case", CLOCK, "300"], ["debug", "case", CLOCK]],
    "feed": [["run", FIVE, "case", "300"], ["run", "--end", KEY_ECHO, "case", "600"], ["run", SECONDS, "case", "600"], ["debug", LOST_SUM, "case"]],
    "commands": [["debug", FIVE, EMPTY], ["debug", KEY_ECHO, KEYS], ["debug", LOST_SUM, EMPTY], ["debug", "--extended", LOST_SUM, EMPTY]],
    "image": [
        ["words", "case"],
        ["words", "case", "02"],
        ["words", "--rope=1", "case", "43"],
        ["sums", "case"],
        ["sums", "--rope=1", "case"],
        ["compare", "case", "twin"],
        ["compare", "--old=1", "--new=1", "case", "twin"],
        ["run", "--image", "case", EMPTY, "300"],
        ["run", "--image", "--rope=1", "--end", "case", CLOCK, "300"],
        ["debug", "--image", "case", EMPTY],
        ["debug", "--image", "--rope=1", "case", CLOCK],
        ["upgrade", "case", "made"],
    ],
}

# Calls by which cases are tried besides, in processes of their own alone.
FURTHER_CALLS = {
    "source": [
        ["asm", "--flight", "case", "made"],
        ["run", "--flight", "case", EMPTY, "200"],
        ["words", "--symbols", "case", "--rope=1", "/dev/zero"],
        ["asm", "--sums", "case", "made"],
        ["asm", "--flight", "--sums", "--rope=1", "case", "made"],
        ["trace", "--from=20", "--to=150", "case", CLOCK, "200"],
        ["trace", "--flight", "case", CLOCK, "200"],
        ["cover", "--flight", "case", CLOCK, "200"],
        ["cover", "--flight", "--json", "case", CLOCK, "200"],
        ["debug", "--flight", "--extended", "case", CLOCK],
        ["compare", "--only", "case", "rope"],
        ["compare", "--only", "--flight", "--parity=ignore", "--new-form=hardware", "case", "rope"],
    ],
    "feed": [
        ["debug", "--image", "--symbols", "case", "--rope=1", "/dev/zero", EMPTY],
        ["trace", "--progress", KEY_ECHO, "case", "300"],
        ["cover", LOST_SUM, "case", "300"],
        ["access", LOST_SUM, "case", "300"],
        ["delays", LOST_SUM, "case", "300"],
        ["reach", "--feed", "case", "--steps", "300", LOST_SUM],
        ["whatif", LOST_SUM, "case", "300", EMPTY],
        ["whatif", LOST_SUM, EMPTY, "300", "case"],
        ["whatif", "--notes", LOST_SUM, EMPTY, "300", "case"],
        ["differ", LOST_SUM, "case", "300", "--with", LOST_SUM, EMPTY],
        ["differ", LOST_SUM, EMPTY, "300", "--with", LOST_SUM, "case"],
        ["debug", "--extended", "--flight", DOWNLIST, "case"],
    ],
    "commands": [["debug", "--extended", "--flight", DOWNLIST, KEYS], ["debug", "--extended", "--image", "--symbols", NAMES, "rope", KEYS], ["debug", "--image", "rope", EMPTY]],
    "image": [
        ["parity", "case"],
        ["parity", "--form=hardware", "case"],
        ["damages", "case"],
        ["damages", "--form=hardware", "case"],
        ["damages", "--source", "case"],
        ["words", "--where", "case"],
        ["words", "--octal", "--form=hardware,swapped,complemented,numbered", "case"],
        ["damages", "--form=swapped,numbered", "case"],
        ["trace", "--image", "--form=hardware", "--parity=ignore", "case", EMPTY, "300"],
        ["compare", "--only", "--flight", DOWNLIST, "case"],
        ["words", "--source", "--parity=ignore", "case"],
        ["words", "--form=hardware", "case", "02"],
        ["sums", "--parity=ignore", "--form=hardware", "case"],
        ["sums", "--forms", "case"],
        ["sums", "--forms", "--rope=1", "case"],
        ["words", "--symbols", NAMES, "--parity=ignore", "case"],
        ["words", "--symbols", NAMES, "case", "02"],
        ["trace", "--image", "--symbols", NAMES, "--parity=ignore", "case", EMPTY, "300"],
        ["cover", "--image", "--symbols", NAMES, "case", EMPTY, "300"],
        ["cover", "--image", "--json", "--symbols", NAMES, "case", EMPTY, "300"],
        ["access", "--image", "--symbols", NAMES, "case", EMPTY, "300", "Q"],
        ["delays", "--image", "--symbols", NAMES, "case", CLOCK, "300"],
        ["debug", "--image", "--symbols", NAMES, "--parity=ignore", "case", EMPTY],
        ["compare", "--parity=ignore", "--new-form=hardware", "case", "twin"],
        ["compare", "--only", FIVE, "case"],
        ["run", "--image", "--parity=ignore", "case", EMPTY, "300"],
        ["trace", "--image", "case", EMPTY, "300"],
        ["cover", "--image", "--rope=1", "case", CLOCK, "300"],
        ["debug", "--extended", "--image", "--form=hardware", "case", EMPTY],
    ],
}

# A session of 53 commands, two of which add an input, and twenty-two of which only an extended session has.
ADDED = b"add 5000 TIME1 PINC"
COMMANDS = b"""run 100
break at FIVE
break word 25 3
break chan 10 12
break chan 10 2 7
break exec FIVE
break change 24
break change CH10
seek
back 5
%s
goto 40
regs
mem 24
chan 10
last 25
sym START
changed 10
tail
step 3
%s
run 50
goto 3
on 40
regs all
until 400
over 40
out 40
inputs
why
why 25
why CH010 40
trace 12
where
list 02,4000 12
value 24 3
mem 02,4000 12
mem 24 +2
mem Z
find S
clear
run 900
mem 25
inputs
goto 0
regs
goto 60
last 24
back 1
tail
changed 0
seek
quit
""" % (ADDED, ADDED.replace(b"5000", b"6000"))


def call_of(kind, number):
    """The call by which a case is tried in one process with others."""
    return CALLS[kind][number % len(CALLS[kind])]


def any_call_of(kind, number):
    """The call by which a case is tried in a process of its own."""
    calls = CALLS[kind] + FURTHER_CALLS.get(kind, [])
    return calls[number % len(calls)]


def with_ending(ending):
    return [f"{EXAMPLES}/{name}" for name in sorted(os.listdir(EXAMPLES)) if name.endswith(ending)]


def operators():
    """The operators of the source language, as an example has each, and those of flight programs."""
    with open(f"{EXAMPLES}/operators.agc", encoding="utf-8") as lines:
        fields = [re.match(r"[^#\s]*[ \t]+([^#\s]+)", it) for it in lines]
    return list(dict.fromkeys([*(it[1] for it in fields if it), *FLIGHT_OPERATORS]))


class Made:
    """What is made once: the libraries, and files of each kind that the program takes, from which cases are changed (those of the repository, and images made of them)."""

    def __init__(self, room):
        self.room = room
        write(f"{room}/operators.h", "".join(f'    "{it}",\n' for it in operators()).encode())
        self.generator, self.in_process = build(room, "generator"), build(room, "in_process", "generator")
        self.commands = write(f"{room}/commands", COMMANDS)
        self.sound = {"source": with_ending(".agc") + FLIGHT, "feed": with_ending(".feed"), "commands": [self.commands], "image": []}
        for number, source in enumerate(with_ending(".agc")):
            for version in "12":
                image = f"{room}/image-{number}-{version}"
                subprocess.run([PROGRAM, "asm", "--rope", version, source, image], check=True, stdout=subprocess.DEVNULL)
                self.sound["image"].append(image)
        self.rope = self.sound["image"][-1]


def build(room, name, *others):
    """Builds a library of C."""
    library = f"{room}/{name}.so"
    subprocess.run(["cc", "-O2", "-shared", "-fPIC", f"-I{room}", "-o", library, *(f"{HERE}/{it}.c" for it in (name, *others))], check=True)
    return library


class Text(ctypes.Structure):
    _fields_ = [("bytes", ctypes.c_char_p), ("length", ctypes.c_size_t)]


class Maker:
    """Makes cases, each from a seed, its kind and its number."""

    def __init__(self, made, seed):
        self.library, self.seed, self.room = ctypes.CDLL(made.generator), seed.encode(), ctypes.create_string_buffer(MOST_BYTES)
        for function in (self.library.make_case, self.library.make_twin):
            function.restype = ctypes.c_size_t
        self.sound = {}
        for kind, paths in made.sound.items():
            texts = [read(path) for path in paths]
            self.sound[kind] = (Text * len(texts))(*(Text(text, len(text)) for text in texts))

    def case(self, kind, number):
        sound = self.sound[kind]
        length = self.library.make_case(self.seed, KINDS.index(kind), ctypes.c_uint64(number), sound, ctypes.c_size_t(len(sound)), self.room)
        return ctypes.string_at(self.room, length)

    def twin(self, kind, number, case):
        """A case that is changed a little."""
        ctypes.memmove(self.room, case, len(case))
        length = self.library.make_twin(self.seed, KINDS.index(kind), ctypes.c_uint64(number), self.room, ctypes.c_size_t(len(case)))
        return ctypes.string_at(self.room, length)
