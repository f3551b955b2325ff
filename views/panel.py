"""The display and keyboard (DSKY): what words on channels 010 and 011 set, the words that set it so, and the codes of its keys. `dsky`, `keys` and `talk` use this module."""
import re
from typing import NamedTuple

# The channels whose words set it.
CHANNELS = (0o10, 0o11)
# The relays of each digit, by five bits.
DIGITS = {0o00: " ", 0o25: "0", 0o03: "1", 0o31: "2", 0o33: "3", 0o17: "4", 0o36: "5", 0o34: "6", 0o23: "7", 0o35: "8", 0o37: "9"}
# What each row of relays sets: the sign, and the left and the right digit; None stands for relays that show nothing.
ROWS = {
    11: (None, "PROG1", "PROG2"),
    10: (None, "VERB1", "VERB2"),
    9: (None, "NOUN1", "NOUN2"),
    8: (None, None, "REG1:1"),
    7: ("REG1+", "REG1:2", "REG1:3"),
    6: ("REG1-", "REG1:4", "REG1:5"),
    5: ("REG2+", "REG2:1", "REG2:2"),
    4: ("REG2-", "REG2:3", "REG2:4"),
    3: (None, "REG2:5", "REG3:1"),
    2: ("REG3+", "REG3:2", "REG3:3"),
    1: ("REG3-", "REG3:4", "REG3:5"),
}
# The lamps by the bit that lights them, the lowest bit is 1: those of row 12 of channel 010, and those of channel 011.
RELAY_LAMPS = {1: "PRIO DISP", 2: "NO DAP", 3: "VEL", 4: "NO ATT", 5: "ALT", 6: "GIMBAL LOCK", 8: "TRACKER", 9: "PROG"}
LAMPS = {1: "ISS", 2: "COMP ACTY", 3: "UPLINK ACTY", 4: "TEMP", 5: "KEY REL", 6: "FLASH", 7: "OPR ERR"}
# The lamps of the left half, as they stand.
PANEL = [("UPLINK ACTY", "TEMP"), ("NO ATT", "GIMBAL LOCK"), ("ISS", "PROG"), ("KEY REL", ""), ("OPR ERR", "TRACKER"), ("PRIO DISP", "ALT"), ("NO DAP", "VEL")]


def lit(lamps, word):
    return {name for bit, name in lamps.items() if word >> bit - 1 & 1}


# What each key puts on channel 015, and how it may be said. PRO has no code: it is a bit of channel 032, which is 0 while the key is held.
KEYS = {
    "0": 0o20, **{str(it): it for it in range(1, 10)},
    "VERB": 0o21, "RSET": 0o22, "KEY REL": 0o31, "+": 0o32, "-": 0o33, "ENTR": 0o34, "CLR": 0o36, "NOUN": 0o37,
}
SHORT = {"V": "VERB", "N": "NOUN", "C": "CLR", "P": "PRO", "K": "KEY REL", "E": "ENTR", "R": "RSET"}
SPELLINGS = {**{it: it for it in [*KEYS, "PRO"]}, **SHORT, "KEYREL": "KEY REL", "ENTER": "ENTR"}
PRO_CHANNEL, PRO_BIT = 0o32, 0o20000
# The fields of the display, each with the names of its digits.
FIELDS = {**{it: [f"{it}1", f"{it}2"] for it in ("PROG", "VERB", "NOUN")}, **{it: [f"{it}:{i}" for i in range(1, 6)] for it in ("REG1", "REG2", "REG3")}}
CODES = {digit: code for code, digit in DIGITS.items()}


class Unknown(Exception):
    """What of a text is no key, no digit, no lamp."""


class Setting(NamedTuple):
    """A word that sets a row of relays, or lamps, and the channel that it goes to."""

    channel: int
    word: int

    @property
    def row(self):
        return self.word >> 11

    def bits(self):
        """The word in binary: of a row of relays the row, the sign, and the relays of the left and the right digit."""
        bits = f"{self.word:015b}"
        return " ".join((bits[:4], bits[4], bits[5:10], bits[10:])) if self.channel == 0o10 and self.row in ROWS else f"{bits[:4]} {bits[4:]}"

    def told(self):
        """What it sets, in words."""
        if self.channel == 0o10 and self.row in ROWS:
            return f"row {self.row}: {', '.join(self.parts())}"
        names, place = (LAMPS, "lit") if self.channel == 0o11 else (RELAY_LAMPS, f"row {self.row}, lit") if self.row == 12 else (None, "")
        if names is None:
            return f"row {self.row}: nothing that is shown"
        return f"{place}: {', '.join(name for name in names.values() if name in lit(names, self.word)) or 'none'}"

    def parts(self):
        sign, left, right = ROWS[self.row]
        if sign:
            yield f"{sign} is {'on' if self.word & SIGN else 'off'}"
        for name, code in ((left, self.word >> 5 & 0o37), (right, self.word & 0o37)):
            if name:
                yield f"{name} is {(DIGITS[code].strip() or 'dark') if code in DIGITS else f'no digit ({code:02o})'}"


# The bit of a sign.
SIGN = 0o2000


def settings_of(fields):
    """Returns the words that set fields, each a name and its text, the highest row first: of a register a sign or none and five digits, of PROG, VERB and NOUN two, _ where one is dark, and of LAMPS names. A digit of another field that stands in the same row goes dark, unless that field is set too."""
    digits, signs, lamps = {}, set(), None
    for name, text in fields:
        if name == "LAMPS":
            lamps = [*(lamps or []), *lamps_of(text)]
        else:
            sign, shown = digits_of(name, text)
            digits |= dict(zip(FIELDS[name], shown))
            signs |= {f"{name}{sign}"}
    words = [row << 11 | SIGN * (sign in signs) | CODES[digits.get(left, " ")] << 5 | CODES[digits.get(right, " ")]
             for row, (sign, left, right) in ROWS.items() if left in digits or right in digits]
    return [*(Setting(0o10, it) for it in words), *(lamp_settings(lamps) if lamps is not None else [])]


def digits_of(name, text):
    """The sign and the digits of a field, or why they are none."""
    if name not in FIELDS:
        raise Unknown(f"no field {name}: one of {', '.join([*FIELDS, 'LAMPS'])}")
    count = len(FIELDS[name])
    found = re.fullmatch(rf"({'[+-]?' if count == 5 else ''})([0-9_]{{{count}}})", text)
    if not found:
        raise Unknown(f"{name} has {'a sign or none and five' if count == 5 else 'two'} digits, _ where one is dark, and not {text}")
    return found[1], found[2].replace("_", " ")


def lamps_of(text):
    names = [" ".join(it.upper().split()) for it in text.split(",") if it.strip()]
    for it in names:
        if it not in {*LAMPS.values(), *RELAY_LAMPS.values()}:
            raise Unknown(f"no lamp {it}: one of {', '.join([*RELAY_LAMPS.values(), *LAMPS.values()])}")
    return names


def lamp_settings(names):
    """The words that light lamps and no others: of row 12 of channel 010, and of channel 011, where these have one of them. No lamp at all is both."""
    for channel, first, lamps in ((0o10, 12 << 11, RELAY_LAMPS), (0o11, 0, LAMPS)):
        bits = [bit for bit, name in lamps.items() if name in names]
        if bits or not names:
            yield Setting(channel, first | sum(1 << bit - 1 for bit in bits))


def keys_of(text):
    """The names of keys that stand after one another, each in its shortest or its whole spelling, as V37E; blanks part them."""
    left, found = " ".join(text.upper().split()), []
    while left:
        spelling = max((it for it in SPELLINGS if left.startswith(it)), key=len, default=None)
        if spelling is None:
            raise Unknown(f"no key {left.split()[0]}: one of 0 to 9, +, -, {', '.join(f'{it} or {name}' for it, name in SHORT.items())}")
        found.append(SPELLINGS[spelling])
        left = left[len(spelling) :].lstrip()
    return found


class Display:
    """What the words so far have set."""

    def __init__(self, outputs=()):
        self.digits, self.signs, self.relay_lamps, self.lamps = {}, set(), set(), set()
        for output in outputs:
            self.take(output)

    def take(self, output):
        """Sets what a word on a channel sets."""
        if output.channel == 0o11:
            self.lamps = lit(LAMPS, output.word)
        elif output.channel == 0o10:
            self.take_relays(output.word)

    def take_relays(self, word):
        row = word >> 11
        if row == 12:
            self.relay_lamps = lit(RELAY_LAMPS, word)
        if row in ROWS:
            sign, left, right = ROWS[row]
            (self.signs.add if word & SIGN else self.signs.discard)(sign)
            self.digits[left] = DIGITS.get(word >> 5 & 0o37, "?")
            self.digits[right] = DIGITS.get(word & 0o37, "?")

    def field(self, name, separator="", count=2):
        return "".join(self.digits.get(f"{name}{separator}{i}", " ") for i in range(1, count + 1))

    def register(self, name):
        """A register with its sign: plus where both relays are set, since minus is a stroke of it."""
        sign = next((it for it in "+-" if f"{name}{it}" in self.signs), " ")
        return sign + self.field(name, ":", 5)

    def picture(self):
        """The lines of the picture: the lamps that are lit, and what the digits show."""
        shown = self.lamps | self.relay_lamps
        right = [
            ("COMP ACTY" if "COMP ACTY" in shown else "", "PROG"),
            ("", self.field("PROG")),
            ("VERB" + (" FLASH" if "FLASH" in shown else ""), "NOUN"),
            (self.field("VERB"), self.field("NOUN")),
            *(("", self.register(it)) for it in ("REG1", "REG2", "REG3")),
        ]
        bar = f"+{'-' * 26}+{'-' * 19}+"
        yield bar
        for lamps, (left, last) in zip(PANEL, right):
            first, second = (it if it in shown else "" for it in lamps)
            yield f"| {first:12} {second:11} | {left:11}{last:>6} |"
        yield bar
