"""Damages ropes by seeds, each as a dump may be damaged, and tries that `agcws damages` names each; and beside a second reading of its help on
random images: what it tells is told here anew, over lists of words. Images in other forms, and texts of octal words, are taken for what they are."""
import functools
import itertools
import random
import subprocess
import unittest

from common import PROGRAM, Case

BANKS, WORDS = 36, 1024
PLACE = {2: 0o4000, 3: 0o6000}
ENTRY = {0: 2, 1: 3, 2: 0, 3: 1}
FLIPS = 600


def added(so_far, word):
    """The sum of two words by their values, where one that overflows comes back by 2^14 - 1; -0 is 77777, and +0 comes of zeros alone."""
    value = (so_far - 32767 if so_far >= 16384 else so_far) + (word - 32767 if word >= 16384 else word)
    value += -16383 if value > 16383 else 16383 if value < -16383 else 0
    return value if value > 0 or so_far == word == 0 else value + 32767


def total(words):
    """The sum of a bank's words."""
    return functools.reduce(added, words, 0)


def holds(bank, words):
    return total(words) in (bank, bank ^ 0o77777)


def with_sum(chance, bank):
    """Random words whose sum is the bank's number, or the complement of it: more small ones than great ones, as programs have."""
    words = [chance.randrange(1 << chance.choice((6, 12, 15))) for _ in range(WORDS - 1)]
    return words + [with_number(bank, total(words))]


def with_number(bank, so_far):
    """The word that makes a sum the bank's number, or the complement of it."""
    return added(bank ^ 0o77777 if so_far >= 16384 else bank, so_far ^ 0o77777)


def rope(seed, filled=28):
    """Banks of words with their sums, and empty ones behind them."""
    chance = random.Random(seed)
    return [with_sum(chance, bank) if bank < filled else [0] * WORDS for bank in range(BANKS)]


def pairs_of(banks):
    """Each word as a number of 16 bits, with its parity bit as the lowest."""
    return [[2 * word + (bin(word).count("1") + 1) % 2 for word in words] for words in banks]


def image_of(pairs):
    """The bytes of an image, banks 2 and 3 first."""
    return b"".join(pair.to_bytes(2, "big") for entry in range(BANKS) for pair in pairs[ENTRY.get(entry, entry)])


def turned_by(names, pair):
    """Two bytes as they stand in a form."""
    turns = [turn for name, turn in (("hardware", of_hardware), ("swapped", bytes_exchanged), ("complemented", lambda it: it ^ 0o177777)) if name in names]
    return functools.reduce(lambda it, turn: turn(it), turns, pair)


def in_form(names, pairs):
    """The bytes of an image in a form: its parts by their names."""
    banks = [[turned_by(names, pair) for pair in bank] for bank in pairs]
    return image_of(banks[2:4] + banks[:2] + banks[4:] if "numbered" in names else banks)


def octals_of(banks):
    """A text of octal words."""
    return "".join(f"BANK={bank:02o}\n" + "".join(" ".join(f"{word:05o}" for word in words[line : line + 8]) + "\n" for line in range(0, WORDS, 8)) for bank, words in enumerate(banks))


def place(bank, offset):
    return f"{bank:02o},{PLACE.get(bank, 0o2000) + offset:04o}"


def told_of(pairs):
    """What is damaged in an image, by its banks of pairs of bytes."""
    ways = standing(pairs)
    if ways:
        return [*ways, f"COUNT {len(ways)}"]
    right = parity_of(pairs)
    lines = ["PARITY THE OTHER WAY ROUND"] if right == 0 else []
    rows = [told_of_bank(pairs, bank, right) for bank in range(BANKS)]
    for module in range(0, BANKS, 6):
        lines += told_of_module(pairs, module, right) or [line for row in rows[module : module + 6] for line in row]
    return [*lines, f"COUNT {sum(map(bool, rows)) + (right == 0)}"]


def is_one_word(bank):
    return len({pair >> 1 for pair in bank}) == 1


def parity_of(pairs):
    """The number of one bits of two bytes that is right: odd, or even where most words that stand in banks of more than one word have it."""
    counted = [pair for bank in pairs if not is_one_word(bank) for pair in bank]
    return 0 if 2 * sum(bin(pair).count("1") % 2 == 0 for pair in counted) > len(counted) else 1


def told_of_module(pairs, first, right):
    """The line of six banks that hold one word alone, or nothing."""
    banks = pairs[first : first + 6]
    wrong = [sum(bin(pair).count("1") % 2 != right for pair in bank) for bank in banks]
    word = banks[0][0] >> 1
    if any(pair >> 1 != word for bank in banks for pair in bank) or (word == 0 and 0 in wrong):
        return []
    return [f"BANKS {first:02o} TO {first + 5:02o} ALL {word:05o}" + (f", {sum(wrong)} OF WRONG PARITY" if any(wrong) else "")]


def bytes_exchanged(pair):
    return (pair & 255) << 8 | pair >> 8


def hardware(pair):
    """A pair with its parity bit below the highest one, as it is written else."""
    return pair & 0x8000 | (pair & 0x3FFF) << 1 | pair >> 14 & 1


def of_hardware(pair):
    return pair & 0x8000 | (pair & 1) << 14 | pair >> 1 & 0x3FFF


ORDERS = [
    ("BYTES EXCHANGED", bytes_exchanged),
    ("BITS IN THE ORDER OF THE HARDWARE", hardware),
    ("BYTES EXCHANGED, BITS IN THE ORDER OF THE HARDWARE", lambda pair: hardware(bytes_exchanged(pair))),
]


def standing(pairs):
    """The lines that tell how an image stands otherwise than as written."""
    orders = [lambda pair: pair, *(it for _, it in ORDERS)]
    held = [sum(not is_one_word(bank) and holds(number, [order(pair) >> 1 for pair in bank]) for number, bank in enumerate(pairs)) for order in orders]
    best = 0 if held[0] == max(held) else held.index(max(held))
    words = [[orders[best](pair) >> 1 for pair in bank] for bank in pairs]
    lines = [ORDERS[best - 1][0]] if best else []
    extends, others = (sum(bank.count(word) for bank in words) for word in (0o6, 0o77771))
    right = parity_of(pairs)
    alike = [bank[0] for bank, bytes_of in zip(words, pairs) if len(set(bank)) == 1 and all(bin(pair).count("1") % 2 == right for pair in bytes_of)]
    if others > extends + 32 or (extends <= others + 32 and 0o77777 in alike and 0 not in alike):
        lines.append("ALL BITS COMPLEMENTED")
    first = [is_one_word(pairs[bank]) or holds((bank + 2) % 4, words[bank]) for bank in range(4)]
    return lines + (["BANKS BY THEIR NUMBERS"] if all(first) and not all(map(is_one_word, pairs[:4])) else [])


def told_of_bank(pairs, bank, right):
    words = [pair >> 1 for pair in pairs[bank]]
    wrong = [offset for offset, pair in enumerate(pairs[bank]) if bin(pair).count("1") % 2 != right]
    name = f"BANK {bank:02o}"
    turned = lambda bit: [word ^ (1 << bit >> 1) if offset in set(wrong) else word for offset, word in enumerate(words)]
    if len(set(words)) == 1:
        return [] if not wrong and not words[0] else [f"{name} ALL {words[0]:05o}" + (f", {len(wrong)} OF WRONG PARITY" if wrong else "")]
    dead = [bit for bit in range(10) if all(word == words[offset & ~(1 << bit)] for offset, word in enumerate(words))]
    if dead:
        bit = 1 << dead[-1]
        loops = [offset & bit for offset in range(WORDS - 1) if offset & bit == offset + 1 & bit and all(words[it] == (PLACE.get(bank, 0o2000) + it) for it in (offset, offset + 1))]
        is_known = len(set(loops)) == 1 and not wrong
        way = f"ALWAYS {int(loops[0] > 0)}" if is_known else "MAKES NO DIFFERENCE"
        return [f"{name} ADDRESS BIT {dead[-1] + 1} {way}" + (f", {len(wrong)} OF WRONG PARITY" if wrong else "")]
    if not wrong:
        return [] if holds(bank, words) else [f"{name} {by_sum(pairs, bank, words)}"]
    is_blank = not any(word for offset, word in enumerate(words) if offset not in set(wrong))
    plain = [f"{place(bank, offset)} {words[offset]:05o} HAS WRONG PARITY" for offset in wrong]
    if is_blank:
        return plain
    if len(wrong) == 1:
        ways = [f"{turned(bit)[wrong[0]]:05o}" for bit in range(16) if holds(bank, turned(bit))]
        return [f"{place(bank, wrong[0])} {words[wrong[0]]:05o} IS {' OR '.join(ways)} BY THE SUM"] if ways else plain
    if holds(bank, words):
        return [f"{name} RIGHT BY THE SUM, {len(wrong)} PARITY BITS WRONG"]
    lost = []
    for bit in range(1, 16):
        values = {word >> bit - 1 & 1 for word in words}
        if len(values) == 1:
            said = f", WRONG IN {len(wrong)} WORDS BY THE SUM" if holds(bank, turned(bit)) else ""
            lost += [f"{name} BIT {bit} ALWAYS {values.pop()}{said}"] if said or len(wrong) >= 32 else []
    return lost or plain


def by_sum(pairs, bank, words):
    """What is said of a bank without a wrong parity whose sum is not its own."""
    it = total(words)
    other = it if it < BANKS else it ^ 0o77777
    if other >= BANKS:
        return f"SUM {it:05o}"
    others = [pair >> 1 for pair in pairs[other]]
    if words == others:
        return f"HAS THE WORDS OF BANK {other:02o}"
    if holds(bank, others):
        return f"EXCHANGED WITH BANK {other:02o}"
    return f"SUM {it:05o}" if holds(other, others) else f"HAS THE SUM OF BANK {other:02o}"


def changed(whole, bank, words):
    return [words if it == bank else list(pairs) for it, pairs in enumerate(whole)]


PARTS = ("hardware", "swapped", "complemented", "numbered")


def ways_of(pairs, bank, offset, right):
    """The words that may have stood at a place, by the sum."""
    words = [pair >> 1 for pair in pairs[bank]]
    ways = []
    for bit in range(16):
        mended = list(words)
        mended[offset] ^= 1 << bit >> 1
        ways += [f"{mended[offset]:05o}"] if holds(bank, mended) else []
    return " OR ".join(ways)


class Damages(Case):
    """Each damage of a dump by one command; flipped bits; and random images."""

    def setUp(self):
        super().setUp()
        self.path = f"{self.room}/damaged.rope"

    def ran(self, *words):
        return subprocess.run([PROGRAM, *words], capture_output=True, text=True, timeout=300)

    def lines(self, pairs, *options):
        return self.lines_of(image_of(pairs), *options)

    def lines_of(self, image, *options):
        with open(self.path, "wb") as file:
            file.write(image)
        ran = self.ran("damages", *options, self.path)
        lines = ran.stdout.splitlines()
        status = 0 if lines[-1:] == ["COUNT 0"] else 1
        return lines if (ran.returncode, ran.stderr) == (status, "") else [f"status {ran.returncode}", ran.stderr]

    def names(self, label, pairs, wanted):
        got = self.lines(pairs)
        with self.subTest(f"damages: {label}"):
            self.assertTrue(got == wanted and got == told_of(pairs), f"{got[:6]} in place of {wanted[:6]}, {told_of(pairs)[:6]}")

    def test_each_damage(self):
        """Each damage of a dump by one command; flipped bits; and random images."""
        banks = rope(64)
        whole = pairs_of(banks)
        self.names("none", whole, ["COUNT 0"])
        self.one_by_one(whole)
        self.flipped_bits(whole)
        self.other_forms(banks)
        self.one_module(banks)
        self.octal_texts(banks)
        for seed in range(4):
            chance = random.Random(seed)
            pairs = [[chance.randrange(65536) & chance.choice((65535, 65533)) for _ in range(WORDS)] for _ in range(BANKS)]
            self.names(f"random bytes {seed}", pairs, told_of(pairs))

    def one_by_one(self, whole):
        """One damage of a kind at a time, at a bank that a seed says."""
        chance = random.Random(641)
        bank = chance.randrange(4, 28)
        name = f"BANK {bank:02o}"
        offset = chance.randrange(WORDS)
        word = whole[bank][offset] >> 1
        twice = list(whole[bank])
        twice[offset] ^= 0o6
        total_of = total([pair >> 1 for pair in twice])
        self.names("two bits in a word", changed(whole, bank, twice), [f"{name} {by_sum(changed(whole, bank, twice), bank, [it >> 1 for it in twice])}", "COUNT 1"])
        with self.subTest("damages: the sum of two bits"):
            self.assertIn(f"{total_of:05o}", " ".join(self.lines(changed(whole, bank, twice))))
        exchanged = list(whole)
        exchanged[5], exchanged[6] = whole[6], whole[5]
        self.names("two banks exchanged", exchanged, ["BANK 05 EXCHANGED WITH BANK 06", "BANK 06 EXCHANGED WITH BANK 05", "COUNT 2"])
        self.names("banks by their numbers", whole[2:4] + whole[:2] + whole[4:], ["BANKS BY THEIR NUMBERS", "COUNT 1"])
        alone = [whole[0], whole[31], whole[31], whole[31], *whole[4:]]
        self.names("banks by their numbers, one of the first with words", [*alone[2:4], *alone[:2], *alone[4:]], ["BANKS BY THEIR NUMBERS", "COUNT 1"])
        two = list(whole)
        two[0], two[2] = whole[2], whole[0]
        self.names("the first banks exchanged", two, ["BANK 00 EXCHANGED WITH BANK 02", "BANK 02 EXCHANGED WITH BANK 00", "COUNT 2"])
        self.names("a bank read twice", changed(whole, bank, whole[bank - 1]), [f"{name} HAS THE WORDS OF BANK {bank - 1:02o}", "COUNT 1"])
        self.names("the other parity", [[pair ^ 1 for pair in pairs] for pairs in whole], ["PARITY THE OTHER WAY ROUND", "COUNT 1"])
        other = [[pair ^ 1 for pair in pairs] for pairs in whole]
        other[bank][offset] ^= 1
        self.names("the other parity, and a parity bit", other, ["PARITY THE OTHER WAY ROUND", f"{place(bank, offset)} {word:05o} IS {ways_of(other, bank, offset, 0)} BY THE SUM", "COUNT 2"])
        for bit, value in ((7, 0), (1, 1), (14, 0)):
            lost = [pair & ~(1 << bit) if value == 0 else pair | 1 << bit for pair in whole[bank]]
            wrong = sum(a != b for a, b in zip(lost, whole[bank]))
            self.names(f"bit {bit} always {value}", changed(whole, bank, lost), [f"{name} BIT {bit} ALWAYS {value}, WRONG IN {wrong} WORDS BY THE SUM", "COUNT 1"])
        lost = [pair & ~1 for pair in whole[bank]]
        self.names("no parity bit", changed(whole, bank, lost), [f"{name} RIGHT BY THE SUM, {sum(a != b for a, b in zip(lost, whole[bank]))} PARITY BITS WRONG", "COUNT 1"])
        for bit in (1, 7, 10):
            dead = [whole[bank][it & ~(1 << bit - 1)] for it in range(WORDS)]
            self.names(f"address bit {bit}", changed(whole, bank, dead), [f"{name} ADDRESS BIT {bit} MAKES NO DIFFERENCE", "COUNT 1"])
        self.address_bits(whole, bank)
        self.modules(whole)
        self.names("a bank of ones", changed(whole, bank, [0o177777 - 1] * WORDS), [f"{name} ALL 77777", "COUNT 1"])
        self.names("a bank without bytes", changed(whole, bank, [0] * WORDS), [f"{name} ALL 00000, 1024 OF WRONG PARITY", "COUNT 1"])
        self.names("all bits the other way round", [[pair ^ 0o177777 for pair in pairs] for pairs in whole], ["ALL BITS COMPLEMENTED", "COUNT 1"])
        self.names("bytes exchanged", [[bytes_exchanged(pair) for pair in pairs] for pairs in whole], ["BYTES EXCHANGED", "COUNT 1"])
        self.names("the order of the hardware", [[of_hardware(pair) for pair in pairs] for pairs in whole], ["BITS IN THE ORDER OF THE HARDWARE", "COUNT 1"])
        self.names("both", [[bytes_exchanged(of_hardware(pair)) for pair in pairs] for pairs in whole], ["BYTES EXCHANGED, BITS IN THE ORDER OF THE HARDWARE", "COUNT 1"])
        blank = list(whole[30])
        blank[offset] ^= 8
        self.names("a bit in an empty bank", changed(whole, 30, blank), [f"{place(30, offset)} 00004 HAS WRONG PARITY", "COUNT 1"])

    def address_bits(self, whole, bank):
        """A broken address line in a bank that ends with two TC to themselves: which half of it is there is told if that half has both."""
        name, first = f"BANK {bank:02o}", [pair >> 1 for pair in whole[bank][:700]]
        words = first + [0o2000 + 700, 0o2000 + 701]
        (checked,) = pairs_of([words + [with_number(bank, total(words))] + [0] * (WORDS - 703)])
        self.names("a bank with check words", changed(whole, bank, checked), ["COUNT 0"])
        # 700 is 01274 and 701 is 01275: both have bits 3, 4, 5, 6, 8 and 10, neither 2, 7 and 9, and they differ in bit 1
        for bit in range(1, 11):
            for value in (0, 1):
                dead = [checked[it & ~(1 << bit - 1) | value << bit - 1] for it in range(WORDS)]
                is_there = bit > 1 and (700 >> bit - 1 & 1) == value
                way = f"ALWAYS {value}" if is_there else "MAKES NO DIFFERENCE"
                self.names(f"address bit {bit} always {value}", changed(whole, bank, dead), [f"{name} ADDRESS BIT {bit} {way}", "COUNT 1"])
        both = [checked[it & ~0o100] | checked[it | 0o100] for it in range(WORDS)]
        wrong = sum(bin(pair).count("1") % 2 == 0 for pair in both)
        self.names("two words read as one", changed(whole, bank, both), [f"{name} ADDRESS BIT 7 MAKES NO DIFFERENCE, {wrong} OF WRONG PARITY", "COUNT 1"])

    def modules(self, whole):
        """A module that is lost is told in one line, and turns no parity; nor is a rope without empty banks taken for complemented by it."""
        full = pairs_of(rope(65, 36))
        for pair, word in ((0, 0), (0o177777, 0o77777), (0o177776, 0o77777), (0o125252, 0o52525)):
            wrong = ", 6144 OF WRONG PARITY" if bin(pair).count("1") % 2 == 0 else ""
            for module in range(6):
                lost = full[: 6 * module] + [[pair] * WORDS] * 6 + full[6 * module + 6 :]
                self.names(f"module {module + 1} of {pair:06o}", lost, [f"BANKS {6 * module:02o} TO {6 * module + 5:02o} ALL {word:05o}{wrong}", "COUNT 6"])
            if pair == 0o177776:
                continue
            alone = [[pair] * WORDS] * 6 + full[6:12] + [[pair] * WORDS] * 24
            lines = [f"BANKS {first:02o} TO {first + 5:02o} ALL {word:05o}{wrong}" for first in (0, 12, 18, 24, 30)]
            self.names(f"all modules but one of {pair:06o}", alone, [*lines, "COUNT 30"])
        nothing = [f"BANKS {first:02o} TO {first + 5:02o} ALL 00000, 6144 OF WRONG PARITY" for first in range(0, 36, 6)]
        self.names("bytes of zeros alone", [[0] * WORDS] * BANKS, [*nothing, "COUNT 36"])
        self.names("a rope without a word", [[1] * WORDS] * BANKS, ["COUNT 0"])
        self.names("all bits of a full rope", [[pair ^ 0o177777 for pair in bank] for bank in full], ["ALL BITS COMPLEMENTED", "COUNT 1"])
        mixed = whole[:30] + [[0] * WORDS, [1] * WORDS, [0] * WORDS, [0o177777] * WORDS, [0] * WORDS, [0] * WORDS]
        lines = [f"BANK {bank:02o} ALL {word}, 1024 OF WRONG PARITY" for bank, word in ((30, "00000"), (32, "00000"), (33, "77777"), (34, "00000"), (35, "00000"))]
        self.names("a module of empty and lost banks", mixed, [*lines, "COUNT 5"])

    def other_forms(self, banks):
        """An image in each form has the words that it has as written, and its damages; which form it has is told."""
        pairs = pairs_of(banks)
        pairs[12][0o137] ^= 8
        wanted = told_of(pairs)
        for names in itertools.chain.from_iterable(itertools.combinations(PARTS, count) for count in range(1, 5)):
            got = self.lines_of(in_form(names, pairs), "--form", ",".join(names))
            with self.subTest(f"damages: the form {names}"):
                self.assertEqual(got, wanted)
        with open(self.path, "wb") as file:
            file.write(in_form(PARTS, pairs_of(banks)))
        ran = self.ran("words", "--octal", "--form", ",".join(PARTS), self.path)
        with self.subTest("octal words of an image in another form"):
            self.assertEqual((ran.returncode, ran.stdout, ran.stderr), (0, octals_of(banks), ""), ran.stdout[:80] + ran.stderr)
        for names in itertools.chain.from_iterable(itertools.combinations(PARTS, count) for count in range(1, 5)):
            wanted = ["BYTES EXCHANGED"] if "swapped" in names else []
            wanted = [", ".join(wanted + ["BITS IN THE ORDER OF THE HARDWARE"])] if "hardware" in names else wanted
            wanted += ["ALL BITS COMPLEMENTED"] if "complemented" in names else []
            wanted += ["BANKS BY THEIR NUMBERS"] if "numbered" in names else []
            got = self.lines_of(in_form(names, pairs))
            with self.subTest(f"damages: told of the form {names}"):
                self.assertEqual(got, [*wanted, f"COUNT {len(wanted)}"])
        with open(self.path, "wb") as file:
            file.write(in_form(PARTS, pairs_of(banks)))
        for names in ("", "numbered,swapped", "hardware,hardware", "written", "module", "module0", "module7", "numbered,module1", "module1,module2"):
            with self.subTest(f"the form {names}"):
                self.assertEqual(self.ran("words", "--form", names, self.path).returncode, 2)

    def one_module(self, banks):
        """A module of six banks alone, in each form, has the words of its banks, and no others; under another number it has the sums of its own."""
        pairs = pairs_of(banks)
        for number in range(6):
            module = pairs[6 * number : 6 * number + 6]
            wanted = octals_of([words if bank // 6 == number else [0] * WORDS for bank, words in enumerate(banks)])
            for names in itertools.chain.from_iterable(itertools.combinations(PARTS[:3], count) for count in range(4)):
                form = ",".join([*names, f"module{number + 1}"])
                with open(self.path, "wb") as file:
                    file.write(b"".join(turned_by(names, pair).to_bytes(2, "big") for bank in module for pair in bank))
                ran = self.ran("words", "--octal", "--form", form, self.path)
                with self.subTest(f"the form {form}"):
                    self.assertEqual((ran.returncode, ran.stdout, ran.stderr), (0, wanted, ""), ran.stdout[:80] + ran.stderr)
                ran = self.ran("damages", "--form", form, self.path)
                with self.subTest(f"damages: the form {form}"):
                    self.assertEqual((ran.returncode, ran.stdout, ran.stderr), (0, "COUNT 0\n", ""))
            with open(self.path, "wb") as file:
                file.write(b"".join((pair & 0xFFFE).to_bytes(2, "big") for bank in module for pair in bank))
            for options in (("--parity", "ignore"), ("--rope", "1")):
                ran = self.ran("words", "--octal", *options, "--form", f"module{number + 1}", self.path)
                with self.subTest(f"module {number + 1} alone without parity by {options}"):
                    self.assertEqual((ran.returncode, ran.stdout, ran.stderr), (0, wanted, ""), ran.stdout[:80] + ran.stderr)
            ran = self.ran("sums", "--rope", "1", "--form", "module6", self.path)
            with self.subTest(f"the sums of module {number + 1} under another number"):
                lines = ran.stdout.splitlines()[30:]
                wanted_sums = [f"{bank + 30:02o} {total(banks[6 * number + bank]):05o}" for bank in range(6)]
                self.assertEqual((ran.returncode, lines), (0, wanted_sums))
        whole = image_of(pairs)
        for length, error in ((0, "E3"), (12_287, "E3"), (12_289, "E4"), (len(whole), "E4")):
            with open(self.path, "wb") as file:
                file.write(whole[:length])
            ran = self.ran("words", "--form", "module3", self.path)
            with self.subTest(f"a module of {length} bytes"):
                self.assertEqual((ran.returncode, ran.stdout, ran.stderr), (1, "", f"agcws: {error}\n"))

    def octal_texts(self, banks):
        """A text of octal words is taken for the image of its words; a line of another form is told."""
        text = octals_of(banks)
        shorter = "; words of a rope\r\n\n" + text.replace("BANK=05\n", "BANK=5 ; the sixth\r\n\n").replace("BANK=44", "").split(f"BANK={28:02o}")[0]
        path = self.path + ".binsource"
        for label, it in (("a text of octal words", text), ("comments and fewer banks", shorter)):
            with open(path, "w", encoding="ascii", newline="") as file:
                file.write(it)
            ran = self.ran("damages", path)
            with self.subTest(f"damages: {label}"):
                self.assertEqual((ran.returncode, ran.stdout, ran.stderr), (0, "COUNT 0\n", ""), ran.stdout + ran.stderr)
            ran = self.ran("words", "--octal", "--rope", "1", path)
            with self.subTest(f"octal words of {label}"):
                self.assertEqual(ran.stdout, text, ran.stdout[:80] + ran.stderr)
        wrong = ["BANK=44\n", "BANK=2 BANK=3\n", "BANK=\n", "BANK=9\n", "BANK=02\n00001\nBANK=2\n", "00001\n", "BANK=02\n00001 @\n", "BANK=02\n0001\n00002", "BANK=02\n00001 00008\n", "BANK=02\nNUMBANKS=044\n"]
        wrong += [f"BANK=02\n{'00001 ' * 1025}\n", f"BANK=02\n{'00001 ' * 1024}\n00001\n"]
        for it in wrong:
            with open(path, "w", encoding="ascii") as file:
                file.write(it)
            ran = self.ran("words", path)
            lines = it.splitlines()
            line = 3 if it.startswith(("BANK=02\n00001\nBANK", "BANK=02\n00001 00001")) and len(lines) == 3 else 1 if len(lines) == 1 else 2
            said = f"{path}:{line}: error: a text of octal words has lines of BANK= and a bank, each once, and below it words of five octal digits, at most 1024\n"
            with self.subTest(f"octal words refused: {it[:24]!r}"):
                self.assertTrue(ran.returncode == 1 and ran.stdout == "" and ran.stderr.startswith(said) and ran.stderr[len(said) :] in ("agcws: E3\n", "agcws: E5\n"), ran.stderr)

    def mended(self, pairs, whole, lines):
        """The image of the source that `damages --source` writes has the words that are told alone; the others stand as they are."""
        source, made = f"{self.path}.agc", f"{self.path}.made"
        with open(source, "wb") as file:
            told = subprocess.run([PROGRAM, "damages", "--source", self.path], stdout=file, timeout=300).returncode
        made_it = subprocess.run([PROGRAM, "asm", source, made], stdout=subprocess.DEVNULL, timeout=300).returncode
        wanted = [list(words) for words in whole]
        for bank, line in enumerate(lines[:-1]):
            if " OR " in line:
                wanted[bank] = pairs_of([[pair >> 1 for pair in pairs[bank]]])[0]
        with open(made, "rb") as file:
            with self.subTest("damages: flipped bits mended"):
                self.assertTrue((told, made_it) == (0, 0) and file.read() == image_of(wanted))

    def flipped_bits(self, whole):
        """Single bits that flip, one a filled bank at a time: the word that stood there is always told, and most often alone."""
        chance = random.Random(1)
        alone = among = 0
        while alone + among < FLIPS:
            pairs = [list(words) for words in whole]
            flips = {bank: (chance.randrange(WORDS), 1 << chance.randrange(16)) for bank in range(28)}
            for bank, (offset, bit) in flips.items():
                pairs[bank][offset] ^= bit
            lines = self.lines(pairs)
            if len(lines) != 29:
                with self.subTest("damages: flipped bits"):
                    self.fail(f"{lines[:4]}")
                return
            for (bank, (offset, _)), line in zip(flips.items(), lines):
                head, _, ways = line.removesuffix(" BY THE SUM").partition(" IS ")
                ways = ways.split(" OR ")
                if head != f"{place(bank, offset)} {pairs[bank][offset] >> 1:05o}" or f"{whole[bank][offset] >> 1:05o}" not in ways:
                    with self.subTest("damages: flipped bits"):
                        self.fail(line)
                    return
                alone, among = alone + (len(ways) == 1), among + (len(ways) > 1)
            self.mended(pairs, whole, lines)
        with self.subTest("damages: flipped bits"):
            self.assertTrue(5 * alone > 4 * (alone + among), f"{alone} alone, {among} among others")


if __name__ == "__main__":
    unittest.main()
