"""Compares what `agcws align` tells of small ropes with a search by the definition alone; and tries that it tells three edits of a large rope, where
its names stand then, and where those of erasable memory do when all addresses have others."""
import copy
import random
import subprocess
import unittest

from common import PROGRAM, Case, write
from test_damages import holds, total, with_number

BANKS, WORDS, LEAST = 36, 1024, 12
EXTEND, CHECK = 0o6, 0o2000
# The most lines that tell three edits of a rope, and the least part of its names that is surely carried then.
LINES, PART = 12, 730 / 740
# How many words are compared to find which address has become which, the first address that may, the first of the switched bank, and the first of fixed memory.
WINDOW, FREE, SWITCHED, FIXED = 16, 0o61, 0o1400, 0o2000


def address(word, extra):
    """The address that a word names, under extracode or not."""
    code, low = word >> 12, word & 0o7777
    if not extra:
        if word in (0o3, 0o4, EXTEND, 0o50017):
            return None
        return low if code in (0, 3, 4, 6, 7) or code == 1 and low >= 0o2000 else low % 0o2000
    if code == 0:
        return None
    if code in (3, 4):
        return (low - 1) % 0o10000
    return low if code in (5, 7) or low >= 0o2000 and code in (1, 6) else low % 0o2000


def tokens(rope, names=None):
    """What is compared at each place, with addresses of erasable memory renamed: nothing in the zeros that end a bank, and one number for all check words."""
    found = []
    for number, bank in enumerate(rope):
        end, extra = max((n + 1 for n, word in enumerate(bank) if word), default=0), False
        for n, word in enumerate(bank):
            named = address(word, extra)
            if named is not None:
                word = word & 0o70000 | 0o7777 if named >= FIXED else (word & 0o76000) + (names or {}).get(slot(number, named), named)
            found.append((extra, word) if n < end else None)
            extra = bank[n] == EXTEND if not extra else bank[n] >> 12 == 5
        if end > 2 and holds(number, bank) and bank[end - 3 : end - 1] == [window(number, end - 3), window(number, end - 2)]:
            found[WORDS * number + end - 1] = False, CHECK
    return found


def operands(rope):
    """The address of erasable memory that the word at each place names."""
    found = []
    for bank in rope:
        extra = False
        for word in bank:
            named = address(word, extra)
            found.append(named if named is not None and named < FIXED else None)
            extra = word == EXTEND if not extra else word >> 12 == 5
    return found


def slot(bank, named):
    """What is renamed: an address in all words, or one of the switched bank in those of a bank of OLD."""
    return named if named < SWITCHED else (bank, named)


def shapes(rope):
    """What is compared of the 16 words from each place on: their codes, and how far before each in them the same address is named."""
    blind, named, found = tokens(rope), operands(rope), []
    for first in range(len(blind)):
        places = range(first, first + WINDOW)
        if first % WORDS > WORDS - WINDOW or any(blind[it] is None for it in places):
            found.append(None)
            continue
        shape, last = [], {}
        for place_of_word in places:
            (extra, word), own = blind[place_of_word], named[place_of_word]
            if own is None or own < FREE:
                shape.append((extra, word))
            else:
                shape.append((extra, word - own, own >= SWITCHED, place_of_word - last.get(own, place_of_word)))
                last[own] = place_of_word
        found.append(tuple(shape))
    return found


def compared_places(old, new):
    """The place of OLD with which each one of NEW is compared: of equal 16 words those after the last ones, or at the same place, or the only ones."""
    olds, news, where = shapes(old), shapes(new), {}
    for number, shape in enumerate(olds):
        where.setdefault(shape, []).append(number)
    partners, after = {}, None
    for number, shape in enumerate(news):
        found = where.get(shape, []) if shape is not None else []
        here = after if after in found else number if number in found else found[0] if len(found) == 1 else None
        after = None if here is None else here + 1
        for more in range(WINDOW if here is not None else 0):
            partners.setdefault(number + more, here + more)
    return partners


def renamed(old, new):
    """Which address stands for which in the words of each bank: what most words say, one to one; else the same one, or one that is left."""
    olds, news, votes = operands(old), operands(new), {}
    for number, partner in sorted(compared_places(old, new).items()):
        own, other = olds[partner], news[number]
        if own is None or other is None or min(own, other) < FREE or (own < SWITCHED) != (other < SWITCHED):
            continue
        key = partner // WORDS if own >= SWITCHED else 0, own
        said, count = votes.get(key, (other, 0))
        votes[key] = (other, 1) if count == 0 else (said, count + 1) if said == other else (said, count - 1)
    changed = sum(count for (_, own), (other, count) in votes.items() if own != other)
    least = 1 if changed > sum(count for (_, own), (other, count) in votes.items() if own == other) else 2
    owners = {}
    for (bank, own), (other, count) in sorted(votes.items(), key=lambda it: (it[0][1] >= SWITCHED, it[0])):
        if count >= least or count and own == other:
            best = owners.get((bank, other))
            if best is None or count > votes[bank, best][1]:
                owners[bank, other] = own
    names, taken = {(bank, own): other for (bank, other), own in owners.items()}, set(owners)
    keys = [(0, own) for own in range(SWITCHED)] + [(bank, own) for bank in range(BANKS) for own in range(SWITCHED, FIXED)]
    for key in keys:
        if key not in names and key not in taken:
            names[key] = key[1]
            taken.add(key)
    for bank, own in keys:
        if (bank, own) not in names:
            names[bank, own] = next(other for other in (range(SWITCHED) if own < SWITCHED else range(SWITCHED, FIXED)) if (bank, other) not in taken)
            taken.add((bank, names[bank, own]))
    return {slot(bank, own): other for (bank, own), other in names.items()}


def renamed_lines(names, old, to_new):
    """A line for each address that has become another in words that are paired."""
    named, lines, counts = operands(old), [], {}
    for number, own in enumerate(named):
        if own is not None and to_new[number] is not None:
            key = slot(number // WORDS, own)
            counts[key] = counts.get(key, 0) + 1
    for bank, own in [(0, own) for own in range(SWITCHED)] + [(bank, own) for bank in range(BANKS) for own in range(SWITCHED, FIXED)]:
        key = slot(bank, own)
        if names[key] != own and key in counts:
            lines.append(f"RENAMED {own:04o} {names[key]:04o}{f' BANK {bank:02o}' if own >= SWITCHED else ''} WORDS {counts[key]}")
    return lines


def window(bank, offset):
    """The address at which a program reaches a place."""
    return {2: 0o4000, 3: 0o6000}.get(bank, 0o2000) + offset


def longest(old, new, to_old, to_new):
    """The longest run of words of which none is paired: of those as long as each other one at the same place, then by the place in NEW, and by that in OLD."""
    best, lengths = (0, True, 0, 0), {}
    for j in reversed(range(len(new))):
        row = {}
        if new[j] is not None and to_old[j] is None:
            for i in range(len(old)):
                if old[i] == new[j] and to_new[i] is None:
                    on = (i + 1) % WORDS and (j + 1) % WORDS
                    row[i] = 1 + (lengths.get(i + 1, 0) if on else 0)
                    best = min(best, (-row[i], i != j, j, i))
        lengths = row
    return best


def aligned(old, new):
    """The pairs of two ropes, from the longest run on."""
    to_old, to_new = [None] * len(new), [None] * len(old)
    while True:
        length, _, j, i = longest(old, new, to_old, to_new)
        if -length < LEAST:
            break
        for k in range(-length):
            to_old[j + k], to_new[i + k] = i + k, j + k
    in_place(old, new, to_old, to_new)
    return to_old, to_new


def in_place(old, new, to_old, to_new):
    """Runs are grown, then equal words at the same place are paired, and runs are grown again."""
    for _ in range(2):
        grow(old, new, to_old, to_new)
    for number, (token, other) in enumerate(zip(old, new, strict=True)):
        if token is not None and token == other and to_new[number] is None and to_old[number] is None:
            to_new[number] = to_old[number] = number
    grow(old, new, to_old, to_new)


def grow(old, new, to_old, to_new):
    """Runs take the words after them, and then those before them, that are equal, or the numbers of places that are paired."""

    def take(i, j):
        if old[i] is None or new[j] is None or to_new[i] is not None or to_old[j] is not None:
            return
        (extra, word), (other, second) = old[i], new[j]
        if old[i] == new[j] or not extra and not other and word >= 0o10000 and to_new[word] == second:
            to_new[i], to_old[j] = j, i

    for j in range(len(new)):
        i = to_old[j]
        if i is not None and (i + 1) % WORDS and (j + 1) % WORDS:
            take(i + 1, j + 1)
    for j in reversed(range(len(new))):
        i = to_old[j]
        if i is not None and i % WORDS and j % WORDS:
            take(i - 1, j - 1)


def place(number):
    bank, offset = divmod(number, WORDS)
    return f"{bank:02o},{window(bank, offset):04o}"


def stretches(pairs, here):
    """First place, partner and length of all words that belong together, by rising places."""
    found = []
    for number, token in enumerate(here):
        if token is None:
            continue
        other = pairs[number]
        joins = found and number % WORDS and sum(found[-1][::2]) == number
        if joins:
            first, partner, count = found[-1]
            joins = partner is None if other is None else partner is not None and partner + count == other and other % WORDS
        if joins:
            found[-1] = (first, partner, count + 1)
        else:
            found.append((number, other, 1))
    return found


def replaced(first, count, pairs, others):
    """Where words that are paired with none stand in place of as many others, or None: both begin after two words that are paired."""
    partner = pairs[first - 1] if first % WORDS else None
    return partner + 1 if partner is not None and (partner + 1, None, count) in others else None


def lines_of_alignment(old, new, to_old, to_new, old_words, new_words, renames):
    lines, olds, news = [], stretches(to_new, old), stretches(to_old, new)
    for first, partner, count in news:
        changed = replaced(first, count, to_old, olds)
        if partner is None and changed is not None:
            lines.append(f"CHANGED {place(changed)} {place(first)} WORDS {count}")
        elif partner is None:
            lines.append(f"NEW {place(first)} WORDS {count}")
        elif partner != first:
            lines.append(f"MOVED {place(partner)} {place(first)} WORDS {count}")
    lines += [f"GONE {place(first)} WORDS {count}" for first, partner, count in olds if partner is None and replaced(first, count, to_new, news) is None]
    lines += renames
    same = sum(i == j for j, i in enumerate(to_old))
    others = sum(i is not None and old_words[i] != new_words[j] for j, i in enumerate(to_old))
    return lines + [f"SAME WORDS {same} OTHER ADDRESSES {others}"]


def image(rope):
    """A rope as an image of version 1."""
    order = [2, 3, 0, 1, *range(4, BANKS)]
    return b"".join((2 * word).to_bytes(2, "big") for bank in order for word in rope[bank])


def bank_of(words):
    return words + [0] * (WORDS - len(words))


def rope_of(banks):
    return [bank_of(banks.get(number, [])) for number in range(BANKS)]


def pairs_of_ropes(seed):
    """Ropes beside others that were made of them, with few different words or many, or of repeated ones."""
    rng = random.Random(seed)
    some = [rng.randrange(0o100000) for _ in range(rng.choice((2, 3, 8, 400)))] + [EXTEND]
    banks = {number: [rng.choice(some) for _ in range(rng.randrange(20, 120))] for number in rng.sample(range(BANKS), 3)}
    if seed % 4 == 0:
        period = [rng.choice(some) for _ in range(rng.randrange(1, 6))]
        banks = {number: (period * 100)[: rng.randrange(20, 120)] for number in banks}
    other = {number: words[:] for number, words in banks.items()}
    for _ in range(rng.randrange(4)):
        words = other[rng.choice(list(other))]
        at, count = rng.randrange(len(words) + 1), rng.randrange(1, 20)
        kind = rng.randrange(3)
        if kind == 0:
            words[at:at] = [rng.choice(some) for _ in range(12)]
        elif kind == 1:
            moved = words[at : at + count + 20]
            del words[at : at + count + 20]
            other[rng.choice(list(other))] += moved
        else:
            words[at : at + 1] = [rng.choice(some)]
    if seed % 3 == 0:
        names = list(other)
        other = dict(zip(names, [other[it] for it in names[1:] + names[:1]], strict=True))
    return rope_of(banks), rope_of(other)


# Instructions of fixed memory and their opcodes.
OPCODES = {"TC": 0, "TCF": 0o10000, "CAF": 0o30000}


class Program:
    """A large program of 28 banks, by a seed: routines of instructions, which lead to labels of their bank, and constants, some of them CADR of a label."""

    def __init__(self, seed):
        self.chance, self.labels, self.banks = random.Random(seed), [], []
        for _ in range(28):
            routines = []
            while sum(map(len, routines)) < 780:
                size = self.chance.randrange(30, 130)
                routines.append(self.labelled(size, {0, *self.chance.sample(range(1, size), size // 60)}))
            size = self.chance.randrange(6, 12)
            self.banks.append([*routines, self.labelled(size, range(size))])
        for bank in self.banks:
            for number, routine in enumerate(bank):
                self.fill(routine, [it[0] for others in bank for it in others if it[0]], number == len(bank) - 1)

    def labelled(self, size, places):
        """So many items, each with a label or none, of which the places tell those with one."""
        items = [[None, "", 0] for _ in range(size)]
        for place_of_label in sorted(places):
            items[place_of_label][0] = f"L{len(self.labels)}"
            self.labels.append(items[place_of_label][0])
        return items

    def fill(self, routine, near, is_constants):
        """Gives each item what it is: an opcode, CADR or a word, and its label or number."""
        before = None
        for item in routine:
            chance = self.chance.random()
            if is_constants:
                item[1:] = ["CADR", self.chance.choice(self.labels)] if chance < 0.2 else ["", self.chance.randrange(1 << 15)]
            elif before == EXTEND:
                item[1:] = ["", self.chance.choice((0o20001, 0o30000, 0o70000)) + self.chance.randrange(0o60, 0o377)]
            elif chance < 0.4 or item is routine[-1]:
                item[1:] = [self.chance.choice(list(OPCODES)), self.chance.choice(near)]
            elif chance < 0.47:
                item[1:] = ["", EXTEND]
            else:
                item[1:] = ["", self.chance.choice((0o10000, 0o26000, 0o30000, 0o40000, 0o54000, 0o60000, 0o70000)) + self.chance.randrange(0o60, 0o377)]
            before = item[2]

    def edited(self):
        """The same program with three words put into a routine of bank 10, a routine of bank 14 moved to bank 20, and another constant in bank 13."""
        other = copy.deepcopy(self)
        put = other.banks[0o10][3]
        put[len(put) // 2 : len(put) // 2] = [[None, "", 0o30100], [None, "", 0o60101], [None, "", 0o54102]]
        other.banks[0o20].insert(2, other.banks[0o14].pop(2))
        constant = other.banks[0o13][-1][3]
        constant[1:] = ["", 0o1234 if constant[2] != 0o1234 else 0o1235]
        return other

    def assembled(self):
        """The words of its banks, with check words, and where its labels stand: the number of each one's place."""
        at = {}
        for bank, routines in enumerate(self.banks):
            for offset, item in enumerate(sum(routines, [])):
                at[item[0]] = WORDS * bank + offset
        rope = []
        for bank, routines in enumerate(self.banks):
            words = [self.word(at, *item[1:]) for item in sum(routines, [])]
            words += [window(bank, len(words)), window(bank, len(words) + 1)]
            rope.append(bank_of([*words, with_number(bank, total(words))]))
        return rope + [[0] * WORDS] * (BANKS - len(rope)), at

    @staticmethod
    def word(at, kind, operand):
        if not kind:
            return operand
        return at[operand] if kind == "CADR" else OPCODES[kind] + window(*divmod(at[operand], WORDS))


def shuffled(number, bank, then):
    """A bank with another address in place of each one of erasable memory that is no register and no counter, and its sum right."""
    words, extra = [], False
    for word in bank:
        own = address(word, extra)
        new = word if own is None or not FREE <= own < SWITCHED else word + then[own] - own
        words.append(new)
        extra = word == EXTEND if not extra else word >> 12 == 5
    end = max((n + 1 for n, word in enumerate(bank) if word), default=0)
    return bank_of([*words[: end - 1], with_number(number, total(words[: end - 1]))]) if end else bank


class Align(Case):
    """Alignments of small ropes, and of programs after edits."""

    def test_small_ropes(self):
        """Small ropes are aligned as by the definition."""
        for seed in range(12):
            olds, news = pairs_of_ropes(seed)
            names = renamed(olds, news)
            old, new = tokens(olds, names), tokens(news)
            to_old, to_new = aligned(old, new)
            wanted = lines_of_alignment(old, new, to_old, to_new, sum(olds, []), sum(news, []), renamed_lines(names, olds, to_new))
            files = write(f"{self.room}/old.rope", image(olds)), write(f"{self.room}/new.rope", image(news))
            ran = subprocess.run([PROGRAM, "align", "--old", "1", "--new", "1", *files], capture_output=True, text=True, timeout=60)
            with self.subTest(f"alignment {seed}"):
                self.assertEqual((ran.returncode, ran.stdout.splitlines(), ran.stderr), (0, wanted, ""), f"{ran} {wanted}")

    def test_programs(self):
        for seed in range(4):
            self.try_edits(Program(seed))
            self.try_shuffled(Program(seed), seed)

    def try_edits(self, written):
        """Three edits are told in few lines, and names are carried, most of them surely and none of these to another place."""
        (old, at), (new, then) = written.assembled(), written.edited().assembled()
        files = write(f"{self.room}/old.rope", image(old)), write(f"{self.room}/new.rope", image(new))
        call = [PROGRAM, "align", "--old", "1", "--new", "1"]
        lines = subprocess.run([*call, *files], capture_output=True, text=True, timeout=60).stdout.splitlines()
        heads = [line.split()[0] for line in lines]
        put, moved = [line for line in lines if line.startswith("NEW 10,")], [line for line in lines if line.startswith("MOVED 14,") and " 20," in line]
        changed = [line for line in lines if line.startswith("CHANGED 13,")]
        with self.subTest("three edits"):
            self.assertTrue(len(lines) <= LINES and all((put, moved, changed)) and heads[-1] == "SAME", "\n".join(lines))
        names = write(f"{self.room}/names.txt", "".join(f"{name} {place(at[name])}\n" for name in written.labels).encode())
        rows = subprocess.run([*call, "--symbols", names, *files], capture_output=True, text=True, timeout=60).stdout.splitlines()
        sure = [row.split() for row in rows if not row.startswith("#")]
        wrong = [row for row in sure if row[2] != "{:02o},{:04o}".format(*divmod(then[row[0]], WORDS))]
        with self.subTest("names after three edits"):
            self.assertTrue(len(rows) == len(written.labels) and len(sure) >= PART * len(rows) and not wrong, f"{len(sure)} of {len(rows)}, wrong {wrong[:3]}")

    def try_shuffled(self, written, seed):
        """Where all addresses of erasable memory have others, and three edits were made, names are carried, and none surely to another place."""
        (old, _), (edited, _) = written.assembled(), written.edited().assembled()
        places = list(range(FREE, SWITCHED))
        others = random.Random(seed).sample(places, len(places))
        then = dict(zip(places, others, strict=True))
        new = [shuffled(number, bank, then) for number, bank in enumerate(edited)]
        named = [own for own in operands(old) if own is not None and FREE <= own < SWITCHED]
        used = sorted(own for own in set(named) if named.count(own) > 1)
        files = write(f"{self.room}/old.rope", image(old)), write(f"{self.room}/new.rope", image(new))
        names = write(f"{self.room}/names.txt", "".join(f"V{own:o} E{own >> 8},{own:04o}\n" for own in used).encode())
        call = [PROGRAM, "align", "--old", "1", "--new", "1", "--symbols", names, *files]
        rows = subprocess.run(call, capture_output=True, text=True, timeout=60).stdout.splitlines()
        sure = [row.split() for row in rows if not row.startswith("#")]
        wrong = [row for row in sure if int(row[2], 8) != then[int(row[0][1:], 8)]]
        with self.subTest("names where all addresses have others"):
            self.assertTrue(len(rows) == len(used) and len(sure) >= 0.95 * len(rows) and not wrong, f"{len(sure)} of {len(rows)}, wrong {wrong[:3]}")


if __name__ == "__main__":
    unittest.main()
