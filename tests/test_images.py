"""Images of ropes: upgraded, run, compared, summed, with parities, with names, and as sources."""
import functools
import itertools
import os
import random
import re
import subprocess
import unittest

from common import EXAMPLES, IMAGE_BYTES, PROGRAM, Case, agcws, read, rows_of_runs, write
from session import WAIT
from test_trace import SPECIAL


def words_of_image(image):
    """The words of each bank of an image of version 2, by rising offsets."""
    pairs = [high << 8 | low for high, low in zip(image[::2], image[1::2])]
    order = [{0: 2, 1: 3, 2: 0, 3: 1}.get(bank, bank) for bank in range(36)]
    return pairs, [pairs[1024 * it : 1024 * it + 1024] for it in order]


def named(table, bank, address):
    """How an address at a word of a bank is written with a table of names: of each place the first."""
    if 0o1400 <= address < 0o2000 or 0o2000 <= address < 0o4000 and bank in (2, 3):
        return f"{address:04o}"
    there = ("E", address) if address < 0o1400 else (bank, address - 0o2000) if address < 0o4000 else (address // 0o2000, address % 0o2000)
    if there[0] == "E" and address < 7:
        return ["A", "L", "Q", "EB", "FB", "Z", "BB"][address]
    if there[0] == "E" and there not in table and there[1] in SPECIAL.values():
        return next(name for name, place in SPECIAL.items() if place == there[1])
    for before in range(there[1] + 1):
        name = table.get((there[0], there[1] - before))
        if name:
            return f"{name} +{before:o}" if before else name
    return f"{address:04o}"


def shown_place(chance, place):
    """A place in one of the forms that a table takes."""
    bank, offset = place
    if bank == "E":
        return chance.choice((f"{offset:o}", f"{offset:05o}", f"ERASABLE {offset:04o}", f"E{offset >> 8},{offset if offset < 0o1400 else 0o1400 + offset % 0o400:04o}"))
    first = {2: 0o4000, 3: 0o6000}.get(bank, 0o2000)
    return chance.choice((f"{bank:o},{offset:o}", f"FIXED {bank:02o},{offset:04o}", f"{bank:02o},{first + offset:04o}", *([f"{first + offset:o}"] if bank in (2, 3) else [])))


def ones_sum(total, word):
    """The sum of two words by their values, where one that overflows comes back by 2^14 - 1; -0 is 77777, and +0 comes of zeros alone."""
    value = (total - 32767 if total >= 16384 else total) + (word - 32767 if word >= 16384 else word)
    value += -16383 if value > 16383 else 16383 if value < -16383 else 0
    return value if value > 0 or total == word == 0 else value + 32767


# The parts of the name of a form.
PARTS = ("hardware", "swapped", "complemented", "numbered")


def exchanged(pair):
    return pair >> 8 | pair % 256 << 8


def of_hardware(pair):
    """Two bytes with the parity bit below the highest one, as they are written else: the highest bit, the 14 lowest, and the one between."""
    return pair >> 15 << 15 | pair % 0x4000 << 1 | pair >> 14 & 1


def standing(parts, image):
    """The bytes of an image in a form."""
    if "hardware" in parts:
        image = b"".join((pair & 0x8000 | (pair & 1) << 14 | pair >> 1 & 0x3FFF).to_bytes(2, "big") for pair in words_of_image(image)[0])
    if "swapped" in parts:
        image = b"".join(bytes((low, high)) for high, low in zip(image[::2], image[1::2]))
    if "complemented" in parts:
        image = bytes(255 - byte for byte in image)
    return image[4096:8192] + image[:4096] + image[8192:] if "numbered" in parts else image


def is_complemented(banks):
    """Whether words are complemented: by 33 words more that are 77771 than 00006, or fewer; else by banks of 77777 where none is of 00000."""
    all_words = [word for bank in banks for word in bank]
    extends, others = all_words.count(0o6), all_words.count(0o77771)
    alike = [bank[0] for bank in banks if len(set(bank)) == 1]
    return others > extends + 32 or (extends <= others + 32 and 0o77777 in alike and 0 not in alike)


class Images(Case):
    """Images of the examples and of random words."""

    def test_upgrade(self):
        """Images of both versions, and what an upgrade makes of good ones and of wrong ones."""
        source, one, two, new = f"{EXAMPLES}/five_plus_five.agc", f"{self.room}/one", f"{self.room}/two", f"{self.room}/new"
        for words in [["--rope", "1", source, one], ["--rope", "2", source, two], [source, new]]:
            status, _, err = agcws("asm", *words)
            with self.subTest(f"agcws asm with {len(words)} words"):
                self.assertEqual((status, err), (0, b""))
        with self.subTest("version 2 is the default"):
            self.assertEqual(read(new), read(two))
        os.remove(new)
        with self.subTest("an upgrade"):
            self.assertAnswer(agcws("upgrade", one, new), 0, b"")
        with self.subTest("an upgrade makes the image of version 2"):
            self.assertTrue(read(new) == read(two) != read(one))
        os.remove(new)
        image = read(one)
        for label, text, number in [
            ("an image of version 2", read(two), 5), ("an empty image", b"", 3), ("an odd byte", b"\0\1", 5),
            ("an image without its last byte", image[:-1], 3), ("an image and a byte", image + b"\0", 4),
        ]:
            write(two, text)
            with self.subTest(label):
                self.assertAnswer(agcws("upgrade", two, new), 1, b"", f"agcws: E{number}\n".encode())
            with self.subTest(f"{label} leaves no file"):
                self.assertFalse(os.path.exists(new))
        with self.subTest("an image that is not there"):
            self.assertAnswer(agcws("upgrade", f"{self.room}/none", new), 3, b"", b"agcws: E6\n")
        with self.subTest("an image that is a folder"):
            self.assertAnswer(agcws("upgrade", self.room, new), 3, b"", b"agcws: E6\n")
        with self.subTest("an upgrade that cannot be made"):
            self.assertAnswer(agcws("upgrade", one, f"{self.room}/none/x"), 3, b"", b"agcws: E7\n")

    def test_ropes(self):
        """Each example from its image as from its source, its words as in its listing; and images that are compared, summed and refused."""
        one, two, other = f"{self.room}/image.one", f"{self.room}/image.two", f"{self.room}/image.other"
        rows = rows_of_runs()
        for name, feed, steps in rows:
            source = f"{EXAMPLES}/{name}.agc"
            agcws("asm", "--rope", "1", source, one)
            _, listing, _ = agcws("asm", source, two)
            wanted = agcws("run", source, f"{EXAMPLES}/{feed}", steps)
            with self.subTest(f"the image of {name}"):
                self.assertAnswer(agcws("run", "--image", two, f"{EXAMPLES}/{feed}", steps), *wanted)
            with self.subTest(f"the image without parity of {name}"):
                self.assertAnswer(agcws("run", "--rope", "1", "--image", one, f"{EXAMPLES}/{feed}", steps), *wanted)
            with self.subTest(f"both images of {name}"):
                self.assertAnswer(agcws("compare", "--old", "1", one, two), 0, b"COUNT 0\n")
            listed = set(re.findall(rb"^ *\d+ (\d\d,\d{4} \d{5})(?:  |$)", listing, re.M))
            _, out, err = agcws("words", two)
            shown = [line[:13] for line in out.splitlines()]
            with self.subTest(f"the words of {name}"):
                self.assertTrue((len(shown), len(set(shown)), err) == (36864, 36864, b"") and listed and listed <= set(shown))
            with self.subTest(f"no other words in {name}"):
                self.assertTrue(all(line in listed or line.endswith(b" 00000") for line in shown))
            with self.subTest(f"the words of {name} without parity"):
                self.assertAnswer(agcws("words", "--rope", "1", one), 0, out)
            for bank in ("02", "2"):
                with self.subTest(f"bank {bank} of {name}"):
                    self.assertAnswer(agcws("words", two, bank), 0, b"".join(line for line in out.splitlines(True) if line.startswith(b"02,")))
        image = read(two)
        agcws("asm", f"{EXAMPLES}/five_plus_five.agc", other)
        status, out, err = agcws("compare", two, other)
        with self.subTest("images that differ"):
            self.assertTrue((status, err) == (1, b"") and out.endswith(b"COUNT %d\n" % (len(out.splitlines()) - 1)))
        for label, text, number, meaning in [
            ("an image without its last byte", image[:-1], 3, "the image ends before its 73,728 bytes"), ("an image and a byte", image + b"\1", 4, "bytes stand after the 73,728 of the image"),
            ("an image of version 1", read(one), 5, "the lowest bit of two bytes of the image is wrong: in version 1 it is 1, in version 2 they have an even number of one bits"),
        ]:
            write(two, text)
            for words in [["words", two], ["sums", two], ["compare", two, other], ["compare", other, two], ["run", "--image", two, f"{EXAMPLES}/empty.feed", "4"], ["debug", "--image", two, f"{EXAMPLES}/empty.feed"]]:
                error = f"{two}: error E{number}: {meaning}\n" if words[0] == "compare" else f"agcws: E{number}\n"
                with self.subTest(f"{label} by {words[0]}"):
                    self.assertAnswer(agcws(*words), 1, b"", error.encode())
        with self.subTest("a feed that is refused after an image"):
            self.assertAnswer(agcws("run", "--image", other, other, "4"), 1, b"", b"agcws: E30 LINE 1\n")
        with self.subTest("words of an image that is not there"):
            self.assertAnswer(agcws("words", f"{self.room}/none"), 3, b"", b"agcws: E6\n")
        with open("/dev/full", "wb") as full:
            ran = subprocess.run([PROGRAM, "words", other], stdin=subprocess.DEVNULL, stdout=full, stderr=subprocess.PIPE, timeout=300)
        with self.subTest("words that cannot be written"):
            self.assertEqual((ran.returncode, ran.stderr), (3, b"agcws: E7\n"))
        ran = subprocess.run([PROGRAM, "debug", "--image", other, f"{EXAMPLES}/empty.feed"], input=b"step 4\nsym FIVE\n", capture_output=True, timeout=WAIT)
        with self.subTest("a session over an image"):
            self.assertAnswer((ran.returncode, ran.stdout, ran.stderr), 0, b"7 CH 010 00012\nAT 4 7 4004\nE17 UNDEFINED\n")

    def test_parities(self):
        """Images of random bytes: the words of a wrong parity, in both orders of the bits; and the words without regard to parity."""
        path, plain, hardware = f"{self.room}/random.rope", f"{self.room}/plain.rope", f"{self.room}/hardware.rope"
        for seed in range(5):
            image = random.Random(seed).randbytes(IMAGE_BYTES)
            pairs = [high << 8 | low for high, low in zip(image[::2], image[1::2])]
            lines = []
            for bank in range(36):
                for offset in range(1024):
                    position = 1024 * {0: 2, 1: 3, 2: 0, 3: 1}.get(bank, bank) + offset
                    if bin(pairs[position]).count("1") % 2 == 0:
                        address = {2: 0o4000, 3: 0o6000}.get(bank, 0o2000) + offset
                        lines.append(f"{bank:02o},{address:04o} {pairs[position] >> 1:05o} BYTE {2 * position}\n")
            wanted = "".join(lines + [f"COUNT {len(lines)}\n"]).encode()
            write(path, image)
            write(plain, b"".join((pair & 0xFFFE).to_bytes(2, "big") for pair in pairs))
            write(hardware, b"".join((pair & 0x8000 | (pair & 1) << 14 | pair >> 1 & 0x3FFF).to_bytes(2, "big") for pair in pairs))
            words, sums = (agcws(name, "--rope", "1", plain)[1] for name in ("words", "sums"))
            for form, file in (((), path), (("--form", "hardware"), hardware)):
                with self.subTest(f"wrong parities of image {seed} {form}"):
                    self.assertAnswer(agcws("parity", *form, file), 1, wanted)
                with self.subTest(f"words of image {seed} {form}"):
                    self.assertAnswer(agcws("words", "--parity", "ignore", *form, file), 0, words)
                with self.subTest(f"sums of image {seed} {form}"):
                    self.assertAnswer(agcws("sums", "--parity", "ignore", *form, file), 0, sums)
                with self.subTest(f"image {seed} {form} beside another"):
                    self.assertAnswer(agcws("compare", "--parity", "ignore", plain, *[it.replace("--", "--new-") for it in form], file), 0, b"COUNT 0\n")
        agcws("asm", f"{EXAMPLES}/five_plus_five.agc", path)
        image = bytearray(read(path))
        image[1] ^= 1
        write(path, bytes(image))
        for words in (["run", "--image", "--parity", "ignore", path, f"{EXAMPLES}/empty.feed", "4"], ["run", f"{EXAMPLES}/five_plus_five.agc", f"{EXAMPLES}/empty.feed", "4"]):
            with self.subTest(f"{words[1]} beside a wrong parity"):
                self.assertAnswer(agcws(*words), 0, b"7 CH 010 00012\n")
        for label, text, error in (("short", bytes(image[:-1]), b"E3"), ("long", bytes(image) + b"\0", b"E4")):
            write(path, text)
            with self.subTest(f"the parity of an image that is {label}"):
                self.assertAnswer(agcws("parity", path), 1, b"", b"agcws: " + error + b"\n")

    def test_form_sums(self):
        """The sums of images in all forms, of programs with check words and of random words."""
        path, old = f"{self.room}/summed.rope", f"{self.room}/summed.old"
        for name in ("bank_sum", "bank_call", 1, 2, 3):
            if isinstance(name, str):
                agcws("asm", "--sums", f"{EXAMPLES}/{name}.agc", path)
            else:
                chance = random.Random(name)
                words = [chance.randrange(32768) for _ in range(IMAGE_BYTES // 2)]
                write(path, b"".join((2 * word + (bin(word).count("1") + 1) % 2).to_bytes(2, "big") for word in words))
            whole = read(path)
            pairs, _ = words_of_image(whole)
            write(old, b"".join((pair & 0xFFFE).to_bytes(2, "big") for pair in pairs))
            self.sums_in_forms(name, old, "--rope", "1")
            for parts in itertools.chain.from_iterable(itertools.combinations(PARTS, count) for count in range(5)):
                write(path, standing(parts, whole))
                self.sums_in_forms(f"{name} {parts}", path)
        write(path, whole)

    def sums_in_forms(self, label, file, *options):
        """The lines of an image, told here anew."""
        banks = words_of_image(read(file))[1]
        turns = (lambda pair: pair >> 1, lambda pair: of_hardware(pair) >> 1, lambda pair: exchanged(pair) >> 1, lambda pair: of_hardware(exchanged(pair)) >> 1)
        words = [[[turn(pair) for pair in bank] for bank in banks] for turn in turns]
        lines = []
        for bank in range(36):
            sums = [functools.reduce(ones_sum, it[bank], 0) for it in words]
            held = []
            for form, it, total in zip(("", "hardware", "swapped", "hardware,swapped"), words, sums):
                parts = ([form] if form else []) + (["complemented"] if is_complemented(it) else [])
                held += [",".join(parts) or "written"] if total in (bank, 32767 - bank) else []
                held += [",".join([*parts, "numbered"])] if bank < 4 and total in ((bank + 2) % 4, 32767 - (bank + 2) % 4) else []
            lines.append(f"{bank:02o} {sums[0]:05o} {sums[1]:05o} {' '.join(held) or '-'}\n")
        with self.subTest(f"sums of {label} in all forms"):
            self.assertAnswer(agcws("sums", "--forms", *options, file), 0, "".join(lines).encode())

    def test_names_of_images(self):
        """Images with names: traces, profiles and sessions as those of their sources; and the words of random images with random names."""
        image, listing, table = f"{self.room}/named.rope", f"{self.room}/named.lst", f"{self.room}/names"
        rows = rows_of_runs()
        for name, feed, steps in rows:
            source, feed, steps = f"{EXAMPLES}/{name}.agc", f"{EXAMPLES}/{feed}", str(min(int(steps), 2000))
            write(listing, agcws("asm", source, image)[1])
            names = ("--image", "--symbols", listing, image, feed)
            with self.subTest(f"the trace of {name} with its names"):
                self.assertAnswer(agcws("trace", *names, steps), *agcws("trace", source, feed, steps))
            commands = b"run %s\nsym START\nmem 4000\nwhere\nfind \n" % steps.encode() + b"".join(b"sym %s\nmem %s\n" % (it, it) for it in re.findall(rb"^(\S+) +(?:FIXED|ERASABLE) ", read(listing), re.M)[:20])
            ran = [subprocess.run([PROGRAM, "debug", "--extended", *words], input=commands, capture_output=True, timeout=WAIT) for words in (names, (source, feed))]
            words, rows_of = agcws("words", "--symbols", listing, image), agcws("cover", *names, steps)
            shown = [[line[5:] for line in it.stdout.splitlines() if line.startswith(b"LIST ")] for it in ran]
            replies = [[line for line in it.stdout.splitlines() if not line.startswith(b"LIST ")] for it in ran]
            are_rows = len(shown[0]) == len(shown[1]) == 1 and shown[0][0] in words[1].splitlines() and shown[1][0] in read(listing).splitlines()
            with self.subTest(f"a session of {name} with its names"):
                self.assertTrue(replies[0] == replies[1] and are_rows and (ran[0].returncode, ran[0].stderr) == (0, b""), f"{ran}")
            with self.subTest(f"the profile of {name} with its names"):
                self.assertTrue([it[22:] for it in rows_of[1].splitlines()[:36864]] == words[1].splitlines() and rows_of[0] == 0)
        for seed in range(4):
            chance = random.Random(seed)
            word_list = [chance.randrange(32768) for _ in range(IMAGE_BYTES // 2)]
            write(image, b"".join((2 * word + (bin(word).count("1") + 1) % 2).to_bytes(2, "big") for word in word_list))
            places = [("E", chance.randrange(0o4000)) if chance.randrange(3) == 0 else (chance.choice((2, 3, 4, 0o27, 0o43)), chance.randrange(0o2000)) for _ in range(60)]
            names = [(f"N{number}", place) for number, place in enumerate(places)]
            first_names = {place: name for name, place in reversed(names)}
            write(table, "".join(f"{name}\t{shown_place(chance, place)} # {name}\n" for name, place in names).encode())
            for bank in ("02", "04", "43"):
                wanted = []
                for line in agcws("words", image, bank)[1].decode().splitlines():
                    place, word, *code = line.split()
                    is_address = len(code) == 2 and len(code[1]) == 4
                    wanted.append(" ".join([place, word, code[0], *([named(first_names, int(bank, 8), int(code[1], 8))] if is_address else code[1:])]))
                with self.subTest(f"the words of image {seed}, bank {bank}, with names"):
                    self.assertAnswer(agcws("words", "--symbols", table, image, bank), 0, "".join(f"{it}\n" for it in wanted).encode())
        agcws("asm", write(f"{self.room}/two.agc", b"START CA START +2\n TS 61\n OCT 0\n"), image)
        for text, operands in ((b"START 02,4000\nX 02,4002\nSYMBOLS 0061\n", b"CA X|TS SYMBOLS"), (b"SYMBOLS 0061\nX 02,4002\n", b"CA X|TS 0061"), (b"SYMBOLS E0,0061\nX 02,4002\n", b"CA X|TS SYMBOLS"), (b"# by hand\n 1 \nSYMBOLS 1\nX FIXED 02,0002\n", b"CA X|TS 0061")):
            shown = agcws("words", "--symbols", write(table, text), image, "02")
            with self.subTest(f"the names of {text}"):
                self.assertEqual((shown[0], b"|".join(line[14:] for line in shown[1].splitlines()[:2])), (0, operands))
        with self.subTest("a line above SYMBOLS that is no row of a listing"):
            self.assertAnswer(agcws("words", "--symbols", write(table, b"GARBAGE LINE OF MANY FIELDS\nSYMBOLS 0061\nX 02,4002\n"), image), 1, b"", b"agcws: E36 LINE 1\n")

    def test_sums_made(self):
        """Images with check words: each bank's words, two TC to themselves, and the word by which the sum is the bank's number or its complement."""
        source, plain, made = f"{self.room}/sums.agc", f"{self.room}/plain.rope", f"{self.room}/made.rope"
        for seed in range(20):
            chance = random.Random(seed)
            banks = {bank: [chance.choice([0, 0o77777, chance.randrange(32768)]) for _ in range(chance.choice([1, 2, 40, 1021]))] for bank in chance.sample(range(36), 6)}
            lines = [line for bank, words in banks.items() for line in [f"\tBANK\t{bank:o}"] + [f"\tOCT\t{word:05o}" for word in words]]
            write(source, "\n".join(lines).encode() + b"\n")
            listing = agcws("asm", "--rope", "1", source, plain)
            with self.subTest(f"the listing of check words {seed}"):
                self.assertAnswer(agcws("asm", "--sums", "--rope", "1", source, made), *listing)
            wanted = bytearray(read(plain))
            for bank, words in banks.items():
                first = {2: 0o4000, 3: 0o6000}.get(bank, 0o2000) + len(words)
                total = 0
                for word in words + [first, first + 1]:
                    total = ones_sum(total, word)
                number = 32767 - bank if total >= 16384 else bank
                last = ones_sum(number, 32767 - total)
                with self.subTest(f"the sum of bank {bank:o}, seed {seed}"):
                    self.assertIn(ones_sum(total, last), (bank, 32767 - bank))
                at = 2048 * {0: 2, 1: 3, 2: 0, 3: 1}.get(bank, bank) + 2 * len(words)
                wanted[at : at + 6] = b"".join((2 * word).to_bytes(2, "big") for word in (first, first + 1, last))
            with self.subTest(f"the image with check words {seed}"):
                self.assertEqual(read(made), bytes(wanted))
        os.remove(made)
        for bank, count in ((2, 1022), (0o43, 1024)):
            write(source, f"\tBANK\t4\n\tOCT\t1\n\tBANK\t{bank:o}\n".encode() + b"\tOCT\t1\n" * count)
            with self.subTest(f"no room in bank {bank:o}"):
                self.assertAnswer(agcws("asm", "--sums", source, made), 1, b"", f"agcws: bank {bank:02o} has no room for check words: they take 3 places after its last word\n".encode())
            with self.subTest("no image where a bank has no room"):
                self.assertFalse(os.path.exists(made))
        write(source, b" OCT 9\n")
        with self.subTest("a refused source with check words"):
            self.assertAnswer(agcws("asm", "--sums", source, made), 1, b"", b"agcws: E16 LINE 1\n")

    def test_sources_of_ropes(self):
        """Images of random words: the source that is written of each comes back to its bytes."""
        path, source, made = f"{self.room}/random.rope", f"{self.room}/random.agc", f"{self.room}/again.rope"
        for seed in range(100):
            chance = random.Random(seed)
            words = [chance.randrange(32768) for _ in range(IMAGE_BYTES // 2)]
            image = b"".join((2 * word + (bin(word).count("1") + 1) % 2).to_bytes(2, "big") for word in words)
            write(path, image)
            status, text, err = agcws("words", "--source", path)
            write(source, text)
            with self.subTest(f"the source of image {seed}"):
                self.assertTrue((status, err) == (0, b"") and agcws("asm", source, made)[0] == 0 and read(made) == image)


if __name__ == "__main__":
    unittest.main()
