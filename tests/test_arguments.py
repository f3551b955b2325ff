"""Tries the arguments of each subcommand beside each other, on the built program.

An image is taken in each form in which it may stand, by each subcommand that reads one; and options stand together of
which one might be passed over where another stands. What is wanted was worked out by hand, or is what the same words
draw as they are written."""
import os
import re
import subprocess
import unittest

from common import PROGRAM, Case, read, write

# Its steps by hand: CA (2 cycles), AD (2), EXTEND (1), WRITE (2) and TCF (1) over and over, so that a line is written
# at 7 and at 15 cycles.
FIVE = "START CA FIVE; AD FIVE; EXTEND; WRITE 10; TCF START;FIVE OCT 5"
FIVE_LINES = "7 CH 010 00012\n15 CH 010 00012\n"
# A program of the language of flight programs: CA (2), EXTEND (1), WRITE (2).
FLIGHT = "START CA X; EXTEND; WRITE 10; TCF START;X OCT -1"
FILES = {
    "five.agc": FIVE,
    "six.agc": FIVE.replace("OCT 5", "OCT 6"),
    "flight.agc": FLIGHT,
    "standard.agc": FLIGHT.replace("-1", "77776"),
    "lone.agc": "LONE OCT -1",
    "wrong.agc": " FROB 1",
    # A overflows at the second step, so the third skips, and then each step is a TCF.
    "skips.agc": "START CA MOST; AD MOST; TS 100; OCT 0;LOOP TCF LOOP;MOST OCT 37777",
    "good.feed": "",
    "one.feed": "ONE CHAN 3 5",
    "nameless.txt": "START",
    "two.feed": "TWO CHAN 3 5",
}
# The note of skips.agc.
SKIP_OBJECT = '{"kind":"SKIP","place":"02,4002","symbol":null,"word":"54100","text":"TS 0100","step":3,"cycles":6,"count":1}\n'
COMMANDS = b"run 7\nregs\nmem 4000\nmem 4005\nback 2\n"
# The calls that read an image: OPTIONS are those by which it is taken, and OLD and NEW the same for the first and the
# second of two.
READERS = """\
run --image OPTIONS IMAGE good.feed 9
run --image --end OPTIONS IMAGE good.feed 9
run --image --progress OPTIONS IMAGE good.feed 9
run --image --notes OPTIONS IMAGE good.feed 9
run --image --notes --progress --end OPTIONS IMAGE good.feed 9
run --image --notes --json --end OPTIONS IMAGE good.feed 9
trace --image OPTIONS IMAGE good.feed 9
trace --image --progress OPTIONS IMAGE good.feed 9
trace --image --symbols five.lst OPTIONS IMAGE good.feed 9
cover --image OPTIONS IMAGE good.feed 9
cover --image --progress OPTIONS IMAGE good.feed 9
cover --image --symbols five.lst OPTIONS IMAGE good.feed 9
cover --image --json OPTIONS IMAGE good.feed 9
cover --image --json --symbols five.lst --progress OPTIONS IMAGE good.feed 9
reach --image OPTIONS IMAGE
reach --image --symbols five.lst OPTIONS IMAGE
reach --image --feed good.feed --steps 9 OPTIONS IMAGE
reach --image --roots OPTIONS IMAGE
bound --image OPTIONS IMAGE 02,4000
bound --image --symbols five.lst --kept A OPTIONS IMAGE 02,4000
trace --image --reads OPTIONS IMAGE good.feed 9
trace --image --say OPTIONS IMAGE good.feed 9
access --image OPTIONS IMAGE good.feed 9
access --image --progress OPTIONS IMAGE good.feed 9
access --image --symbols five.lst OPTIONS IMAGE good.feed 9 A
delays --image OPTIONS IMAGE good.feed 9
delays --image --progress OPTIONS IMAGE good.feed 9
delays --image --symbols five.lst OPTIONS IMAGE good.feed 9
whatif --image OPTIONS IMAGE good.feed 9 good.feed
whatif --image --symbols five.lst OPTIONS IMAGE good.feed 9 good.feed
differ --image OPTIONS IMAGE good.feed 9 --with IMAGE good.feed
differ --image --why 3 OPTIONS IMAGE good.feed 9 --with IMAGE good.feed
differ --image --symbols five.lst OPTIONS IMAGE good.feed 9 --with IMAGE good.feed
debug --image OPTIONS IMAGE good.feed
debug --image --symbols five.lst OPTIONS IMAGE good.feed
debug --extended --image OPTIONS IMAGE good.feed
debug --extended --image --symbols five.lst OPTIONS IMAGE good.feed
words OPTIONS IMAGE
words OPTIONS IMAGE 2
words --where OPTIONS IMAGE
words --source OPTIONS IMAGE
words --source OPTIONS IMAGE 02
words --source --symbols five.lst OPTIONS IMAGE
words --symbols five.lst --source OPTIONS IMAGE 2
words --octal OPTIONS IMAGE
words --octal OPTIONS IMAGE 2
words --symbols five.lst OPTIONS IMAGE
words --symbols five.lst OPTIONS IMAGE 2
words --symbols five.lst --xref OPTIONS IMAGE
words --xref --symbols five.lst OPTIONS IMAGE 2
sums OPTIONS IMAGE
compare OLD IMAGE six.rope
compare NEW six.rope IMAGE
compare --only NEW five.agc IMAGE
compare --only NEW six.agc IMAGE
align OLD IMAGE six.rope
align NEW six.rope IMAGE
align --symbols five.lst OLD IMAGE six.rope
find OPTIONS five.agc IMAGE
""".splitlines()
# Files in which the image of five.agc stands, and options by which it is taken.
FORMS = [
    ("five.rope", "--rope 2"),
    ("one.rope", "--rope 1"),
    ("hardware.rope", "--form hardware"),
    ("hardware_one.rope", "--rope 1 --form hardware"),
    ("one.rope", "--parity ignore"),
    ("wrong.rope", "--parity ignore"),
    ("wrong.rope", "--rope 1 --parity ignore"),
    ("wrong_hardware.rope", "--parity ignore --form hardware"),
]
# Files in which it stands otherwise, and options by which the subcommands take it that run nothing; or as a text of octal words, which all take.
ALL_PARTS = "hardware,swapped,complemented,numbered"
LAYOUTS = [
    ("swapped.rope", "--form swapped"),
    ("complemented.rope", "--form complemented"),
    ("numbered.rope", "--form numbered"),
    ("all.rope", f"--form {ALL_PARTS}"),
    ("all_one.rope", f"--rope 1 --form {ALL_PARTS}"),
    ("all_wrong.rope", f"--parity ignore --form {ALL_PARTS}"),
    ("module.rope", "--form module1"),
    ("module.rope", "--parity ignore --form module1"),
    ("module_all.rope", "--rope 1 --form hardware,swapped,complemented,module1"),
    ("octals.txt", ""),
    ("octals.txt", "--rope 1"),
    ("octals.txt", "--parity ignore"),
    ("octals.txt", f"--form {ALL_PARTS}"),
]
# Options of a comparison that takes two images in the other order of the bits, and the images.
OTHER_ORDERS = [
    ("--old-form hardware", "hardware.rope six.rope"),
    ("--new-form hardware", "five.rope hardware_six.rope"),
    ("--old-form hardware --new-form hardware", "hardware.rope hardware_six.rope"),
]
# Options of a trace of 9 steps, and the first and the last step that is shown.
BOUNDS = [
    ("", 1, 9),
    ("--from 3", 3, 9),
    ("--to 5", 1, 5),
    ("--from 3 --to 5", 3, 5),
    ("--to 50", 1, 9),
    ("--from 9", 9, 9),
    ("--from 10", 10, 9),
    ("--from 7 --to 50", 7, 9),
    ("--to 0 --from 0", 1, 0),
]
# What is told of each file in a check.
TOLD = {
    "wrong.agc": "wrong.agc:1:2: error E15: FROB is no operator\n    1 |  FROB 1\n      |  ^^^^\n",
    "lone.agc": "lone.agc:1:1: warning W8: no operand names LONE\n    1 | LONE OCT -1\n      | ^^^^\n",
    "one.feed": "one.feed:1:1: error E30: ONE is no cycle, which is 1 to 15 decimal digits\n"
    "    1 | ONE CHAN 3 5\n      | ^^^\n",
    "two.feed": "two.feed:1:1: error E30: TWO is no cycle, which is 1 to 15 decimal digits\n"
    "    1 | TWO CHAN 3 5\n      | ^^^\n",
}
# The same by an object.
OBJECTS = {
    "wrong.agc": '{"kind":"error","number":"E15","file":"wrong.agc","line":1,"column":2,"end":6,"said":"FROB is no operator","cure":null,"flight":false,"fix":null,"related":null}\n',
    "lone.agc": '{"kind":"warning","number":"W8","file":"lone.agc","line":1,"column":1,"end":5,"said":"no operand names LONE","cure":null,"flight":false,"fix":null,"related":null}\n',
    "one.feed": '{"kind":"error","number":"E30","file":"one.feed","line":1,"column":1,"end":4,"said":"ONE is no cycle, which is 1 to 15 decimal digits","cure":null,"flight":false,"fix":null,"related":null}\n',
    "two.feed": '{"kind":"error","number":"E30","file":"two.feed","line":1,"column":1,"end":4,"said":"TWO is no cycle, which is 1 to 15 decimal digits","cure":null,"flight":false,"fix":null,"related":null}\n',
}
# Checks: their words, the status, the files of which something is told, and the last line.
CHECKS = [
    ("five.agc", 0, "", "0 errors, 0 warnings"),
    ("five.agc good.feed good.feed", 0, "", "0 errors, 0 warnings"),
    ("five.agc one.feed two.feed", 1, "one.feed two.feed", "2 errors, 0 warnings"),
    ("five.agc two.feed good.feed one.feed", 1, "two.feed one.feed", "2 errors, 0 warnings"),
    ("five.agc good.feed two.feed", 1, "two.feed", "1 error, 0 warnings"),
    ("wrong.agc good.feed", 1, "wrong.agc", "1 error, 0 warnings"),
    ("wrong.agc one.feed two.feed", 1, "wrong.agc one.feed two.feed", "3 errors, 0 warnings"),
    ("--flight lone.agc", 0, "", "0 errors, 0 warnings"),
    ("--flight --unused lone.agc", 0, "lone.agc", "0 errors, 1 warning"),
    ("--flight --unused lone.agc two.feed", 1, "lone.agc two.feed", "1 error, 1 warning"),
]


def hardware(image):
    """The bytes of an image with the lowest bit of each two below the highest one, and the others moved down."""
    pairs = (high << 8 | low for high, low in zip(image[::2], image[1::2]))
    return b"".join((it & 0x8000 | (it & 1) << 14 | it >> 1 & 0x3FFF).to_bytes(2, "big") for it in pairs)


def swapped(image):
    """The bytes of an image with the second of each two first."""
    return bytes(it for pair in zip(image[1::2], image[::2]) for it in pair)


def complemented(image):
    return bytes(255 - it for it in image)


def numbered(image):
    """An image whose banks stand by their numbers."""
    return image[4096:8192] + image[:4096] + image[8192:]


def turned(image, byte, bit):
    """An image with one bit turned."""
    return bytes(it ^ bit if place == byte else it for place, it in enumerate(image))


def worded(row, image, options):
    """A call with an image, and with the options by which it is taken, in place of the words that stand for them."""
    texts = {"IMAGE": image, "OPTIONS": options, "OLD": of_side(options, "old"), "NEW": of_side(options, "new")}
    return " ".join(it for word in row.split() for it in texts.get(word, word).split())


def of_side(options, side):
    """The options by which the first or the second of two images is taken."""
    return options.replace("--rope", f"--{side}").replace("--form", f"--{side}-form")


class Arguments(Case):
    """Calls in a folder of images, sources and feeds."""

    def setUp(self):
        super().setUp()
        folder = self.folder = self.room
        for name, text in FILES.items():
            write(f"{folder}/{name}", (text.replace(";", "\n") + "\n").encode() if text else b"")
        os.mkdir(f"{folder}/folder")
        write(f"{folder}/five.lst", self.call("asm five.agc five.rope")[1])
        self.call("asm six.agc six.rope")
        self.call("asm --rope 1 five.agc one.rope")
        five, one, six = (read(f"{folder}/{it}.rope") for it in ("five", "one", "six"))
        write(f"{folder}/hardware.rope", hardware(five))
        write(f"{folder}/hardware_one.rope", hardware(one))
        write(f"{folder}/hardware_six.rope", hardware(six))
        # the parity of the word at 02,4001, which are bytes 2 and 3
        write(f"{folder}/wrong.rope", turned(five, 3, 1))
        write(f"{folder}/wrong_hardware.rope", turned(hardware(five), 2, 0x40))
        for turn in (swapped, complemented, numbered):
            write(f"{folder}/{turn.__name__}.rope", turn(five))
        for name, image in (("all", five), ("all_one", one), ("all_wrong", turned(five, 3, 1))):
            write(f"{folder}/{name}.rope", numbered(complemented(swapped(hardware(image)))))
        # its words stand in the first of six modules
        write(f"{folder}/module.rope", numbered(five)[:12288])
        write(f"{folder}/module_all.rope", numbered(complemented(swapped(hardware(one))))[:12288])
        write(f"{folder}/octals.txt", self.call("words --octal five.rope")[1])

    def call(self, words):
        """The status of the program, its output and its error output."""
        ran = subprocess.run(
            [PROGRAM, *words.split()], cwd=self.folder, input=COMMANDS, capture_output=True, timeout=300
        )
        return ran.returncode, ran.stdout, ran.stderr

    def same(self, words, status, out, err=""):
        """Compares what a call draws with what is wanted."""
        got, wanted = self.call(words), (status, out.encode(), err.encode())
        with self.subTest(f"agcws {words}"):
            self.assertEqual(got, wanted)

    def test_forms(self):
        """Each reader draws of an image in any form what it draws of it as it is written, and else something else."""
        for row in READERS:
            plain = self.call(worded(row, "five.rope", ""))
            with self.subTest(f"agcws {row}, as it is written"):
                self.assertTrue(plain[0] in (0, 1) and plain[1] != b"", f"{plain}")
            for image, options in FORMS:
                words = worded(row, image, options)
                got = self.call(words)
                with self.subTest(f"agcws {words}"):
                    self.assertEqual(got, plain)
            for image in ("one.rope", "hardware.rope", "wrong.rope", "wrong_hardware.rope"):
                words = worded(row, image, "")
                # (an image beside itself comes to the same however it is taken)
                if not (row.startswith("differ ") and image == "hardware.rope"):
                    with self.subTest(f"agcws {words}, taken otherwise"):
                        self.assertTrue(self.call(words) != plain)

    def test_layouts(self):
        """The same of an image that stands otherwise, of which what runs a program takes none, or as a text."""
        for row in READERS:
            plain = self.call(worded(row, "five.rope", ""))
            for image, options in LAYOUTS:
                words = worded(row, image, options)
                got = self.call(words)
                is_taken = row.split()[0] in ("words", "sums", "compare", "align", "find") or image == "octals.txt" and "--form" not in options
                is_right = got == plain if is_taken else got[0] == (2 if "--form" in options else 1)
                with self.subTest(f"agcws {words}"):
                    self.assertTrue(is_right, f"wanted {plain}, got {got}")

    def test_wrong_parities(self):
        """What is told of a wrong parity, in both orders of the bits, where it is not to be ignored."""
        for options, name in (("", ""), ("--form hardware ", "_hardware")):
            self.same(f"parity {options}{name[1:] or 'five'}.rope", 0, "COUNT 0\n")
            self.same(f"parity {options}wrong{name}.rope", 1, "02,4001 64005 BYTE 2\nCOUNT 1\n")
            # 34005 and -13772, 6, 1010, 14000 and 5 are 35036; no one bit of 64005 makes that 2 or -2
            self.same(f"damages {options}{name[1:] or 'five'}.rope", 1, "BANK 02 SUM 35036\nCOUNT 1\n")
            self.same(f"damages {options}wrong{name}.rope", 1, "02,4001 64005 HAS WRONG PARITY\nCOUNT 1\n")
            status, out, err = self.call(f"damages --source {options}wrong{name}.rope")
            lines = [it for it in out.decode().splitlines() if "PARITY" in it or "WAS" in it]
            with self.subTest(f"damages --source {options}wrong{name}.rope"):
                self.assertEqual((status, lines, err), (0, ["        OCT     64005   # 02,4001 WRONG PARITY"], b""), f"{lines} {err}")
            for row in READERS:
                where = "agcws: BYTE 2 02,4001\n" if "--where" in row else ""
                if not row.startswith(("compare", "align", "find")):
                    self.same(worded(row, f"wrong{name}.rope", options), 1, "", f"agcws: E5\n{where}")
        for side, images in (("old", "wrong_hardware.rope six.rope"), ("new", "six.rope wrong_hardware.rope")):
            words = f"--{side}-form hardware {images}"
            status, out, err = self.call(f"compare {words}")
            is_named = err.startswith(b"wrong_hardware.rope: error E5: ")
            with self.subTest(f"agcws compare {words}"):
                self.assertTrue((status, out) == (1, b"") and is_named, f"{err}")

    def test_comparisons(self):
        """Each side is taken in its own form."""
        self.same("run five.agc good.feed 9", 0, FIVE_LINES)
        self.same("run --image --form hardware hardware.rope good.feed 9", 0, FIVE_LINES)
        for options, images in OTHER_ORDERS:
            self.same(f"compare {options} {images}", 1, "02,4005 00005 00006 TC 0005, EXTEND\nCOUNT 1\n")
        self.same("compare --only --new-form hardware five.agc hardware.rope", 0, "COUNT 0\n")

    def test_runs(self):
        """What is told beside a run: of two options neither is passed over."""
        for options in ("", "--progress", "--notes", "--notes --progress"):
            end = "END STEPS 9 CYCLES 15 OUTPUTS 2 Z 4004\n"
            self.same(f"run {options} five.agc good.feed 9", 0, FIVE_LINES)
            self.same(f"run --end {options} five.agc good.feed 9", 0, FIVE_LINES, end)
        many, steps = "skips.agc good.feed 1048576", "agcws: STEPS 1048576\n"
        end = f"END STEPS 1048576 CYCLES {6 + 1048573} OUTPUTS 0 Z 4004\n"
        status, out, err = self.call(f"run --notes {many}")
        note = err.decode()
        is_note = note.startswith("NOTE SKIP ") and note.endswith("STEP 3 CYCLES 6 TIMES 1\n")
        with self.subTest("the note of a skip"):
            self.assertTrue((status, out) == (0, b"") and is_note, note)
        self.same(f"run --progress {many}", 0, "", steps)
        self.same(f"run --progress --end {many}", 0, "", steps + end)
        self.same(f"run --notes --end {many}", 0, "", note + end)
        self.same(f"run --notes --progress {many}", 0, "", steps + note)
        self.same(f"run --end --progress --notes {many}", 0, "", steps + note + end)
        self.same(f"run --end --json --progress --notes {many}", 0, "", steps + SKIP_OBJECT + end)
        self.same(f"run --json --notes {many}", 0, "", SKIP_OBJECT)
        self.same(f"trace --progress --from 1048577 {many}", 0, "", steps)
        objects = self.call(f"cover --json {many}")
        with self.subTest("agcws cover --json --progress"):
            self.assertTrue(self.call(f"cover --progress --json {many}") == (*objects[:2], steps.encode()) and objects[0] == 0 and objects[1][:1] == b"{")
        profile = self.call(f"cover {many}")
        with self.subTest("agcws cover --progress"):
            self.assertEqual(self.call(f"cover --progress {many}"), (*profile[:2], steps.encode()))

    def test_flight(self):
        """--flight, by each subcommand that runs a program, alone and beside other options."""
        for options in ("", "--progress", "--notes", "--notes --progress"):
            self.same(f"run --flight {options} flight.agc good.feed 3", 0, "5 CH 010 77776\n")
            self.same(f"run {options} flight.agc good.feed 3", 1, "", "agcws: E16 LINE 5\n")
        for words, steps in (("trace", "3"), ("trace --progress", "3"), ("debug", ""), ("debug --extended", "")):
            got = self.call(f"{words} --flight flight.agc good.feed {steps}")
            wanted = self.call(f"{words} standard.agc good.feed {steps}")
            with self.subTest(f"agcws {words} --flight"):
                self.assertTrue(got == wanted and got[0] == 0 and b"77776" in got[1], f"{got}")
        for options in ("", "--progress"):
            status, out, err = self.call(f"cover {options} --flight flight.agc good.feed 3")
            wanted = self.call(f"cover {options} standard.agc good.feed 3")
            with self.subTest(f"agcws cover {options} --flight"):
                self.assertEqual((status, out.replace(b"OCT -1", b"OCT 77776"), err), wanted)

    def test_flight_images(self):
        """--flight where a source is assembled to an image, or compared with one."""
        status, listing, err = self.call("asm --flight flight.agc flight.rope")
        is_listed = (status, err) == (0, b"") and b"    5 02,4004 77776  X OCT -1\n" in listing
        with self.subTest("the listing of a flight source"):
            self.assertTrue(is_listed, f"{listing}")
        for version in ("1", "2"):
            self.same(f"asm --sums --flight --rope {version} flight.agc sums.rope", 0, listing.decode())
            right = "COUNT 0\nUNCERTAIN 0 OF 1\nFORM OCT CONFIRMED 1 DENIED 0\n"
            self.same(f"compare --only --flight --new {version} flight.agc sums.rope", 0, right)
            status, out, _ = self.call(f"sums --rope {version} sums.rope")
            with self.subTest("the sum of a flight source"):
                self.assertTrue(status == 0 and (b"02 00002\n" in out or b"02 77775\n" in out))
        self.same("asm --sums flight.agc none.rope", 1, "", "agcws: E16 LINE 5\n")
        self.same("compare --only flight.agc flight.rope", 1, "", "agcws: E16 LINE 5\n")

    def test_checks(self):
        """The files of a check are each told by their own names, and all are counted."""
        for words, status, files, tally in CHECKS:
            self.same(f"check {words}", status, "".join(TOLD[it] for it in files.split()) + f"{tally}\n")
            errors, warnings = re.findall(r"\d+", tally)
            objects = "".join(OBJECTS[it] for it in files.split()) + f'{{"kind":"total","errors":{errors},"warnings":{warnings}}}\n'
            self.same(f"check --json {words}", status, objects)
        for name in ("none.feed", "folder"):
            unread = f"{name}: error E6: a file could not be opened or read\n"
            self.same(f"check five.agc good.feed {name}", 3, "", unread)
            self.same(f"check five.agc {name} good.feed", 3, "", unread)
            told = TOLD["wrong.agc"] + TOLD["one.feed"] if name == "folder" else ""
            self.same(f"check wrong.agc one.feed {name} two.feed", 3, told, unread)
            self.same(f"check {name} good.feed one.feed", 3, "", unread)

    def test_unread(self):
        """What cannot be read: a file, told by its own name, whichever of two it is; and a number."""
        self.same("words --where none.rope", 3, "", "agcws: E6\n")
        for number in ("EE17", "WW4", "EW4", "WE17", "4W", "E", "W", "E256", "E+17", "+17", "W+4", "E-17", "SKIPS", "skip", "NOTE"):
            none = "error: no refusal, no warning and no note is called so; agcws explain lists them\n"
            self.same(f"explain {number}", 2, "", none)
        for command, one, other in (("compare", "five.rope", "six.rope"), ("compare --only", "five.agc", "five.rope")):
            for name in ("none.rope", "folder"):
                unread = f"{name}: error E6: a file could not be opened or read\n"
                self.same(f"{command} {name} {other}", 3, "", unread)
                self.same(f"{command} {one} {name}", 3, "", unread)

    def test_tables(self):
        """A table of names is read once all files are open, and its fault is told before those of the others."""
        self.same("words --symbols nameless.txt none.rope", 3, "", "agcws: E6\n")
        self.same("words --symbols nameless.txt wrong.rope", 1, "", "agcws: E36 LINE 1\n")
        for words, steps in (("trace", "3"), ("cover", "3"), ("access", "3"), ("delays", "3"), ("whatif", "3 good.feed"), ("debug", ""), ("debug --extended", "")):
            named = f"{words} --image --symbols nameless.txt"
            self.same(f"{named} none.rope good.feed {steps}", 3, "", "agcws: E6\n")
            self.same(f"{named} five.rope none.feed {steps}", 3, "", "agcws: E6\n")
            self.same(f"{named} wrong.rope one.feed {steps}", 1, "", "agcws: E36 LINE 1\n")

    def test_bounds(self):
        """--from and --to: the steps that are shown, by their numbers."""
        lines = self.call("trace five.agc good.feed 9")[1].splitlines(keepends=True)
        for options, first, last in BOUNDS:
            status, out, err = self.call(f"trace {options} five.agc good.feed 9")
            shown = [int(it.split()[0]) for it in out.splitlines()]
            is_good = shown == list(range(first, last + 1)) and out == b"".join(lines[first - 1 : last])
            with self.subTest(f"agcws trace {options}"):
                self.assertTrue((status, err) == (0, b"") and is_good, f"{shown}")
        for options in ("--from 5 --to 3", "--to 3 --from 5", "--from 10 --to 9", "--to 0"):
            self.same(f"trace {options} five.agc good.feed 9", 2, "", "error: --to names an earlier step than --from, which is 1 where it is not given\n")


if __name__ == "__main__":
    unittest.main()
