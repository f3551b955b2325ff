"""Assembles forms of flight programs, and compares their words with those worked out by hand."""
import glob
import os
import subprocess
import unittest

from common import EXAMPLES, PROGRAM, Case, read, write

# Lines, a semicolon between two, and their words. 60000 is 3 times 2 ^ 14 and 10848; the constant of the Earth is 3.986032 E10 / 2 ^ 36 = .5800362, times 2 ^ 28 a whole number of two words.
WORDS = [
    (" 2DEC 60000", [0o00003, 0o25140]),
    (" 2DEC 0", [0, 0]),
    (" 2DEC -1", [0o77777, 0o77776]),
    (" 2DEC +16384", [1, 0]),
    (" 2DEC 268435455", [0o37777, 0o37777]),
    (" 2DEC* 3.986032 E10 B-36*", divmod(round(3.986032e10 / 2 ** 8), 2 ** 14)),
    (" 2DEC* 5", [0, 5]),
    (" DEC* -1 B-14*", [0o77776]),
    (" DEC* .5", [0o20000]),
    (" DEC 5 B-14*", [5]),
    (" CAF 0", [0o30000]),
    (" INDEX 2; CAF 0", [0o50002, 0o30000]),
    (" CAF 4005", [0o34005]),
    (" LXCH 0 -1", [0o21777]),
    (" CA 0 -1", [0o27777]),
    (" CAF 0 -1", [0o27777]),
    (" CA 3 -4", [0o27777]),
    (" INDEX 0 -2", [0o47776]),
    (" DXCH 0 -1", [0o52000]),
    (" EXTEND; DCA 0 -1", [6, 0o30000]),
    (" EXTEND; INDEX 0 -1", [6, 0o47777]),
    (" CHECK= X +5; OCT 1", [1]),
    ("X OCT 1; CHECK= X", [1]),
    (" -DNCHAN 30", [0o43747]),
]
# Lines that are refused with --flight too, by the number of their fault.
REFUSED = [
    (" 2DEC 268435456", 26), (" 2DEC 12345678901", 16), (" 2DEC 5 E3", 16), (" DEC 5 E3", 16), (" 2DEC* 5 B-28**", 16), (" 2DEC* .5 E1*", 16), (" DEC* 16384", 26),
    (" CAF X;X EQUALS 5", 25), (" TC 0 -1", 26), (" TCF 0 -1", 26), (" ADRES 0 -1", 26), (" ECADR 0 -1", 26), (" CA 0 -2000", 26), (" EXTEND; READ 0 -1", 26), ("X EQUALS 0; CA X -1", 26),
    (" -DNCHAN 1000", 25), ("X CHECK= 5;X OCT 1", 14), (" CHECKS= X", 15),
]

# Forms that are refused, what is assumed of them, and the words by hand: 5 times 200 and 9; an address of 12 bits after 3; eight places from 1400 on; 19 is 23, and 18 is 22.
ASSUMED = [
    ("MODE MM 37", "MM=DEC", [0o45]), (" NV 0509", "NV=VN", [0o1211]), (" BBCON* # high", "BBCON*=66100", [0o66100]),
    (" SETLOC 54017;X OCT 5; DNPTR X", "DNPTR=CA", [5, 0o32017]), ("N = 19; ADRES N", "8=8D", [0o23]), (" TC 400 +8; TC 400 +18D", "8=8D", [0o410, 0o422]),
    (" SETLOC 1400;X ERASE 7;Y ERASE; SETLOC 4000; ADRES Y; ADRES X", "ERASE=COUNT", [0o1410, 0o1400]),
    (" SETLOC 1400;X ERASE 7;Y ERASE; SETLOC 4000; ADRES Y; ADRES X", "ERASE=EQUALS", [0o1400, 7]),
    (" SETLOC 54017;X OCT 5; 2BCADR X", "2BCADR=2CADR", [5, 0o2017, 0o44000]),
]

# A module with lines of the interpretive language, a semicolon between two, and its holes, by hand: 4001 to 4004 up to
# EXIT, and in bank 4 from VSUB on those that are no constant, up to CA; and two behind DEC.
MODULE = (
    "# A module of the interpretive language;RN EQUALS 1400;VV EQUALS 1406;X EQUALS 1414; BLOCK 02;START TC INTPRET; VLOAD UNIT# two operators; RN;"
    "# between;KEEP STORE VV +2; EXIT; CA FIVE; TC START;INTPRET RETURN;FIVE OCT 5; SETLOC 20000;VSUB STQ BOFF; X +1; 2D; TAB -6,1;LAB VV;; STODL* 0,1; OCT 7;"
    " RN -1,2; GOTO; LAB; CADR VSUB; CA RN; SETLOC 20100;TAB DEC 3; DLOAD EXIT; -6D; TS X; NOOP"
)
HOLES = ["02,4001", "02,4002", "02,4003", "02,4004"] + [f"04,{address:04o}" for address in (0o2000, 0o2001, 0o2002, 0o2003, 0o2004, 0o2005, 0o2007, 0o2010, 0o2011, 0o2101, 0o2102)]


# Programs with holes, a semicolon between two lines, their feeds, the most steps, and by hand the lines put out and the step
# and row of the hole. CA, WRITE and RESUME take two cycles, RELINT, EXTEND and TCF one, and an interrupt that is entered three. After the
# second's RESUME, TCF ON waits while Z leads to a hole; the third's hole would be kept by an interrupt.
OUT = " BLOCK 02;START CA FIVE; EXTEND; WRITE 10; VLOAD UNIT; X; EXIT; TC START;FIVE OCT 5;X EQUALS 1400"
AFTER = " SETLOC 4000; RELINT; TCF MAIN; SETLOC 4014; RESUME; SETLOC 4100;MAIN CA FIVE; TCF ON; VLOAD UNIT; EXIT;FIVE OCT 5;ON EXTEND; WRITE 10;HERE DLOAD EXIT"
KEPT = " SETLOC 4000; RELINT; TCF HERE; SETLOC 4014; RESUME; SETLOC 4100;HERE DLOAD # a comment; EXIT"
HOLED_RUNS = [
    ("it comes to no hole", OUT, "", 3, "5 CH 010 00005\n", ""),
    ("it comes to a hole", OUT, "", 4, "5 CH 010 00005\n", "agcws: HOLE AT STEP 4:     5 02,4003 00000   OCT 0 #  VLOAD UNIT\n"),
    ("it comes to a hole long before", OUT, "", 99999, "5 CH 010 00005\n", "agcws: HOLE AT STEP 4:     5 02,4003 00000   OCT 0 #  VLOAD UNIT\n"),
    ("an instruction waits before a hole", AFTER, "4 RUPT 3\n", 9, "13 CH 010 00005\n", ""),
    ("a hole has a label", AFTER, "4 RUPT 3\n", 10, "13 CH 010 00005\n", "agcws: HOLE AT STEP 10:    14 02,4107 00000  HERE OCT 0 # HERE DLOAD EXIT\n"),
    ("an input comes at a hole", KEPT, "2 RUPT 3\n", 3, "", ""),
    ("an interrupt keeps a hole", KEPT, "2 RUPT 3\n", 4, "", "agcws: HOLE AT STEP 4:     7 02,4100 00000  HERE OCT 0 # HERE DLOAD # a comment\n"),
]


def spelled(word):
    """The two bytes of a word of an image."""
    return (2 * word + (bin(word).count("1") + 1) % 2).to_bytes(2, "big")


class Flight(Case):
    """Forms of flight programs, and sources that have none."""

    def asm(self, text, *options):
        write(f"{self.room}/flight.agc", text.replace(";", "\n").encode() + b"\n")
        ran = subprocess.run([PROGRAM, "asm", *options, f"{self.room}/flight.agc", f"{self.room}/flight.img"], capture_output=True, timeout=300)
        return ran.returncode, ran.stdout.decode(), ran.stderr.decode()

    def test_words(self):
        for text, words in WORDS:
            status, listing, err = self.asm(text, "--flight")
            got = [int(line.split(",")[1].split()[1], 8) for line in listing.splitlines() if line[6:8].isdigit() and line[8:9] == ","]
            with self.subTest(text):
                self.assertEqual((status, got), (0, list(words)), err)

    def test_refused(self):
        for text, number in REFUSED:
            status, _, err = self.asm(text, "--flight")
            with self.subTest(text):
                self.assertTrue(status == 1 and err.startswith(f"agcws: E{number} "), err)

    def test_same(self):
        """A source without these forms comes to the same bytes with --flight and without."""
        for path in sorted(glob.glob(f"{EXAMPLES}/*.agc")):
            plain, flight = f"{self.room}/plain.img", f"{self.room}/flight.img"
            ran = [subprocess.run([PROGRAM, "asm", *options, path, image], capture_output=True, timeout=300) for options, image in (((), plain), (("--flight",), flight))]
            with self.subTest(path):
                self.assertEqual(ran[0].returncode, ran[1].returncode)
                if ran[0].returncode == 0:
                    self.assertEqual((ran[0].stdout, read(plain)), (ran[1].stdout, read(flight)))

    def test_holes(self):
        """Each line of the interpretive language is a word, which is not made; and a filling gives it."""
        status, listing, err = self.asm(MODULE, "--flight", "--holes")
        self.assertEqual((status, err), (0, ""))
        told = listing[listing.index("# HOLE "):].splitlines()
        self.assertEqual(told, [f"# HOLE {place} 00000" for place in HOLES] + [f"# HOLES {len(HOLES)}"])
        rows = {line[6:13]: line[14:] for line in listing.splitlines() if line[6:7].isdigit()}
        self.assertEqual(rows["02,4003"], "00000  KEEP OCT 0 # KEEP STORE VV +2")
        # The words around the holes: TC INTPRET, CA FIVE, TC START; CADR VSUB and CA RN, a constant and TS X.
        around = {"02,4000": 0o04007, "02,4005": 0o34010, "02,4006": 0o04000, "04,2006": 7, "04,2012": 0o10000, "04,2013": 0o31400, "04,2100": 3, "04,2103": 0o55414}
        self.assertEqual({place: int(rows[place][:5], 8) for place in around}, around)
        self.assertEqual(self.asm(MODULE, "--flight")[0], 1)

    def test_filled(self):
        """A module whose holes are filled from a rope with the same words elsewhere is that rope."""
        lines, holes = MODULE.split(";"), iter(range(1, 99))
        listing = self.asm(MODULE, "--flight", "--holes")[1].splitlines()
        hole_lines = {int(line[:5]) for line in listing if " OCT 0 # " in line and line[:5].strip().isdigit()}
        words = [f"{'KEEP' if 'KEEP' in line else 'VSUB' if line.startswith('VSUB') else 'LAB' if line.startswith('LAB') else ''} OCT {next(holes)}1" if number in hole_lines else line for number, line in enumerate(lines, 1)]
        words = [line.replace("81", "71").replace("91", "61") for line in words]
        status, _, err = self.asm(";".join(words), "--flight")
        self.assertEqual((status, err), (0, ""))
        rope = read(f"{self.room}/flight.img")
        write(f"{self.room}/rope.img", rope)
        status, listing, err = self.asm(MODULE, "--flight", "--holes", "--fill", f"{self.room}/rope.img")
        self.assertEqual((status, err, read(f"{self.room}/flight.img")), (0, "", rope))
        self.assertNotIn("# HOLE 02,4001 00000", listing)
        status, listing, err = self.asm(MODULE, "--flight", "--holes", "--fill", f"{self.room}/flight.agc")
        self.assertEqual((status, listing), (1, ""))
        for options in (("--holes",), ("--flight", "--fill", f"{self.room}/rope.img"), ("--flight", "--holes", "--sums")):
            self.assertEqual(self.asm(MODULE, *options)[0], 2)

    def compare(self, *options):
        ran = subprocess.run([PROGRAM, "compare", "--only", "--flight", *options, f"{self.room}/flight.agc", f"{self.room}/rope.img"], capture_output=True, timeout=300)
        return ran.returncode, ran.stdout.decode(), ran.stderr.decode()

    def test_banks_with_holes(self):
        """Holes are not compared: a rope with other words there, and 00006 for OCT 5 at 02,4010, differs at that place alone."""
        self.assertEqual(self.asm(MODULE.replace("FIVE OCT 5", "FIVE OCT 6"), "--flight", "--holes")[0], 0)
        rope = bytearray(read(f"{self.room}/flight.img"))
        for offset in (1, 2, 3, 4):
            rope[2 * offset : 2 * offset + 2] = b"\xff\xfe"
        write(f"{self.room}/rope.img", bytes(rope))
        self.assertEqual(self.asm(MODULE, "--flight", "--holes")[0], 0)
        banks = "BANK 02 CERTAIN 5 EQUAL 4 HOLES 4\nBANK 04 CERTAIN 6 EQUAL 6 HOLES 11\n"
        wanted = (1, "02,4010 00005 00006 TC 0005, EXTEND\nCOUNT 1\n" + banks, "")
        self.assertEqual(self.compare("--holes"), wanted)
        self.assertEqual(self.compare("--holes", "--banks"), wanted)
        self.assertEqual(self.compare("--banks"), (1, "", "agcws: E15 LINE 7\n"))
        # 00006 in the last hole of bank 2 is no EXTEND: the words behind it are no DCA.
        for offset, word in ((4, 6), (5, 0o34007)):
            rope[2 * offset : 2 * offset + 2] = spelled(word)
        write(f"{self.room}/rope.img", bytes(rope))
        wanted = (1, "02,4005 34010 34007 CA 4010, CA 4007\n02,4010 00005 00006 TC 0005, EXTEND\nCOUNT 2\n" + banks.replace("EQUAL 4", "EQUAL 3"), "")
        self.assertEqual(self.compare("--holes"), wanted)

    def test_words_with_holes(self):
        """A rope's words are shown with the names of the source, but those of holes with HOLE; and behind a hole with EXTEND none is an extracode."""
        status, listing, err = self.asm(MODULE, "--flight", "--holes")
        self.assertEqual((status, err), (0, ""))
        write(f"{self.room}/names.lst", listing.encode())
        rope = bytearray(read(f"{self.room}/flight.img"))
        # at the last hole of bank 2 EXTEND, by which without holes the word behind it is an extracode, and at the others 77777
        for offset, word in ((1, 0o77777), (2, 0o77777), (3, 0o77777), (4, 6)):
            rope[2 * offset : 2 * offset + 2] = spelled(word)
        write(f"{self.room}/rope.img", bytes(rope))
        behind, basic = "02,4005 34010 DCA ", "02,4005 34010 CA FIVE"
        for bank in ((), ("02",), ("04",), ("05",)):
            told = [subprocess.run([PROGRAM, "words", *options, f"{self.room}/rope.img", *bank], capture_output=True, timeout=300) for options in (("--symbols", f"{self.room}/names.lst"), ("--flight", "--holes", "--symbols", f"{self.room}/flight.agc"))]
            self.assertEqual([it.returncode for it in told], [0, 0])
            plain, holed = ([line for line in it.stdout.decode().splitlines()] for it in told)
            with self.subTest(bank):
                self.assertEqual(holed, [line[:13] + " HOLE" if line[:7] in HOLES else basic if line.startswith(behind) else line for line in plain])
                self.assertEqual((any(line.startswith(behind) for line in plain), basic in holed), (bank in ((), ("02",)),) * 2)
        self.assertIn("02,4003 77777 HOLE", self.words("02")[1].splitlines())
        for text in (MODULE.replace("CADR VSUB", "CADX VSUB"), MODULE.replace("NOOP", "NOPE")):
            write(f"{self.room}/flight.agc", text.replace(";", "\n").encode() + b"\n")
            for options in ((), ("--where",)):
                status, out, err = self.words("02", *options)
                self.assertTrue((status, out) == (1, "") and err.startswith("agcws: E15 LINE "), err)
        self.assertEqual(self.asm(MODULE, "--flight", "--holes")[0], 0)
        write(f"{self.room}/rope.img", bytes(rope[:-1]))
        self.assertEqual(self.words(), (1, "", "agcws: E3\n"))

    def words(self, *words):
        ran = subprocess.run([PROGRAM, "words", "--flight", "--holes", "--symbols", f"{self.room}/flight.agc", f"{self.room}/rope.img", *words], capture_output=True, timeout=300)
        return ran.returncode, ran.stdout.decode(), ran.stderr.decode()

    def test_words_refused(self):
        """--holes asks for --flight and for names, and says nothing of sources and cross-references."""
        self.assertEqual(self.asm(MODULE, "--flight", "--holes")[0], 0)
        rope, source = f"{self.room}/flight.img", f"{self.room}/flight.agc"
        for options in (("--holes",), ("--flight",), ("--flight", "--holes"), ("--holes", "--symbols", source), ("--flight", "--symbols", source), ("--flight", "--holes", "--symbols", source, "--xref"), ("--flight", "--holes", "--symbols", source, "--source")):
            ran = subprocess.run([PROGRAM, "words", *options, rope], capture_output=True, timeout=300)
            with self.subTest(options):
                self.assertEqual((ran.returncode, ran.stdout), (2, b""))

    def run_holed(self, text, feed, steps, *options):
        write(f"{self.room}/flight.agc", text.replace(";", "\n").encode() + b"\n")
        write(f"{self.room}/flight.feed", feed.encode())
        ran = subprocess.run([PROGRAM, "run", *options, f"{self.room}/flight.agc", f"{self.room}/flight.feed", str(steps)], capture_output=True, timeout=300)
        return ran.returncode, ran.stdout.decode(), ran.stderr.decode()

    def test_run_to_a_hole(self):
        """A run stops before a step that would fetch the word of a hole, and tells it."""
        for name, text, feed, steps, lines, hole in HOLED_RUNS:
            with self.subTest(name):
                self.assertEqual(self.run_holed(text, feed, steps, "--flight", "--holes"), (1 if hole else 0, lines, hole))
        hole = HOLED_RUNS[1][5]
        self.assertEqual(self.run_holed(OUT, "", 9, "--flight", "--holes", "--end"), (1, "5 CH 010 00005\n", f"{hole}END STEPS 3 CYCLES 5 OUTPUTS 1 Z 4003\n"))
        self.assertEqual(self.run_holed(OUT, "", 9, "--flight"), (1, "", "agcws: E15 LINE 5\n"))
        self.assertEqual(self.run_holed(OUT.replace("START CA", "START CB"), "", 9, "--flight", "--holes"), (1, "", "agcws: E15 LINE 2\n"))
        self.assertEqual(self.run_holed(OUT, "1 RUPT 11\n", 9, "--flight", "--holes")[:2], (1, ""))
        for options in (("--holes",), ("--image", "--holes"), ("--flight", "--holes", "--until-idle"), ("--flight", "--holes", "--notes"), ("--flight", "--holes", "--progress")):
            with self.subTest(options):
                self.assertEqual(self.run_holed(OUT, "", 9, *options)[0], 2)

    def test_run_of_files(self):
        """A hole in a file that the source includes is told by the file and its line."""
        write(f"{self.room}/part.agc", b"        WRITE   10\n        VLOAD   UNIT\n")
        wanted = (1, "5 CH 010 00005\n", "agcws: HOLE AT STEP 4: part.agc:2 02,4003 00000   OCT 0 #         VLOAD   UNIT\n")
        self.assertEqual(self.run_holed(" BLOCK 02;START CA FIVE; EXTEND;$part.agc; EXIT;FIVE OCT 5", "", 9, "--flight", "--holes"), wanted)

    def test_run_without_holes(self):
        """A run of a source without such lines is that of the source."""
        for path in sorted(glob.glob(f"{EXAMPLES}/flight/*.agc")):
            feed = path.replace(".agc", ".feed")
            if not os.path.exists(feed):
                feed = f"{self.room}/empty.feed"
                write(feed, b"")
            ran = [subprocess.run([PROGRAM, "run", "--flight", *options, "--end", path, feed, "2000"], capture_output=True, timeout=300) for options in ((), ("--holes",))]
            with self.subTest(path):
                self.assertEqual(ran[0].returncode, 0)
                self.assertEqual([(it.returncode, it.stdout, it.stderr) for it in ran[:1]], [(it.returncode, it.stdout, it.stderr) for it in ran[1:]])

    def test_sums_beside_holes(self):
        """The sums are those of the filled words; without a filling a bank with a hole has none."""
        self.assertEqual(self.asm(MODULE, "--flight", "--holes")[0], 0)
        rope = bytearray(read(f"{self.room}/flight.img"))
        rope[2:4] = (2 * 0o12345).to_bytes(2, "big")
        write(f"{self.room}/rope.img", bytes(rope))
        status, listing, err = self.asm(MODULE, "--flight", "--holes", "--fill", f"{self.room}/rope.img", "--sums")
        self.assertEqual((status, err), (0, ""))
        self.assertIn("# HOLE 02,4001 12345\n", listing)
        image = read(f"{self.room}/flight.img")
        self.assertEqual(image[:18], bytes(rope[:18]))
        sums = subprocess.run([PROGRAM, "sums", f"{self.room}/flight.img"], capture_output=True, timeout=300).stdout.decode().splitlines()
        self.assertTrue({"02 00002", "02 77775"} & set(sums) and {"04 00004", "04 77773"} & set(sums), sums)
        for options in (("--sums",), ("--sums", "--xref")):
            self.assertEqual(self.asm(MODULE, "--flight", "--holes", *options), (2, "", "error: a bank with a hole has no sum: --sums beside --holes needs --fill FILE, the image that fills it\n"))
        full = MODULE.replace("SETLOC 20100", "SETLOC 21773")
        self.assertEqual(self.asm(full, "--flight", "--holes", "--fill", f"{self.room}/rope.img", "--sums")[0], 1)

    def test_no_holes(self):
        """A source without such lines comes to the same image and listing, and has no hole."""
        for path in sorted(glob.glob(f"{EXAMPLES}/flight/*.agc")):
            text = read(path).decode().replace(";", ",")
            plain, image = self.asm(text, "--flight"), read(f"{self.room}/flight.img")
            with self.subTest(path):
                self.assertEqual((self.asm(text, "--flight", "--holes"), read(f"{self.room}/flight.img")), ((0, plain[1] + "# HOLES 0\n", ""), image))

    def test_refused_beside_holes(self):
        """Names that are less sure are refused as without --holes."""
        for text, line in ((" BOF X;X OCT 5", 1), (" DLOAD; ITA X", 2), (" EXIT; RN", 2), (" DLOAD; TC X; RN;X OCT 5", 3)):
            with self.subTest(text):
                self.assertEqual(self.asm(text.join((" SETLOC 4000;", "")), "--flight", "--holes")[2], f"agcws: E15 LINE {line + 1}\n")


    def test_assumed(self):
        """What is assumed of a form is its word; without it, and with another wording, the form is refused as it was."""
        for text, wording, words in ASSUMED:
            with self.subTest(wording):
                status, listing, err = self.asm(text, "--flight", "--assume", wording)
                got = [int(line.split(",")[1].split()[1], 8) for line in listing.splitlines() if line[6:8].isdigit() and line[8:9] == ","]
                self.assertEqual((status, got), (0, words), err)
                self.assertEqual(listing.count(f" # ASSUMED {wording}\n"), 1)
                refused = self.asm(text, "--flight")
                self.assertEqual(refused[:2], (1, ""))
                self.assertEqual(self.asm(text, "--flight", "--assume", "MM=DEC" if wording != "MM=DEC" else "NV=VN"), refused)

    def test_assumed_of_a_file(self):
        """A file tells which wordings are assumed; what is none is refused; check tells the lines that stand so."""
        text = "# no word;MODE MM 37# P37; VN 0509; NV 0509"
        profile = write(f"{self.room}/profile", b"MM=DEC # measured by hand\r\n\n# NV=VV\nNV=VN\t8=8D\n")
        told = self.asm(text, "--flight", "--assume", f"@{profile}")
        self.assertEqual(told, self.asm(text, "--flight", "--assume", "NV=VN,MM=DEC"))
        self.assertIn("MODE DEC 37# P37 # ASSUMED MM=DEC\n", told[1])
        for wording in ("MM=OCT", "MM", "mm=dec", "MM=DEC;NV=VN", f"@{self.room}/flight.agc"):
            self.assertEqual(self.asm(text, "--flight", "--assume", wording)[0], 2)
        self.assertEqual(self.asm(text, "--assume", "MM=DEC")[0], 2)
        plain = self.asm(" VN 0509;X OCT 5", "--flight")
        image = read(f"{self.room}/flight.img")
        write(f"{self.room}/none", b"# nothing is assumed\n")
        for wording in (f"@{self.room}/none", "MM=DEC,NV=VN,8=8D"):
            self.assertEqual((self.asm(" VN 0509;X OCT 5", "--flight", "--assume", wording), read(f"{self.room}/flight.img")), (plain, image))
        self.asm(text, "--flight", "--assume", "NV=VN,MM=DEC")
        write(f"{self.room}/rope.img", read(f"{self.room}/flight.img"))
        told = "COUNT 0\nUNCERTAIN 0 OF 2\nFORM VN CONFIRMED 2 DENIED 0\nBANK 02 CERTAIN 1 EQUAL 1 UNCERTAIN 2 HOLES 0\nASSUMED NV=VN CONFIRMED 1 DENIED 0\nASSUMED MM=DEC CONFIRMED 1 DENIED 0\n"
        self.assertEqual(self.compare("--assume", "NV=VN,MM=DEC"), (0, told, ""))
        # A comment of the source assumes nothing.
        self.asm(text.replace(" VN 0509;", " VN 0509 # ASSUMED NV=VN;"), "--flight", "--assume", "NV=VN,MM=DEC")
        self.assertEqual(self.compare("--assume", "NV=VN,MM=DEC"), (0, told, ""))
        self.asm(text.replace("37#", "36#"), "--flight", "--assume", "NV=VN,MM=DEC")
        status, out, _ = self.compare("--assume", "NV=VN,MM=DEC")
        self.assertEqual((status, out.splitlines()[-2:]), (1, ["ASSUMED NV=VN CONFIRMED 1 DENIED 0", "ASSUMED MM=DEC CONFIRMED 0 DENIED 1"]))
        checked = subprocess.run([PROGRAM, "check", "--flight", "--assume", "NV=VN,MM=DEC", f"{self.room}/flight.agc"], capture_output=True, timeout=300)
        self.assertEqual(checked.returncode, 0)
        for row in (f"{self.room}/flight.agc:2: assumed MM=DEC\n", f"{self.room}/flight.agc:4: assumed NV=VN\n"):
            self.assertIn(row.encode(), checked.stdout)


if __name__ == "__main__":
    unittest.main()
