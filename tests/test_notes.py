"""What `agcws run --notes` tells, by hand."""
import os
import subprocess
import unittest

from common import EXAMPLES, PROGRAM, Case, agcws, read, text_of, write
from test_json import Beside


class Notes(Beside, Case):
    """Each kind of notes."""

    def test_notes(self):
        """What `agcws run --notes` tells on standard error, worked by hand: a quotient, a word in erasable memory, an interrupt without a handler, an end within one, and interrupts that wait."""
        empty = f"{EXAMPLES}/empty.feed"
        five = write(f"{self.room}/quotient.agc", b" SETLOC 100\nD ERASE\n SETLOC 4000\n CA ONE\n TS D\n CA FIVE\n EXTEND\n DV D\nDONE TCF DONE\nONE OCT 1\nFIVE OCT 5\n")
        note = b"NOTE QUOTIENT   02,4004  10100  DV D               STEP 5 CYCLES 13 TIMES 1\n"
        with self.subTest("a quotient that does not fit"):
            self.assertAnswer(agcws("run", "--notes", five, empty, "10"), 0, b"", note)
        with self.subTest("notes, and then the end"):
            self.assertAnswer(agcws("run", "--notes", "--end", five, empty, "6"), 0, b"", note + b"END STEPS 6 CYCLES 14 OUTPUTS 0 Z 4005\n")
        with self.subTest("no note of later steps"):
            self.assertAnswer(agcws("run", "--notes", five, empty, "4"), 0, b"")
        away = write(f"{self.room}/noted_away.agc", b" SETLOC 4000\n TC 1000\n")
        with self.subTest("a word in erasable memory"):
            self.assertAnswer(agcws("run", "--notes", away, empty, "2"), 0, b"", b"NOTE ERASABLE   E2,1000  00000  TC A               STEP 2 CYCLES 2 TIMES 1\n")
        lost, feed = text_of("examples/lost_sum.agc").split("\n"), f"{EXAMPLES}/lost_sum.feed"
        without = write(f"{self.room}/no_handler.agc", "\n".join(lost[:14] + lost[18:]).encode())
        lines = [b"NOTE NOHANDLER  02,4014  ENTRY  T3RUPT             STEP 18 CYCLES 33 TIMES 1\n", b"NOTE NOWORD     02,4014  00000  TC A               STEP 19 CYCLES 34 TIMES 1\n", b"NOTE INSIDE STEP 19\n"]
        with self.subTest("an interrupt without a handler"):
            self.assertAnswer(agcws("run", "--notes", without, feed, "19"), 0, b"", b"".join(lines))
        with self.subTest("an end within an interrupt"):
            self.assertAnswer(agcws("run", "--notes", f"{EXAMPLES}/lost_sum.agc", feed, "20"), 0, b"", b"NOTE INSIDE STEP 20\n")
        waiting = write(f"{self.room}/waiting.agc", b" SETLOC 4000\nHERE TCF HERE\n")
        asked = write(f"{self.room}/waiting.feed", b"5 RUPT 10\n5 RUPT 3\n9 RUPT 3\n100 RUPT 4\n")
        lines = [b"NOTE WAITING T3RUPT STEP 7 CYCLES 5\n", b"NOTE WAITING RUPT10 STEP 6 CYCLES 5\n"]
        with self.subTest("interrupts that wait long"):
            self.assertAnswer(agcws("run", "--notes", waiting, asked, "862"), 0, b"", b"".join(lines))
        with self.subTest("interrupts that do not wait long"):
            self.assertAnswer(agcws("run", "--notes", waiting, asked, "861"), 0, b"")
        self.try_other_bank(empty)
        self.try_fixed_bank(empty)
        self.try_way_back(empty)
        self.try_not_kept()
        self.try_minus_zero(empty)
        self.try_overwritten()
        self.try_unread()
        self.try_shared()
        rope = f"{self.room}/noted.rope"
        agcws("asm", five, rope)
        with self.subTest("notes of an image"):
            self.assertAnswer(agcws("run", "--image", "--notes", rope, empty, "10"), 0, b"", note.replace(b"DV D   ", b"DV 0100"))
        with self.subTest("notes of a refused feed"):
            self.assertAnswer(agcws("run", "--notes", five, five, "4"), 1, b"", b"agcws: E30 LINE 1\n")
        for source, feed_of, steps in ((five, empty, "10"), (away, empty, "2"), (without, feed, "19"), (waiting, asked, "862"), (f"{self.room}/other.agc", empty, "7")):
            self.compare(os.path.basename(source), [], [source, feed_of], steps)
        with self.subTest("notes as JSON, and then the end"):
            self.assertAnswer(agcws("run", "--notes", "--json", "--end", five, empty, "6"), 0, b"", b'{"kind":"QUOTIENT","place":"02,4004","symbol":null,"word":"10100","text":"DV D","step":5,"cycles":13,"count":1}\nEND STEPS 6 CYCLES 14 OUTPUTS 0 Z 4005\n')
        with open("/dev/full", "wb") as full:
            ran = subprocess.run([PROGRAM, "run", "--notes", five, empty, "10"], stdout=subprocess.PIPE, stderr=full, timeout=300)
            with self.subTest("notes that cannot be told"):
                self.assertEqual((ran.returncode, ran.stdout), (3, b""))
        noted = set()
        for line in text_of("examples/runs.txt").split("\n"):
            if line and not line.startswith("#"):
                name, feed, steps = line.split()
                source = f"{EXAMPLES}/{name}.agc"
                _, out, notes = agcws("run", "--notes", source, f"{EXAMPLES}/{feed}", steps)
                with self.subTest(f"the lines of {name} with notes"):
                    self.assertEqual(out, agcws("run", source, f"{EXAMPLES}/{feed}", steps)[1])
                noted |= {name} if notes else set()
        with self.subTest("the examples that draw notes"):
            self.assertEqual(noted, {"division", "bank_sum", "instructions", "lost_sum"}, " ".join(sorted(noted)))

    def try_other_bank(self, empty):
        """An erasable symbol that is reached under another bank: TABLE stands in E3, and EB holds 4 or 3."""

        def notes(name, bank, code, steps):
            text = f" SETLOC 1400\nTABLE ERASE +3\nN EQUALS 1403\n SETLOC 4000\n CA BANK\n TS 3\n{code}BANK OCT {bank}\n"
            return agcws("run", "--notes", write(f"{self.room}/{name}.agc", text.encode()), empty, steps)

        line = b"NOTE OTHERBANK  02,4002  31403  CA 1403            STEP 3 CYCLES 6 TIMES %d\n"
        loop = "AGAIN CA TABLE +3\n TCF AGAIN\n"
        with self.subTest("another bank, once and again"):
            self.assertEqual([notes("other", 2000, loop, n) for n in ("3", "6", "7")], [(0, b"", line % n) for n in (1, 2, 3)])
        with self.subTest("no other bank"):
            self.assertEqual(notes("own", 1400, loop, "7"), (0, b"", b""))
        next_bank = loop.replace("+3", "+400")
        with self.subTest("an offset into the next bank"):
            self.assertEqual(notes("next", 2000, next_bank, "7"), (0, b"", b""))
        with self.subTest("an offset into the next bank, under the first"):
            self.assertEqual(notes("first", 1400, next_bank, "3"), (0, b"", (line % 1).replace(b"31403  CA 1403 ", b"31400  CA TABLE")))
        with self.subTest("a number, which names no bank"):
            self.assertEqual([notes("number", 2000, loop.replace("TABLE +3", it), "7") for it in ("1403", "N")], [(0, b"", b"")] * 2)
        with self.subTest("an index, which leads elsewhere"):
            self.assertEqual(notes("index", 2000, loop.replace("AGAIN", "AGAIN INDEX 7\n", 1), "7"), (0, b"", b""))
        image = f"{self.room}/other.rope"
        agcws("asm", f"{self.room}/other.agc", image)
        with self.subTest("another bank, of an image"):
            self.assertEqual(agcws("run", "--image", "--notes", image, empty, "7"), (0, b"", b""))

    def try_fixed_bank(self, empty):
        """A symbol of bank 6 that is reached while FB holds bank 5, or 6."""

        def notes(name, bank, code, steps, place="06"):
            text = f" SETLOC 4000\n CA FB\n TS 4\n{code}DONE TCF DONE\nFB OCT {bank}\n BANK 5\n TCF DONE\n BANK {place}\nSQR TCF DONE\n"
            return agcws("run", "--notes", write(f"{self.room}/{name}.agc", text.encode()), empty, steps)

        def line(what, step, cycles):
            return 0, b"", f"NOTE FIXEDBANK  {what}  STEP {step} CYCLES {cycles} TIMES 1\n".encode()

        for what, got, wanted in (
            ("by a call", notes("fb", 12000, " TC SQR\n", "3"), line("02,4002  02000  TC 2000          ", 3, 5)),
            ("by a jump", notes("fb_jump", 12000, " TCF SQR\n", "3"), line("02,4002  12000  TCF 2000         ", 3, 5)),
            ("by a constant", notes("fb_word", 12000, " CA SQR\n", "3"), line("02,4002  32000  CA 2000          ", 3, 6)),
            ("its own", notes("fb_own", 14000, " TC SQR\n", "9"), (0, b"", b"")),
            ("a number, which names none", notes("fb_number", 12000, " TC 2000\n", "9"), (0, b"", b"")),
            ("a bank that FB does not switch", notes("fb_stays", 12000, " TC SQR\n", "9", "3"), (0, b"", b"")),
            ("an index, which leads elsewhere", notes("fb_index", 12000, " INDEX 7\n CA SQR\n", "9"), (0, b"", b"")),
        ):
            with self.subTest(f"another fixed bank: {what}"):
                self.assertEqual(got, wanted)

    def try_way_back(self, empty):
        """A way back that is kept in a cell is executed there; another jump in a cell is noted."""

        def notes(name, code, steps):
            return agcws("run", "--notes", write(f"{self.room}/{name}.agc", f" SETLOC 4000\n{code}".encode()), empty, steps)

        with self.subTest("a way back in a cell"):
            self.assertEqual(notes("way_back", " TC SUB\nDONE TCF DONE\nSUB EXTEND\n QXCH 100\n TC 100\n", "9"), (0, b"", b""))
        with self.subTest("a jump in a cell"):
            jump = notes("way_on", " CA JUMP\n TS 100\n TC 100\nDONE TCF DONE\nJUMP TCF DONE\n", "4")
            self.assertEqual(jump, (0, b"", b"NOTE ERASABLE   E0,0100  14003  TCF DONE           STEP 4 CYCLES 6 TIMES 1\n"))

    def try_not_kept(self):
        """A handler that leaves A changed, and handlers that do not: lost_sum's, whose steps are counted by hand in its source; one that has set ZRUPT; and one that keeps A."""
        line = b"NOTE NOTKEPT    02,4016  50017  RESUME             STEP 21 CYCLES 39 TIMES 1\n"
        for steps, notes in (("20", b"NOTE INSIDE STEP 20\n"), ("21", line), ("60", line)):
            with self.subTest(f"a register that is not kept, in {steps} steps"):
                self.assertEqual(agcws("run", "--notes", f"{EXAMPLES}/lost_sum.agc", f"{EXAMPLES}/lost_sum.feed", steps)[2], notes)
        feed = write(f"{self.room}/key.feed", b"4 RUPT 5\n")

        def notes(name, handler):
            text = f" SETLOC 4000\n RELINT\nLOOP TCF LOOP\nONE OCT 1\nFOUR OCT 2000\nTHERE OCT 4003\n SETLOC 4024\n{handler} RESUME\n"
            return agcws("run", "--notes", write(f"{self.room}/{name}.agc", text.encode()), feed, "60")

        # the key comes after four cycles of the program, and its entry takes three
        for name, handler, place, step, cycles in (
            ("A", " CA ONE\n", "4025", 8, 11),
            ("L", " CA ONE\n LXCH 0\n", "4026", 9, 13),
            ("Q", " TC NEXT\nNEXT", "4025", 8, 10),
            ("EB", " CA FOUR\n TS 3\n CA 7\n", "4027", 10, 15),
        ):
            line = f"NOTE NOTKEPT    02,{place}  50017  RESUME             STEP {step} CYCLES {cycles} TIMES 1\n"
            with self.subTest(f"a handler that changes {name}"):
                self.assertEqual(notes(f"changed_{name}", handler), (0, b"", line.encode()))
        with self.subTest("a handler that keeps A"):
            self.assertEqual(notes("keeps", " XCH 10\n CA ONE\n XCH 10\n"), (0, b"", b""))
        with self.subTest("a handler that goes on elsewhere"):
            self.assertEqual(notes("elsewhere", " CA THERE\n TS 15\n"), (0, b"", b""))

    def try_minus_zero(self, empty):
        """CCS of -0, which 5 less 5 is: to the fourth way, which is another than that of +0, the same word, or the place to which that leads."""

        def notes(name, ways):
            text = f" SETLOC 4000\n CS FIVE\n AD FIVE\n CCS 0\n TCF MORE\n TCF ZERO\n TCF LESS\n{ways}FIVE OCT 5\n"
            return agcws("run", "--notes", write(f"{self.room}/{name}.agc", text.encode()), empty, "9")

        more, zero, less = ("MORE TCF MORE\n", "ZERO TCF ZERO\n", "LESS TCF LESS\n")
        line = b"NOTE MINUSZERO  02,4002  10000  CCS A              STEP 3 CYCLES 6 TIMES 1\n"
        with self.subTest("-0 goes the way of what is above"):
            self.assertEqual(notes("more", more + zero + less), (0, b"", line))
        with self.subTest("-0 goes where +0 is led"):
            self.assertEqual(notes("led", zero + more + less), (0, b"", b""))
        with self.subTest("-0 goes by the same word as +0"):
            self.assertEqual(notes("same", " TCF ZERO\n" + more + zero + less), (0, b"", b""))
        with self.subTest("-0 goes elsewhere by a word of its own"):
            self.assertEqual(notes("own", " TCF LESS\n" + more + zero + less), (0, b"", line))

    def try_overwritten(self):
        """Words that come on a channel at cycles 5 and 9: on 15 and 16, where an instruction has read the first or none has, and elsewhere."""
        wait, read = "LOOP TCF LOOP\n", "LOOP EXTEND\n %s 15\n TCF LOOP\n"

        def notes(name, loop, feed):
            source, inputs = write(f"{self.room}/{name}.agc", f" SETLOC 4000\n{loop}".encode()), write(f"{self.room}/{name}.feed", feed.encode())
            return agcws("run", "--notes", source, inputs, "20")[2]

        # five steps of a cycle each, the input, four more, and the second input
        line = "NOTE OVERWRITTEN  -        INPUT  CHAN 0%s 00005 ASKS KEYRUPT%s  STEP 11 CYCLES 9 TIMES %s\n"
        for channel, interrupt in (("15", "1"), ("16", "2")):
            feed = f"5 CHAN {channel} 4\n9 CHAN {channel} 5\n"
            with self.subTest(f"a key on channel {channel} that is lost"):
                self.assertEqual(notes(f"lost_{channel}", wait, feed), (line % (channel, interrupt, 1)).encode())
            with self.subTest(f"two keys on channel {channel} that are lost"):
                self.assertEqual(notes(f"both_{channel}", wait, feed + f"11 CHAN {channel} 6\n"), (line % (channel, interrupt, 2)).encode())
        feed = "5 CHAN 15 4\n9 CHAN 15 5\n"
        for instruction in ("READ", "RAND", "WAND", "ROR", "WOR", "RXOR"):
            with self.subTest(f"a key that {instruction} has read"):
                self.assertEqual(notes(instruction, read % instruction, feed), b"")
        with self.subTest("a key that WRITE has left out"):
            self.assertTrue(notes("WRITE", read % "WRITE", feed).startswith(b"NOTE OVERWRITTEN  -        INPUT  CHAN 015 00005"))
        with self.subTest("a key on each keyboard"):
            self.assertEqual(notes("each", wait, "5 CHAN 15 4\n9 CHAN 16 5\n"), b"")
        with self.subTest("words on a channel of no keyboard"):
            self.assertEqual(notes("no_key", wait, "5 CHAN 13 4\n9 CHAN 13 5\n"), b"")
        with self.subTest("another channel that is read"):
            self.assertTrue(notes("other_read", read.replace("15", "16") % "READ", feed).startswith(b"NOTE OVERWRITTEN"))

    def try_unread(self):
        """Words on a channel that no instruction reads, from 853 cycles before the end on, and one that is read; the superbank is used otherwise."""
        wait, read = " SETLOC 4000\nLOOP TCF LOOP\n", " SETLOC 4000\n EXTEND\n %s 13\nLOOP TCF LOOP\n"

        def notes(name, source, feed, steps, *options):
            files = write(f"{self.room}/{name}.agc", source.encode()), write(f"{self.room}/{name}.feed", feed.encode())
            return agcws("run", "--notes", *options, *files, steps)

        # each step is a cycle, but for the two inputs
        feed, line = "20 CHAN 13 7\n30 CHAN 13 6\n", b"NOTE UNREAD CHAN 013 CYCLES 20\n"
        with self.subTest("a word that is unread for 853 cycles"):
            self.assertEqual(notes("unread", wait, feed, "875"), (0, b"", line))
        with self.subTest("a word that is unread for 852 cycles"):
            self.assertEqual(notes("soon", wait, feed, "874"), (0, b"", b""))
        with self.subTest("an unread word as JSON"):
            self.assertEqual(notes("object", wait, feed, "875", "--json"), (0, b"", b'{"kind":"UNREAD","channel":"013","cycles":20}\n'))
        two = notes("two", wait, feed + "40 CHAN 12 7\n", "2000")
        with self.subTest("unread words on two channels"):
            self.assertEqual(two, (0, b"", b"NOTE UNREAD CHAN 012 CYCLES 40\n" + line))
        for instruction in ("READ", "RAND", "ROR", "RXOR"):
            with self.subTest(f"a channel that {instruction} has read before"):
                self.assertEqual(notes(instruction, read % instruction, feed, "2000"), (0, b"", b""))
        with self.subTest("a channel that WRITE has written"):
            self.assertEqual(notes("written", read % "WRITE", feed, "2000")[2], line)
        with self.subTest("a word on the superbank's channel"):
            self.assertEqual(notes("superbank", wait, "20 CHAN 7 0\n", "2000"), (0, b"", b""))

    def try_shared(self):
        """A program that has come by 4004, where T6RUPT enters then; one that jumps to its handler; RESUME outside of interrupts; and a program and a handler that stand apart."""

        def notes(name, text, feed, steps):
            source, inputs = write(f"{self.room}/{name}.agc", f" SETLOC 4000\n{text}".encode()), write(f"{self.room}/{name}.feed", feed.encode())
            return agcws("run", "--notes", source, inputs, steps)

        # 9 cycles up to 4004, 11 of LOOP, the input, and the entry of three
        over = " RELINT\n CA 7\n CA 7\n CA 7\n CA 7\nLOOP TCF LOOP\n"
        line = b"NOTE SHARED     02,4004  ENTRY  T6RUPT             STEP 18 CYCLES 23 TIMES 1\n"
        with self.subTest("a program over 4004"):
            self.assertEqual(notes("over", over, "20 RUPT 1\n", "30"), (0, b"", line + b"NOTE INSIDE STEP 30\n"))
        with self.subTest("a program over 4004, and no interrupt"):
            self.assertEqual(notes("over_none", over, "", "30"), (0, b"", b""))
        with self.subTest("a program over 4004, and another interrupt"):
            self.assertEqual(notes("over_other", over + " SETLOC 4014\n RESUME\n", "20 RUPT 3\n", "30"), (0, b"", b""))
        handler = " SETLOC 4024\n XCH 10\n XCH 10\n RESUME\n"
        with self.subTest("a program and a handler that stand apart"):
            self.assertEqual(notes("apart", f" RELINT\nLOOP TCF LOOP\n{handler}", "20 RUPT 5\n60 RUPT 5\n", "70"), (0, b"", b""))
        into = notes("into", f" RELINT\n CA 7\n CA 7\n TCF 4024\n{handler}", "2 RUPT 5\n", "12")
        lines = (b"NOTE SHARED     02,4024  56010  XCH ARUPT          STEP 10 CYCLES 17 TIMES 1\n", b"NOTE SHARED     02,4026  50017  RESUME             STEP 12 CYCLES 21 TIMES 1\n")
        with self.subTest("a program that jumps to its handler"):
            self.assertEqual(into, (0, b"", b"".join(lines)))
        with self.subTest("a program that jumps to a handler before an interrupt"):
            self.assertEqual(notes("before", f" TCF 4024\n{handler}", "", "3"), (0, b"", b""))
        with self.subTest("RESUME outside of interrupts"):
            self.assertEqual(notes("resumed", " RESUME\n", "", "1"), (0, b"", b"NOTE SHARED     02,4000  50017  RESUME             STEP 1 CYCLES 2 TIMES 1\n"))


if __name__ == "__main__":
    unittest.main()
