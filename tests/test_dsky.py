"""Tests of views/dsky and views/keys, and of the manual's tables of the display and keyboard."""
import os
import re
import subprocess
import unittest

from common import EXAMPLES, PROGRAM, VIEWS, text_of
import panel
from pipe import Output
from viewing import ViewCase, call

# Words by hand, from the rows of relays and the digits that examples/relay_word.agc and decimal_digits.agc tell: PROG 06 (1011 0 10101 11100), VERB 37 and
# NOUN 42, REG1 +07093, REG2 -12345 (0101 0 00011 11001, 0100 1 11011 01111, and 5 with the 6 of REG3), REG3 +67890, the lamps PROG (bit 9) and GIMBAL LOCK (bit 6)
# of row 12, and COMP ACTY, KEY REL and FLASH (bits 2, 5 and 6) of channel 011.
RELAYS = "55274 51563 44771 40025 37165 31773 24171 23557 15734 13175 05765 60440"
PICTURE = """+--------------------------+-------------------+
|                          | COMP ACTY    PROG |
|              GIMBAL LOCK |                06 |
|              PROG        | VERB FLASH   NOUN |
| KEY REL                  | 37             42 |
|                          |            +07093 |
|                          |            -12345 |
|                          |            +67890 |
+--------------------------+-------------------+
"""
# By hand: REG1 is the rows 8 (1000 0 00000 00011), 7 (0111 1 11001 11011) and 6 (0110 0 01111 11110); 37471 is 0111 1 11001 11001, which has a second 2;
# row 3 is 0011 0 11110 00000 with the 5 of REG2 alone; GIMBAL LOCK is bit 6 of row 12, COMP ACTY bit 2 of channel 011.
MADE = """\
CH 010 40003  1000 0 00000 00011  row 8: REG1:1 is 1
CH 010 37473  0111 1 11001 11011  row 7: REG1+ is on, REG1:2 is 2, REG1:3 is 3
CH 010 30776  0110 0 01111 11110  row 6: REG1- is off, REG1:4 is 4, REG1:5 is 5
CH 010 37471  0111 1 11001 11001  row 7: REG1+ is on, REG1:2 is 2, REG1:3 is 2
"""


def fields_told(text):
    """Fields as --word takes them, of what is told of a word of a row of relays."""
    parts = dict(it.split(" is ") for it in text.split(": ", 1)[1].split(", "))
    signs = {name[:-1]: name[-1] for name, value in parts.items() if value in ("on", "off") and value == "on"}
    fields = {}
    for name, value in parts.items():
        if value not in ("on", "off"):
            field = next(it for it, digits in panel.FIELDS.items() if name in digits)
            digits = fields.setdefault(field, ["_"] * len(panel.FIELDS[field]))
            digits[panel.FIELDS[field].index(name)] = "_" if value == "dark" else value
    return [(name, signs.get(name, "") + "".join(digits)) for name, digits in fields.items()]


def rows_of(text, *heads):
    """The rows of the table of a page that has these heads."""
    table = re.search(rf"^\| {' [|] '.join(map(re.escape, heads))} \|\n\|[-|]+\|\n((?:\|.*\n)+)", text, re.M)[1]
    return [[it.strip() for it in line.strip("|").split("|")] for line in table.splitlines()]


def call_program(*words):
    ran = subprocess.run([PROGRAM, *words], stdin=subprocess.DEVNULL, capture_output=True, text=True, timeout=120, check=False)
    return [*ran.stdout.splitlines(), *ran.stderr.splitlines()]


class Dsky(ViewCase):
    """Displays, keys and their tables."""

    def test_dsky(self):
        lines = [f"{100 * i} CH 010 {word}" for i, word in enumerate(RELAYS.split(), 1)] + ["85333 CH 011 00062"]
        last = f"CYCLE 85333, 1000.0 ms\n{PICTURE}"
        with self.subTest("the last picture"):
            self.assertEqual(call("dsky", "--last", given="\n".join(lines)), (0, last, ""))
        status, out, _ = call("dsky", given="\n".join([*lines, *lines[:2], "85400 CH 012 77777", "AT 8 13 4003"]))
        with self.subTest("a picture for each change"):
            self.assertTrue(status == 0 and out.count("CYCLE") == 13 and out.endswith(last), out)
        # REG2 loses its minus, REG3 has plus beside minus, PROG loses a digit (1011 0 00000 10101), NOUN has relays of no digit (11010), and other lamps come
        more = ["1 CH 010 21557", "2 CH 010 07765", "3 CH 010 54025", "4 CH 010 44772", "5 CH 010 60001", "6 CH 011 00001"]
        _, out, _ = call("dsky", "--last", given="\n".join([*lines, *more]))
        with self.subTest("signs, digits and lamps that change"):
            self.assertEqual(out.splitlines()[2:-1], [
            "|                          |              PROG |",
            "|                          |                 0 |",
            "| ISS                      | VERB         NOUN |",
            "|                          | 37             4? |",
            "|                          |            +07093 |",
            "| PRIO DISP                |             12345 |",
            "|                          |            +67890 |",
        ])
        _, out, _ = call("dsky", "--last")
        with self.subTest("nothing is lit"):
            self.assertEqual((out.splitlines()[0], set(re.findall(r"\w+", out))), ("CYCLE 0, 0.0 ms", {"CYCLE", "0", "ms", "PROG", "VERB", "NOUN"}))
        buffered = {name: value for name, value in os.environ.items() if name != "PYTHONUNBUFFERED"}
        with subprocess.Popen([f"{VIEWS}/dsky"], stdin=subprocess.PIPE, stdout=subprocess.PIPE, env=buffered) as ran:
            ran.stdin.write(b"1 CH 010 55274\n")
            ran.stdin.flush()
            with self.subTest("a picture comes as soon as its line"):
                self.assertEqual(ran.stdout.readline(), b"CYCLE 1, 0.0 ms\n")
            ran.stdin.close()

    def test_words(self):
        """Words that are made, and taken apart."""
        with self.subTest("words by hand"):
            self.assertEqual(call("dsky", "--word", "REG1", "+12345", "--explain", "37471"), (0, MADE, ""))
        _, out, _ = call("dsky", *"--word PROG 06 --word verb 37 --word NOUN 42 --word REG1 +07093 --word REG2 -12345 --word REG3 +67890".split(), "--word", "LAMPS", "prog, gimbal lock, comp acty, key rel, flash")
        with self.subTest("the words of a picture"):
            self.assertEqual([it.split()[2] for it in out.splitlines()], [*RELAYS.split(), "00062"])
        for words, wanted in [
            (["--word", "REG2", "-12345"], ["24171", "23557", "15700"]),
            (["--word", "REG1", "_____"], ["40000", "34000", "30000"]),
            (["--word", "REG1", "12___"], ["40003", "35440", "30000"]),
            (["--word", "VERB", "_7"], ["50023"]),
            (["--word", "LAMPS", "GIMBAL  LOCK"], ["60040"]),
            (["--word", "LAMPS", "COMP ACTY"], ["00002"]),
            (["--word", "LAMPS", ""], ["60000", "00000"]),
        ]:
            with self.subTest(f"the words of {words[1:]}"):
                self.assertEqual([it.split()[2] for it in call("dsky", *words)[1].splitlines()], wanted)
        for words, wanted in [
            ("37472", "row 7: REG1+ is on, REG1:2 is 2, REG1:3 is no digit (32)"),
            ("60440", "row 12, lit: GIMBAL LOCK, PROG"),
            ("60000", "row 12, lit: none"),
            ("64000", "row 13: nothing that is shown"),
            ("0", "row 0: nothing that is shown"),
            ("62 --channel 11", "lit: COMP ACTY, KEY REL, FLASH"),
        ]:
            with self.subTest(f"what {words} sets"):
                self.assertEqual(call("dsky", "--explain", *words.split())[1].strip().split("  ")[-1], wanted)
        for words, wanted in [
            (["REG1", "+1234"], "REG1 has a sign or none and five digits, _ where one is dark, and not +1234"),
            (["VERB", "+7"], "VERB has two digits, _ where one is dark, and not +7"),
            (["REG4", "12345"], "no field REG4: one of PROG, VERB, NOUN, REG1, REG2, REG3, LAMPS"),
            (["LAMPS", "STBY"], "no lamp STBY: one of PRIO DISP, NO DAP, VEL, NO ATT, ALT, GIMBAL LOCK, TRACKER, PROG, ISS, COMP ACTY, UPLINK ACTY, TEMP, KEY REL, FLASH, OPR ERR"),
        ]:
            with self.subTest(f"the word {words} is refused"):
                self.assertEqual(call("dsky", "--word", *words), (2, "", f"dsky: {wanted}\n"))
        for words in (["--explain", "8"], ["--explain", "100000"], ["--explain", "7", "--channel", "12"], ["--word", "REG1"]):
            with self.subTest(f"{words} are wrong"):
                self.assertEqual(call("dsky", *words)[:2], (2, ""))

    def test_round_trip(self):
        """Each row with all pairs of digits and each sign: the words that are made of what is told of a word are that word, and draw what it draws."""
        wrong = []
        for row, (sign, left, right) in panel.ROWS.items():
            for first in panel.CODES if left else " ":
                for second in panel.CODES if right else " ":
                    for is_on in (False, True)[: 2 if sign else 1]:
                        word = row << 11 | is_on << 10 | panel.CODES[first] << 5 | panel.CODES[second]
                        told_words = panel.Setting(0o10, word).told()
                        fields = fields_told(told_words)
                        found = [it.word for it in panel.settings_of(fields) if it.row == row]
                        drawn = panel.Display([Output(0, 0o10, word)])
                        is_drawn = all(drawn.digits[name] == digit for name, digit in ((left, first), (right, second)) if name)
                        if found != [word] or not is_drawn or is_on != (sign in drawn.signs):
                            wrong.append(f"{word:05o}: {told_words}: {fields}: {found}")
        with self.subTest("the tables round-trip"):
            self.assertFalse(wrong, "; ".join(wrong[:3]))
        for channel, first, lamps in ((0o10, 12 << 11, panel.RELAY_LAMPS), (0o11, 0, panel.LAMPS)):
            for bit, name in lamps.items():
                word = first | 1 << bit - 1
                with self.subTest(f"the lamp {name}"):
                    self.assertEqual((panel.Setting(channel, word).told().split(": ")[1].removeprefix("lit: "), panel.settings_of([("LAMPS", name)])), (name, [panel.Setting(channel, word)]))

    def test_tables(self):
        """The manual's tables, and the page's keys, are those by which the views draw and make words."""
        manual = text_of("docs/MANUAL.md")
        keys = [it for row in rows_of(manual, *["Key", "Code"] * 4) for it in zip(row[::2], row[1::2]) if it[0]]
        with self.subTest("the manual's keys"):
            self.assertEqual({name: int(code, 8) for name, code in keys}, panel.KEYS)
        digits = [it for row in rows_of(manual, *["Digit", "Relays"] * 4) for it in zip(row[::2], row[1::2]) if it[0]]
        with self.subTest("the manual's digits"):
            self.assertEqual({int(code, 8): " " if digit == "dark" else digit for digit, code in digits}, panel.DIGITS)
        rows = {int(row): tuple(it or None for it in others) for row, _, *others in rows_of(manual, "Row", "Word", "Sign", "Left digit", "Right digit")}
        with self.subTest("the manual's rows"):
            self.assertEqual(rows, panel.ROWS)
        with self.subTest("the words of the manual's rows"):
            self.assertEqual([int(it[1], 8) >> 11 for it in rows_of(manual, "Row", "Word", "Sign", "Left digit", "Right digit")], list(rows))
        lamps = [it for it in rows_of(manual, "Bit", "Row 12 of channel 010", "Channel 011")]
        with self.subTest("the manual's lamps of row 12"):
            self.assertEqual({int(bit): name for bit, name, _ in lamps if name}, panel.RELAY_LAMPS)
        with self.subTest("the manual's lamps of channel 011"):
            self.assertEqual({int(bit): name for bit, _, name in lamps if name}, panel.LAMPS)
        page = dict(re.findall(r'\["([^"]+)", "(\d\d)", \d', text_of("page/dsky.js")))
        with self.subTest("the page's keys"):
            self.assertEqual({name.replace("\\u2212", "-"): int(code, 8) for name, code in page.items()}, panel.KEYS)

    def test_keys(self):
        """Lines of a feed for keys, by the codes of the manual: V is 21, 3 is 3, 7 is 7, E is 34, 0 is 20, 1 is 1."""
        wanted = [f"{1000 + 200 * i} CHAN 015 000{code}" for i, code in enumerate("21 03 07 34 20 01 34".split())]
        status, out, err = call("keys", "V37E01E", "--from", "1000", "--every", "200")
        with self.subTest("keys"):
            self.assertEqual((status, [it.split("  # ")[0] for it in out.splitlines()], err), (0, wanted, ""))
        with self.subTest("their names"):
            self.assertEqual([it.split("  # ")[1] for it in out.splitlines()], ["VERB", "3", "7", "ENTR", "0", "1", "ENTR"])
        for spelled in ("verb 3 7 entr 0 1 enter", "v37e01e", " V 37 E 01 E"):
            with self.subTest(f"keys as {spelled!r}"):
                self.assertEqual(call("keys", spelled, "--from", "1000", "--every", "200")[1], out)
        codes = [it.split()[3] for it in call("keys", "N+-24568 9 C CLR K key rel KEYREL R RSET 1", "--channel", "16")[1].splitlines()]
        with self.subTest("all keys"):
            self.assertEqual(" ".join(codes), "00037 00032 00033 00002 00004 00005 00006 00010 00011 00036 00036 00031 00031 00031 00022 00022 00001")
        # 17777 has no bit 14, 37777 has it, and 1 and 20001 beside it the lowest bit
        with self.subTest("PRO"):
            self.assertEqual(call("keys", "PRO 5", "--every", "1000")[1], "0 CHAN 032 17777  # PRO\n500 CHAN 032 37777  # PRO is let go\n1000 CHAN 015 00005  # 5\n")
        with self.subTest("PRO with switches"):
            self.assertEqual(call("keys", "p", "--hold", "9", "--switches", "1")[1], "0 CHAN 032 00001  # PRO\n9 CHAN 032 20001  # PRO is let go\n")
        names = "0 to 9, +, -, V or VERB, N or NOUN, C or CLR, P or PRO, K or KEY REL, E or ENTR, R or RSET"
        for words, said in [
            (["V37X"], f"no key X: one of {names}"),
            ([" "], "no key"),
            (["1", "--from", "-1"], "cycles are at least 0, from key to key and while PRO is held at least 1"),
            (["1", "--every", "0"], "cycles are at least 0, from key to key and while PRO is held at least 1"),
            (["P1", "--every", "10", "--hold", "11"], "PRO is held up to the next key at most"),
            (["1", "--from", "1000000000000000"], "a feed has 65536 inputs at most, and cycles up to 999999999999999"),
            (["1" * 65537, "--every", "1"], "a feed has 65536 inputs at most, and cycles up to 999999999999999"),
            (["P", "--switches", "100000"], "a word has 15 bits"),
        ]:
            with self.subTest(f"keys {words[0][:9]} {words[1:]}"):
                self.assertEqual(call("keys", *words), (2, "", f"keys: {said}\n"))
        self.try_typed()

    def try_typed(self):
        """A feed of keys is taken by the program: key_echo writes each to channel 010, 16 cycles after it came in, as it tells by hand."""
        feed = f"{self.room}/typed.feed"
        with open(feed, "w", encoding="ascii") as file:
            file.write(call("keys", "V37E", "--from", "100", "--every", "50")[1] + call("keys", "PRO", "--from", "400")[1])
        lines = call_program("run", f"{EXAMPLES}/key_echo.agc", feed, "400")
        with self.subTest("keys that are typed"):
            self.assertEqual([it.split()[0] + " " + it.split()[3] for it in lines], ["116 00021", "166 00003", "216 00007", "266 00034"])


if __name__ == "__main__":
    unittest.main()
