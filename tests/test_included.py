"""Flight sources whose lines end in CR LF, and those whose lines stand for files."""
import json
import os
import subprocess
import unittest

from common import PROGRAM, Case, read, write

# A program that puts a word out and goes on for ever, and its image by a source of one file.
MAIN = " SETLOC 4000\n$parts/out.agc # what it puts out\n TCF 4000\n$five.agc\n"
OUT = " CA FIVE\n EXTEND\n WRITE 10\n"
FIVE = "FIVE OCT 5 # a constant"
WHOLE = " SETLOC 4000\n CA FIVE\n EXTEND\n WRITE 10\n TCF 4000\nFIVE OCT 5 # a constant\n"
PLACES = ["main.agc:1", "parts/out.agc:1", "parts/out.agc:2", "parts/out.agc:3", "main.agc:3", "five.agc:1"]


class Included(Case):
    """Flight sources of several files."""

    def put(self, name, text):
        os.makedirs(os.path.dirname(f"{self.room}/tree/{name}"), exist_ok=True)
        write(f"{self.room}/tree/{name}", text if isinstance(text, bytes) else text.encode())

    def call(self, *words):
        ran = subprocess.run([PROGRAM, *words], capture_output=True, timeout=300, cwd=f"{self.room}/tree")
        return ran.returncode, ran.stdout.decode(), ran.stderr.decode()

    def asm(self, name, *options):
        return self.call("asm", "--flight", *options, name, "image.rope")

    def put_program(self):
        for name, text in (("main.agc", MAIN), ("parts/out.agc", OUT), ("five.agc", FIVE), ("whole.agc", WHOLE), ("plain.feed", "")):
            self.put(name, text)

    def test_carriage_returns(self):
        lines = [" SETLOC 4000", "HERE TCF HERE # a comment", "", "# another", " OCT 5"]
        self.put("plain.agc", "\n".join(lines) + "\n")
        status, listing, err = self.asm("plain.agc")
        self.assertEqual((status, err), (0, ""))
        image = read(f"{self.room}/tree/image.rope")
        for text in ("\r\n".join(lines) + "\r\n", "\r\n".join(lines) + "\r", "\n".join(lines[:2]) + "\r\n" + "\n".join(lines[2:])):
            self.put("crlf.agc", text)
            with self.subTest(text):
                self.assertEqual(self.asm("crlf.agc"), (0, listing, ""))
                self.assertEqual(read(f"{self.room}/tree/image.rope"), image)
                self.assertEqual(self.call("check", "--flight", "crlf.agc")[1], "0 errors, 0 warnings\n")
                self.assertTrue(self.call("asm", "crlf.agc", "image.rope")[2].startswith("agcws: E10 LINE "))
        for text, line in ((" SETLOC 4000\r\r\n", 1), (" SETLOC 4000\n A\rB\n", 2), ("\r SETLOC 4000\r\n", 1)):
            self.put("wrong.agc", text)
            with self.subTest(text):
                self.assertEqual(self.asm("wrong.agc"), (1, "", f"agcws: E10 LINE {line}\n"))

    def test_program(self):
        self.put_program()
        status, listing, err = self.asm("whole.agc")
        self.assertEqual((status, err), (0, ""))
        image = read(f"{self.room}/tree/image.rope")
        status, located, err = self.asm("main.agc")
        self.assertEqual((status, err, read(f"{self.room}/tree/image.rope")), (0, "", image))
        rows, symbols = listing[:listing.index("SYMBOLS")].splitlines(), listing[listing.index("SYMBOLS"):]
        width = max(map(len, PLACES))
        self.assertEqual(located, "".join(f"{place:>{width}}{row[5:]}\n" for place, row in zip(PLACES, rows)) + symbols)
        self.assertEqual(len(rows), len(PLACES))
        ran = [self.call("run", "--flight", name, "plain.feed", "9") for name in ("main.agc", "whole.agc")]
        self.assertEqual(ran[0], ran[1])
        self.assertIn("CH 010 00005", ran[0][1])
        self.assertEqual(self.call("compare", "--only", "--flight", "main.agc", "image.rope")[0], 0)
        uses = self.asm("main.agc", "--xref")[1]
        self.assertIn(f"# {'parts/out.agc:1':>{width}} FIVE     READ\n", uses)

    def test_paths(self):
        """A name is that of a file in the folder of the source, from wherever the source is named."""
        self.put_program()
        self.put("parts/more.agc", "$five.agc\n")
        self.put("main.agc", " SETLOC 4000\n$parts/more.agc\n")
        self.assertEqual(self.asm("main.agc")[0], 0)
        for path in (f"{self.room}/tree/main.agc", "./main.agc", "parts/../main.agc"):
            with self.subTest(path):
                self.assertEqual(self.asm(path)[0], 0)
        self.put("five.agc", "FIVE OCT 8\n")
        self.assertEqual(self.asm("./main.agc")[2], "agcws: E16 LINE ./five.agc:1\n")

    def test_image_is_no_file_of_the_source(self):
        self.put("words", " OCT 5\n")
        self.put("main.agc", " SETLOC 4000\n$words\n")
        self.assertEqual(self.call("asm", "--flight", "main.agc", "words"), (2, "", "error: SRC and ROPE are the same file\n"))
        self.assertEqual(read(f"{self.room}/tree/words"), b" OCT 5\n")

    def test_faults(self):
        self.put_program()
        self.put("five.agc", "FIVE OCT 5\nFIVE OCT 6\n CA SIX\n")
        self.put("parts/out.agc", "FIVE EQUALS 5\n TFC FIVE\n")
        self.assertEqual(self.asm("main.agc")[2], "agcws: E15 LINE parts/out.agc:2\n")
        status, told, err = self.call("check", "--flight", "main.agc")
        self.assertEqual((status, err), (1, ""))
        heads = [line.split(" error E")[0] for line in told.splitlines() if " error E" in line]
        self.assertEqual(heads, ["parts/out.agc:2:2:", "five.agc:1:1:", "five.agc:2:1:", "five.agc:3:5:"])
        self.assertIn("parts/out.agc:1 has the label FIVE already", told)
        self.assertIn("    2 |  TFC FIVE\n", told)
        status, told, err = self.call("check", "--flight", "--json", "main.agc")
        objects = [json.loads(line) for line in told.splitlines()]
        self.assertEqual((objects[0]["file"], objects[0]["line"]), ("parts/out.agc", 2))
        twice = next(it for it in objects if it.get("number") == "E14")
        self.assertEqual((twice["file"], twice["line"], twice["related"]["file"], twice["related"]["line"]), ("five.agc", 1, "parts/out.agc", 1))
        self.assertIn("parts/out.agc:1 has the label", twice["said"])

    def test_refused(self):
        self.put_program()
        for name in range(1, 10):
            self.put(f"deep{name}.agc", f"$deep{name + 1}.agc\n" if name < 9 else " OCT 5\n")
        self.put("loop.agc", " OCT 5\n$loop2.agc\n")
        self.put("loop2.agc", "$loop.agc\n")
        self.put("large.agc", "#\n" * 4_000_000)
        for name, where, words in (
            ("none.agc", "main.agc:2", "could not be opened or read"),
            ("parts", "main.agc:2", "could not be opened or read"),
            ("main.agc", "main.agc:2", "is being read already"),
            ("loop.agc", "loop2.agc:1", "is being read already"),
            ("deep1.agc", "deep8.agc:1", "more than 8 deep"),
            (f"{self.room}/tree/five.agc", "main.agc:2", "no / first"),
            ("../tree/five.agc", "main.agc:2", "no two dots"),
            ("parts/../five.agc", "main.agc:2", "no two dots"),
            ("large.agc\n$large.agc", "main.agc:3", "more than 8388608 bytes"),
        ):
            self.put("main.agc", f" SETLOC 4000\n${name}\n")
            with self.subTest(name):
                status, listing, err = self.asm("main.agc")
                first, second = err.splitlines()
                self.assertEqual((status, listing), (1, ""))
                self.assertTrue(first.startswith(f"{where}: error: ") and words in first, first)
                self.assertEqual(second, "agcws: E13 LINE 2")
                status, told, err = self.call("check", "--flight", "main.agc")
                self.assertEqual((status, err.splitlines(), told.split(": ")[:2]), (1, [first], ["main.agc:2:1", "error E13"]))
        self.put("main.agc", " SETLOC 4000\n$deep2.agc\n")
        self.assertEqual(self.asm("main.agc")[0], 0)
        self.put("main.agc", " SETLOC 4000\r\n$none.agc\r\n")
        self.assertEqual(self.asm("main.agc")[2], "main.agc:2: error: the file after $ could not be opened or read\nagcws: E13 LINE 2\n")
        self.put("main.agc", " SETLOC 4000\n$\n")
        self.assertEqual(self.asm("main.agc")[2], "agcws: E13 LINE 2\n")
        self.assertEqual(self.call("asm", "main.agc", "image.rope")[2], "agcws: E13 LINE 2\n")

    def test_tree(self):
        """Ninety files, two deep, come to the image of their text in one file; a fault in one is told by its name."""
        whole, places, main = [" SETLOC 4000"], ["main.agc:1"], [" SETLOC 4000"]
        for outer in range(9):
            name, lines = f"module{outer}.agc", [f"# Module {outer}"]
            main.append(f"${name}\t\t# pp. {outer}")
            whole.append(lines[0])
            places.append(f"{name}:1")
            for inner in range(9):
                leaf = f"module{outer}/part{inner}.agc"
                rows = [f"P{outer}{inner} DEC {outer}{inner}", "", f"\tTCF P{outer}{inner}"]
                self.put(leaf, "\r\n".join(rows) + ("\r\n" if inner % 2 else ""))
                lines.append(f"${leaf}")
                whole += rows
                places += [f"{leaf}:{number}" for number in (1, 2, 3)]
            self.put(name, "\n".join(lines) + "\n")
        self.put("main.agc", "\n".join(main) + "\n")
        self.put("whole.agc", "\n".join(whole) + "\n")
        status, listing, err = self.asm("whole.agc")
        self.assertEqual((status, err), (0, ""))
        image = read(f"{self.room}/tree/image.rope")
        status, located, err = self.asm("main.agc")
        self.assertEqual((status, err, read(f"{self.room}/tree/image.rope")), (0, "", image))
        self.assertEqual([line.split()[0] for line in located.splitlines()[:len(places)]], places)
        self.assertEqual(len(places), len(whole))
        self.put("module7/part4.agc", "P74 DEC 74\n TFC P74\n")
        self.assertEqual(self.asm("main.agc")[2], "agcws: E15 LINE module7/part4.agc:2\n")
        self.assertTrue(self.call("check", "--flight", "main.agc")[1].startswith("module7/part4.agc:2:2: error E15: "))


if __name__ == "__main__":
    unittest.main()
