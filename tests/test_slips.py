"""Tries what `agcws check` tells of one slip: each operator and each operand of a source misspelt alone draws one error; and sources, by hand, with what follows from another fault."""
import concurrent.futures
import os
import re
import subprocess
import unittest

from common import EXAMPLES, PROGRAM, Case

# Sources, a semicolon between two lines, whether they are read with --flight, and the line, the column and the number of each error that is told.
FOLLOWING = [
    # a word stands nowhere while the location is not known: after SETLOC, BANK or BLOCK with a fault, or an operator that is not known
    (" SETLOC NOSUCH; OCT 1; OCT 2; SETLOC 4000; OCT 1; SETLOC 4000; OCT 2", False, [(1, 9, 18), (7, 2, 21)]),
    (" SETLOC NOSUCH" + "; OCT 1" * 1024 + "; BANK 2; OCT 5; OCT 6", False, [(1, 9, 18)]),
    (" ZZTLOC 100;X ERASE;Y ERASE; SETLOC 4000; TS X;D TCF D", False, [(1, 2, 15)]),
    (" ZZTLOC 100; BANK; OCT 1", True, [(1, 2, 15)]),
    (" SETLOC 100; BANK 7X; BANK; OCT 1", True, [(2, 7, 16)]),
    (" SETLOC 100; BANK; OCT 1", True, [(2, 2, 16)]),
    (" ERASE; ERASE;X ERASE; SETLOC 4000; TCF X", False, [(1, 2, 25)]),
    # nor are its labels known: no E17, E18, E25 and E26 of them
    (" SETLOC 100;X ERASE; SETLOC STRT;LOOP; CA X; SETLOC 4000; TCF LOOP", False, [(3, 9, 18)]),
    (" SETLOC VARS;X; SETLOC 4000; TS X;D TCF D", False, [(1, 9, 18)]),
    (" SETLOC NOSUCH; TCF -1; CADR +1; TC NONE", False, [(1, 9, 18), (4, 5, 17)]),
    # what a line with a fault gives is known where its operator is
    ("X FROB 1;X OCT 2;D TCF D", False, [(1, 3, 15), (2, 1, 14)]),
    ("X SETLOC 4000;X OCT 1;D TC X", False, [(1, 1, 13)]),
    (" OCT 9; SETLOC 4000; OCT 1", False, [(1, 6, 16), (3, 2, 21)]),
    (" SETLOC 5776; OCT 9; OCT 1; OCT 2", False, [(2, 6, 16), (4, 2, 20)]),
    (" CA 18; CA 18; TCF -2", False, [(1, 5, 16), (2, 5, 16)]),
    (" CA 18;X TCF X -1", False, [(1, 5, 16)]),
    (" SETLOC 4000; OCT 1; SETLOC 4000; OCT 9", False, [(4, 2, 21), (4, 6, 16)]),
    (" 2DEC X;X OCT 1; SETLOC 4001; OCT 2", True, [(1, 7, 16), (4, 2, 21)]),
    (" EXTEND 5; CA X;X OCT 1", False, [(1, 9, 16), (2, 2, 24)]),
    (" SETLOC 100; CA NONE", False, [(2, 2, 22), (2, 5, 17)]),
    # a name that waits in vain is told once, but for those that wait for it above its line; and SETLOC needs a value that does not wait
    ("X EQUALS NOSUCH; CA X; TS X;D TCF D", True, [(1, 10, 18)]),
    ("X EQUALS LATER +40000;LATER EQUALS 77777; CA X", True, [(1, 10, 26)]),
    ("X EQUALS Y;Y EQUALS X;Z EQUALS X +1; CA Z", True, [(1, 10, 18)]),
    ("Y EQUALS X;X FROB 1; CA Y", True, [(2, 3, 15)]),
    ("A EQUALS B;B EQUALS NOSUCH; CA A; CA B", True, [(1, 10, 18), (2, 10, 18)]),
    ("X EQUALS NOSUCH; SETLOC X; OCT 1", True, [(1, 10, 18), (2, 9, 18)]),
    # in the order of columns, past the longest line too
    (" " * 118 + "CA      NOSUCH", False, [(1, 121, 11), (1, 127, 17)]),
]
# Operators of which no operand is wrong.
TAKE_ALL = ("COUNT", "COUNT*", "BNKSUM", "SUBRO", "MEMORY")


def errors_of(program, path, flight):
    words = [program, "check", *(["--flight"] if flight else []), path]
    text = subprocess.run(words, capture_output=True, text=True, timeout=300).stdout
    return [tuple(map(int, it)) for it in re.findall(rf"^{re.escape(path)}:(\d+):(\d+): error E(\d+):", text, re.M)]


def fields_of(line, flight):
    """The operator and the operand of a line, where they stand: the place of each and the text. A count is none of them."""
    found = [(it.start(), it.group()) for it in re.finditer(r"\S+", line.split("#")[0])]
    if flight and found and re.fullmatch(r"[+-]\d+D?", found[0][1]):
        found = found[1:]
    elif found and found[0][0] == 0:
        found = found[1:]
    return found[:2]


def slips(text, flight):
    """Each operator and each operand of a source, with its line, and the source where `ZZ` stands for its first two characters."""
    lines = text.split("\n")
    for i, line in enumerate(lines):
        fields = fields_of(line, flight)
        for k, (start, field) in enumerate(fields):
            if k == 0 or fields[0][1] not in TAKE_ALL:
                wrong = line[:start] + ("ZZ" + field[2:])[: max(2, min(len(field), 8))] + line[start + len(field) :]
                yield i + 1, field, "\n".join([*lines[:i], wrong, *lines[i + 1 :]])


class Slips(Case):
    """Errors of slips."""

    def test_slips(self):
        def errors_in(number, text, flight):
            path = f"{self.room}/slip{number}.agc"
            with open(path, "w", encoding="utf-8") as file:
                file.write(text)
            found = errors_of(PROGRAM, path, flight)
            os.remove(path)
            return found

        with concurrent.futures.ThreadPoolExecutor(os.cpu_count()) as pool:
            for number, (source, flight, wanted) in enumerate(FOLLOWING):
                got = errors_in(number, source.replace(";", "\n") + "\n", flight)
                with self.subTest(f"errors of {source[:60].strip()}"):
                    self.assertEqual(got, wanted)
            for folder, flight in (("", False), ("flight/", True)):
                for name in sorted(it for it in os.listdir(f"{EXAMPLES}/{folder}") if it.endswith(".agc")):
                    with open(f"{EXAMPLES}/{folder}{name}", encoding="utf-8") as file:
                        tried = list(slips(file.read(), flight))
                    found = pool.map(lambda it: errors_in(f"{it[0]}", it[1][2], flight), enumerate(tried))
                    wrong = [(line, field, got) for (line, field, _), got in zip(tried, found) if len(got) != 1]
                    with self.subTest(f"each of {len(tried)} slips in {folder}{name} draws one error"):
                        self.assertTrue(tried and not wrong, f"{len(wrong)} do not: {wrong[:3]}")


if __name__ == "__main__":
    unittest.main()
