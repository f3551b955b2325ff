"""Compares the objects of `agcws check --json` with the text of the same call without --json: the text can be made anew of its objects and the files. An edit that is told as sure mends what it is told of."""
import json
import subprocess
import time
import unittest

from common import PROGRAM, Case
from test_check import SHOWN as SOURCES, SHOWN_FEEDS as FEEDS

SHOWN, WITH_FLIGHT = 120, "with --flight this is taken"


def ran(program, *words):
    it = subprocess.run([program, "check", *words], capture_output=True, timeout=300)
    return it.returncode, it.stdout, it.stderr


def objects_of(text):
    return [json.loads(it) for it in text.decode("ascii").splitlines()]


def shown(byte):
    return chr(byte) if 32 <= byte < 127 or byte == 9 else "?"


def text_of(it, lines):
    """The lines of text that an object is."""
    if it["kind"] == "total":
        return ", ".join(f"{it[kind + 's']} {kind}{'s' * (it[kind + 's'] != 1)}" for kind in ("error", "warning")) + "\n"
    if it["kind"] == "other":
        return f"{it['file']}: {it['said']}\n"
    line = lines[it["line"] - 1][:SHOWN]
    start = it["column"] - 1
    margin = "".join("\t" if byte == 9 else " " for byte in line[:start])
    carets = max(1, min(it["end"] - it["column"], len(line) - start))
    cure = "; ".join([it["cure"]] * bool(it["cure"]) + [WITH_FLIGHT] * it["flight"])
    return (
        f"{it['file']}:{it['line']}:{it['column']}: {it['kind']} {it['number']}: {it['said']}\n{it['line']:5} | {''.join(map(shown, line))}\n      | {margin}{'^' * carets}\n"
        + (f"      = {cure}\n" if cure else "")
    )


def with_edit(text, edit):
    """A text after an edit, whose columns are bytes from 1."""
    lines = text.split(b"\n")
    line = lines[edit["line"] - 1]
    lines[edit["line"] - 1] = line[: edit["column"] - 1] + edit["text"].encode() + line[edit["end"] - 1 :]
    return b"\n".join(lines)


def is_right(found, lines):
    """Whether each range lies in its line, and each place that is told besides on another line or before."""
    places = [place for it in found if "line" in it for place in (it, it["fix"], it["related"]) if place]
    return all(1 <= it["column"] <= it["end"] <= len(lines[it["line"] - 1]) + 1 for it in places)


# Sources, each with the object of its first finding, worked by hand: the row of the manual, a name that is taken, one below, a place that is taken, and an odd name.
WORKED = [
    (b"        SETLOC  4000\nSTART   CA      FIV\nFIVE    OCT     5\n", '"line":2,"column":17,"end":20,"said":"no line defines FIV","cure":"did you mean FIVE?","flight":false,"fix":{"line":2,"column":17,"end":20,"text":"FIVE","sure":true},"related":null}'),
    (b"X       OCT     1\nX       OCT     2\n", '"line":2,"column":1,"end":2,"said":"line 1 has the label X already","cure":null,"flight":false,"fix":null,"related":{"line":1,"column":1,"end":2}}'),
    (b" SETLOC SUX\n\nSUX OCT 1\n", '"line":1,"column":9,"end":12,"said":"SETLOC needs the value of SUX here, and line 3 defines it, which is below","cure":null,"flight":false,"fix":null,"related":{"line":3,"column":1,"end":4}}'),
    (b" OCT 1\n SETLOC 4000\n OCT 2\n", '"line":3,"column":2,"end":5,"said":"line 1 has a word at this place already","cure":null,"flight":false,"fix":null,"related":{"line":1,"column":2,"end":5}}'),
    (b' CADR "\n', '"line":1,"column":7,"end":8,"said":"no line defines \\"","cure":null,"flight":false,"fix":null,"related":null}'),
    (b" 2DEC .5\n", '"line":1,"column":2,"end":6,"said":"2DEC is no operator of this assembler","cure":"two words: a DEC for each","flight":true,"fix":null,"related":null}'),
]


class CheckJson(Case):
    """Objects of sources and of feeds, beside the text of the same call."""

    def compare_source(self, path, options, text):
        """Compares both of a source, and tries its edits that are sure."""
        with open(path, "wb") as file:
            file.write(text)
        lines, plain, got = text.split(b"\n"), ran(PROGRAM, *options, path), ran(PROGRAM, "--json", *options, path)
        found = objects_of(got[1])
        made = "".join(text_of(it, lines) for it in found)
        with self.subTest(f"check --json {' '.join(options)} of {text[:60]!r}"):
            self.assertTrue((got[0], got[2], made) == (plain[0], plain[2], plain[1].decode("latin-1")) and is_right(found, lines), f"{made}\n{plain[1].decode('latin-1')}")
        for it in found:
            if it.get("fix") and it["fix"]["sure"]:
                with open(path, "wb") as file:
                    file.write(with_edit(text, it["fix"]))
                left = objects_of(ran(PROGRAM, "--json", *options, path)[1])
                same = [one for one in left if "line" in one and (one["number"], one["said"]) == (it["number"], it["said"])]
                had = [one for one in found if "line" in one and (one["number"], one["said"]) == (it["number"], it["said"])]
                with self.subTest(f"the edit {it['fix']} of {text[:60]!r}"):
                    self.assertTrue(len(same) < len(had), f"{same}")

    def compare_feed(self, source, path, text):
        """Compares both of a feed."""
        with open(path, "wb") as file:
            file.write(text)
        plain, got = ran(PROGRAM, source, path), ran(PROGRAM, "--json", source, path)
        made = "".join(text_of(it, text.split(b"\n")) for it in objects_of(got[1]))
        with self.subTest(f"check --json of the feed {text[:60]!r}"):
            self.assertEqual((got[0], got[2], made), (plain[0], plain[2], plain[1].decode("latin-1")), f"{made}\n{plain[1].decode('latin-1')}")

    def test_worked_by_hand(self):
        path = f"{self.room}/worked.agc"
        for text, wanted in WORKED:
            with open(path, "wb") as file:
                file.write(text)
            first = ran(PROGRAM, "--json", path)[1].decode("ascii").split("\n")[0]
            with self.subTest(f"the first object of {text!r}"):
                self.assertTrue(first.endswith(wanted), f"wanted {wanted}, got {first}")

    def test_many_faults(self):
        """The time of a source of 65,536 faults is about that of its text."""
        path = f"{self.room}/many.agc"
        with open(path, "wb") as file:
            file.write(b" FROB X\n" * 65536)
        times = []
        for options in ([], ["--json"]):
            began = time.monotonic()
            status, text, _ = ran(PROGRAM, *options, path)
            times.append(time.monotonic() - began)
        last = text.rpartition(b"\n{")[2]
        with self.subTest("65,536 faults as objects"):
            self.assertEqual((status, text.count(b"\n"), last), (1, 65537, b'"kind":"total","errors":65536,"warnings":0}\n'), f"{status} {last}")
        with self.subTest("their time"):
            self.assertTrue(times[1] < 1 + 4 * times[0], str(times))

    def test_sources_and_feeds(self):
        """Compares both of some sources and of some feeds: each a text."""
        for text in SOURCES:
            for options in ([], ["--flight"], ["--unused"]):
                self.compare_source(f"{self.room}/found.agc", options, text)
        source = f"{self.room}/sound.agc"
        with open(source, "wb") as file:
            file.write(b" OCT 1\n")
        for text in FEEDS:
            self.compare_feed(source, f"{self.room}/found.feed", text)


if __name__ == "__main__":
    unittest.main()
