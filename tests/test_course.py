"""Runs the exercises of the course: each model solution passes its tests, and of each wrong one the tool that the lesson names tells what is wrong."""
import os
import re
import shutil
import subprocess
import tempfile
import unittest

from common import EXAMPLES, PROGRAM, Case

# Of each wrong solution, by lesson: a call of the program, or what is asked in a session after the run or after a shorter one, and what stands in the reply.
TOLD = {
    1: [("run", "CH 010 00025"), ("check", "W1"), ("check", "E23")],
    2: [("check", "E25"), ("run 5, why CH10", "BY 3 XCH CHANGE : A 000000"), ("why CHANGE", "CA PRICE")],
    3: [("why CH10", "SUM 00012"), ("cover", ""), ("trace", "COUNT=00010")],
    4: [("why GUARD index", "TS BUFFER +4 : GUARD"), ("why BUFFER +1", "CA TABLE :"), ("why BUFFER", "CA TABLE +2")],
    5: [("notes", "ERASABLE"), ("notes", "ERASABLE"), ("notes", "ERASABLE")],
    6: [("notes", "SKIP"), ("why CH10 index", "CA LIMITS -1"), ("why CH10", "CA 4026")],
    7: [("check", "E23"), ("check", "W3"), ("trace", "ADS SUM +1")],
    8: [("why CH10", "MP HEIGHT"), ("notes", "QUOTIENT"), ("why AREA", "MP WIDTH")],
    9: [("notes", "FIXEDBANK"), ("notes", "OTHERBANK"), ("notes", "OTHERBANK")],
    10: [("why SUM", "IN STEP"), ("notes", "INSIDE"), ("notes", "NOHANDLER")],
    11: [("why TIME3", "00005"), ("notes", "WAITING T3RUPT"), ("why TIME3", "TIME3 PINC")],
    12: [("why CH10", "RELAYS"), ("trace", "CA RELAYS +20"), ("why CH10 index", "FROM DIGIT 00000")],
}


def word_of(text):
    """A word as a person states it: octal, or with a sign decimal."""
    if text[0] in "+-":
        size = int(text[1:])
        return f"{size if text[0] == '+' else 0o77777 - size:05o}"
    return text.zfill(5)


def stated(text):
    """A word of a text of tests: octal, or decimal with D after it."""
    if not text.endswith("D"):
        return text.zfill(5)
    return word_of(text[:-1] if text[0] == "-" else f"+{text[:-1]}")


def claims_of(text):
    """The steps of a text of tests, and the words that each channel has to get and no more."""
    wanted = {channel: list(map(stated, words.split())) for channel, words in re.findall(r"^ +CHANNEL (\S+) (.*) THEN NOTHING$", text, re.M)}
    return int(re.search(r"^STEPS +(\d+)$", text, re.M)[1]), wanted


def test_of(text):
    """The steps of an exercise, the words that each channel has to get, and whether there may be a note."""
    steps, wanted, may_note = 0, {}, True
    for line in text.splitlines():
        head, *rest = line.split()
        if head == "steps":
            steps = int(rest[0])
        elif head == "out":
            wanted.setdefault(rest[0], []).append(word_of(rest[1]))
        elif head == "notes":
            may_note = False
    return steps, wanted, may_note


class Exercise:
    """An exercise: its folder, its feed and its test."""

    def __init__(self, folder):
        self.folder = folder
        feed = f"{folder}/exercise.feed"
        self.feed = feed if os.path.exists(feed) else os.devnull
        with open(f"{folder}/exercise.test", encoding="utf-8") as file:
            self.steps, self.wanted, self.may_note = test_of(file.read())

    def call(self, *words, given=""):
        ran = subprocess.run([PROGRAM, *words], input=given, capture_output=True, text=True, timeout=300)
        return ran.stdout, ran.stderr

    def passes(self, source):
        """Whether a solution puts out what is wanted and no more, without a note."""
        out, said = self.call("run", "--notes", source, self.feed, str(self.steps))
        words = {}
        for channel, word in re.findall(r"^\d+ CH (\d+) (\d+)$", out, re.M):
            words.setdefault(channel, []).append(word)
        return words == self.wanted and (self.may_note or not said)

    def judged(self, source):
        """The exit code of `agcws expect`, and what it tells, where a solution is my.agc in the folder of the exercise."""
        with tempfile.TemporaryDirectory() as room:
            for name in ("exercise.expect", "exercise.feed"):
                if os.path.exists(f"{self.folder}/{name}"):
                    shutil.copy(f"{self.folder}/{name}", room)
            shutil.copy(source, f"{room}/my.agc")
            ran = subprocess.run([PROGRAM, "expect", f"{room}/exercise.expect"], capture_output=True, text=True, timeout=300)
        return ran.returncode, ran.stdout + ran.stderr

    def told(self, tool, source):
        """What a tool tells of a solution."""
        steps = str(self.steps)
        if tool == "check":
            return "".join(self.call("check", source))
        if tool == "notes":
            return "".join(self.call("run", "--notes", source, self.feed, steps))
        if tool in ("run", "trace", "cover"):
            return "".join(self.call(tool, source, self.feed, steps))
        first, _, last = tool.rpartition(", ")
        return "".join(self.call("debug", "--extended", source, self.feed, given=f"{first or f'run {steps}'}\n{last}\nquit\n"))


class Course(Case):
    """Exercises, each with its model solution and its wrong ones."""

    def test_exercises(self):
        """Tries each exercise."""
        for lesson, tools in TOLD.items():
            it = Exercise(f"{EXAMPLES}/course/{lesson:02}")
            with self.subTest(f"the model solution of lesson {lesson} passes"):
                self.assertTrue(it.passes(f"{it.folder}/model.agc"))
            status, said = it.judged(f"{it.folder}/model.agc")
            with self.subTest(f"expect passes the model solution of lesson {lesson}"):
                self.assertTrue(status == 0 and "FAIL" not in said, said)
            with open(f"{it.folder}/exercise.expect", encoding="utf-8") as file:
                with self.subTest(f"both tests of lesson {lesson} want the same"):
                    self.assertEqual(claims_of(file.read()), (it.steps, it.wanted))
            for number, (tool, wanted) in enumerate(tools, 1):
                source = f"{it.folder}/wrong_{number}.agc"
                said = it.told(tool, source)
                with self.subTest(f"{tool} tells of wrong solution {number} of lesson {lesson}"):
                    self.assertIn(wanted, said, said[:2000])
                with self.subTest(f"wrong solution {number} of lesson {lesson} fails"):
                    self.assertTrue(tool == "check" or not it.passes(source))
                status, said = it.judged(source)
                with self.subTest(f"expect does not pass wrong solution {number} of lesson {lesson}"):
                    self.assertTrue(tool == "check" or status == 1, said)


if __name__ == "__main__":
    unittest.main()
