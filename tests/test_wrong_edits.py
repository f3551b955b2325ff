"""Tests of wrong_edits on a repository of one small crate, and of its record."""
import contextlib
import importlib.machinery
import importlib.util
import json
import os
import shutil
import subprocess
import sys
import tempfile
import unittest
from unittest import mock

from common import ROOT
import refusals
import toolchain
import trial
from files import write_text

RUNNER = f"{ROOT}/gate/wrong_edits"
loader = importlib.machinery.SourceFileLoader("wrong_edits", RUNNER)
runner = importlib.util.module_from_spec(importlib.util.spec_from_loader("wrong_edits", loader))
loader.exec_module(runner)

SOURCE = """//! Small sums.
#![tactic(auto)]

ghost use Rattle.std.specs.Prelude.{◌≡◌, ◌+◌, ◌<◌};

/// One more.
pub fn one_more(x: u8) -> u16
    ensures { result ≡ x + 1 }
{
    u16::from(x) + ONE
}

/// Two more.
pub fn two_more(x: u8) -> u16
    ensures { result ≡ x + 2 }
{
    one_more(x) + 1
}

/// Some number.
pub fn some_number(x: u8) -> u16
    ensures { result < 300 }
{
    u16::from(x) + 7
}

/// The other way round.
pub fn sum(x: u8, y: u8) -> u16
    ensures { result ≡ x + y }
{
    u16::from(x) + u16::from(y)
}

const ONE: u16 = 1;
"""

HARMLESS = ("    u16::from(x) + u16::from(y)", "    u16::from(y) + u16::from(x)")

# what each edit puts for what, and what is said of it
EDITS = {
    "one_more_adds_two": ("    u16::from(x) + ONE", "    u16::from(x) + ONE + ONE", "small::one_more is refused, as it must be: no proof"),
    "two_more_adds_one": ("    one_more(x) + 1", "    one_more(x)", "small::two_more_two_more_adds_one is refused, as it must be: no proof"),
    "one_is_two": ("const ONE: u16 = 1;", "const ONE: u16 = 2;", "small::one_more is refused, as it must be: no proof"),
    "two_more_adds_three": ("    one_more(x) + 1", "    one_more(x) + 2", "small::two_more_two_more_adds_three is refused, as it must be: no proof"),
    "two_more_adds_nine": ("    one_more(x) + 1", "    one_more(x) + 8", "small::two_more_two_more_adds_nine is refused, as it must be: no proof"),
    "some_number_adds_eight": ("    u16::from(x) + 7", "    u16::from(x) + 8", "NOT REFUSED: small::some_number_some_number_adds_eight is still proved"),
    "some_number_adds_nine": ("    u16::from(x) + 7", "    u16::from(x) + 9", "NOT REFUSED: small::some_number_some_number_adds_nine is still proved"),
    "some_number_adds_ten": ("    u16::from(x) + 7", "    u16::from(x) + 10", "NOT REFUSED: small::some_number_some_number_adds_ten is still proved"),
    "contract_is_weak": (
        "    ensures { result ≡ x + 1 }",
        "    ensures { x < result }",
        "NOT REFUSED: small::one_more is still proved",
    ),
    "stands_beside_harmless": (*HARMLESS[:1], "    u16::from(x)", "BAD EDIT: it cannot be tried beside harmless.edit"),
    "text_is_not_there": ("    three_more(x)", "    one_more(x)", "BAD EDIT: an 'old:' text is in src/lib.rt 0 times"),
    "text_is_there_twice": ("ONE", "TWO", "BAD EDIT: an 'old:' text is in src/lib.rt 2 times"),
    "brace_is_lost": ("    u16::from(x) + 7", "    { u16::from(x) + 7", "BAD EDIT: no contract was tried: src/lib.rt:"),
}


def edit_text(old, new, path="src/lib.rt"):
    return f"file: {path}\nold: {old}\nnew: {new}\n"


def repository(room, edits, harmless=HARMLESS):
    """Writes a repository of one crate with these edits."""
    os.mkdir(f"{room}/.git")
    write_text(f"{room}/crates.txt", "small:\n")
    write_text(f"{room}/crates/small/src/lib.rt", SOURCE)
    for name, (old, new, *_) in {"harmless": harmless, **edits}.items():
        write_text(f"{room}/crates/small/wrong-edits/{name}.edit", edit_text(old, new))


def run(room, *words, **environment):
    return subprocess.run([sys.executable, RUNNER, *words], cwd=room, capture_output=True, text=True, check=False, env={**os.environ, **environment})


class WholeRuns(unittest.TestCase):
    def test_tells_each_edit(self):
        with tempfile.TemporaryDirectory() as room:
            repository(room, EDITS)
            ran = run(room, *EDITS)
        for name, (_, _, wanted) in EDITS.items():
            self.assertIn(f"wrong-edits small/{name}: {wanted}", ran.stdout)
        self.assertEqual((ran.stdout.split("\n")[-2], ran.returncode), ("5 passed, 8 failed", 1), ran.stdout + ran.stderr)

    def test_harmless_edit_must_stay_proved(self):
        with tempfile.TemporaryDirectory() as room:
            name = "one_more_adds_two"
            repository(room, {name: EDITS[name]}, harmless=("    u16::from(x) + u16::from(y)", "    u16::from(x)"))
            ran = run(room, "small")
        self.assertIn(f"small/harmless: NOT PROVED beside {name}", ran.stdout)
        self.assertEqual((ran.stdout.split("\n")[-2], ran.returncode), ("0 passed, 2 failed", 1), ran.stdout + ran.stderr)

    def test_harmless_edit_must_be_there_and_in_a_function(self):
        for harmless, wanted in ((None, "there is no such file"), (EDITS["one_is_two"][:2], "it stands outside the functions")):
            with tempfile.TemporaryDirectory() as room:
                repository(room, {"one_more_adds_two": EDITS["one_more_adds_two"]}, harmless=harmless or HARMLESS)
                if not harmless:
                    os.remove(f"{room}/crates/small/wrong-edits/harmless.edit")
                ran = run(room)
            self.assertIn(f"small/harmless: BAD EDIT: {wanted}", ran.stdout)
            self.assertEqual((ran.stdout.split("\n")[-2], ran.returncode), ("0 passed, 2 failed", 1), ran.stdout + ran.stderr)

    def test_no_check_is_begun_once_the_time_is_up(self):
        with tempfile.TemporaryDirectory() as room:
            repository(room, {name: EDITS[name] for name in ("one_more_adds_two", "text_is_not_there")})
            ran = run(room, GATE_UNTIL="0")
        self.assertIn("small: 0 of 2 wrong edits refused in 0 checks; 1 were not tried, since the time was up", ran.stdout)
        self.assertEqual((ran.stdout.split("\n")[-2], ran.returncode), ("0 passed, 1 failed", 1), ran.stdout + ran.stderr)

    def test_reads_alone(self):
        with tempfile.TemporaryDirectory() as room:
            repository(room, EDITS)
            ran = run(room, "--read")
        beside = f"wrong-edits small/stands_beside_harmless: {trial.BESIDE}"
        said = [beside, *(f"wrong-edits small/{it}: {EDITS[it][2]}, and not once" for it in ("text_is_not_there", "text_is_there_twice"))]
        self.assertEqual(ran.stdout, "\n".join([*said, "wrong-edits to be tried: 13 of small", "11 passed, 3 failed", ""]))

    def test_names_that_stand_twice_and_edits_of_must_fail_are_read(self):
        with tempfile.TemporaryDirectory() as room:
            repository(room, {"one_more_adds_two": EDITS["one_more_adds_two"]})
            write_text(f"{room}/crates/small/must-fail/one_more_adds_two.edit", edit_text("    three_more(x)", "    one_more(x)"))
            ran = run(room, "--read")
        self.assertIn("small/must-fail/one_more_adds_two.edit: BAD EDIT: an 'old:' text is in src/lib.rt 0 times", ran.stdout)
        self.assertIn("one_more_adds_two: BAD EDIT: 2 edits have this name", ran.stdout)
        self.assertEqual((ran.stdout.split("\n")[-2], ran.returncode), ("2 passed, 2 failed", 1))

    def test_unknown_word_is_told(self):
        with tempfile.TemporaryDirectory() as room:
            repository(room, {})
            ran = run(room, "no_such_edit")
        self.assertEqual((ran.stderr, ran.returncode), ("wrong_edits: there is no crate or edit no_such_edit\n", 1))

    def test_file_that_is_no_edit_is_told(self):
        with tempfile.TemporaryDirectory() as room:
            repository(room, {})
            write_text(f"{room}/crates/small/wrong-edits/one.edits", "")
            ran = run(room)
        self.assertIn("small/wrong-edits/one.edits is no edit", ran.stderr)
        self.assertEqual(ran.returncode, 1)


class Records(unittest.TestCase):
    """The record of a repository of one crate, of which one edit is refused and one is not."""

    edits = {it: EDITS[it] for it in ("one_more_adds_two", "some_number_adds_eight")}

    def setUp(self):
        self.room = self.enterContext(tempfile.TemporaryDirectory())
        repository(self.room, self.edits)

    def forget(self):
        """Leaves of earlier runs the record alone, as a fresh clone has it."""
        shutil.rmtree(f"{self.room}/out")

    def record(self):
        with open(f"{self.room}/gate/refused.json", encoding="utf-8") as it:
            return json.load(it)

    def put_on_record(self):
        os.makedirs(f"{self.room}/gate", exist_ok=True)
        ran = run(self.room, "--all", "--record")
        self.assertIn("wrong-edits tried and refused 1; on record 0; failed 1\n1 passed, 1 failed\n", ran.stdout, ran.stderr)
        self.forget()

    def chosen(self, *words, turns=()):
        """What a run tries and leaves, with some groups of crates by turns, of which the first is today's."""
        given = mock.Mock(all=False, words=words, record=False)
        with contextlib.chdir(self.room), mock.patch.object(refusals, "TURNS", list(turns) or [[]]), mock.patch.dict(os.environ, GATE_TURN="0"):
            (crate,) = toolchain.crates_below(os.getcwd())
            found = runner.Chosen(crate, set(), given, runner.AtWork(1))
        return [it.name for it in found.to_try()], sorted(found.left), found.again

    def test_what_is_refused_is_on_record_and_nothing_else(self):
        self.put_on_record()
        self.assertEqual([*self.record()["small"]], ["one_more_adds_two"])
        self.assertRegex(self.record()["small"]["one_more_adds_two"], r"^[0-9a-f]{16} \d{4}-\d\d-\d\d \S+ \S+$")
        ran = run(self.room)
        self.assertRegex(ran.stdout, r"(?m)^wrong-edits tried and refused 0; on record 1, refused from \S+ to \S+; failed 1\n0 passed, 1 failed$")

    def test_what_is_on_record_is_tried_in_its_turn_and_by_its_name(self):
        self.put_on_record()
        both = ["one_more_adds_two", "some_number_adds_eight"]
        self.assertEqual(self.chosen(), (both[1:], both[:1], 0))
        self.assertEqual(self.chosen(turns=[["small"], ["other"]]), (both, [], 1))
        self.assertEqual(self.chosen(turns=[["other"], ["small"]]), (both[1:], both[:1], 0))
        self.assertEqual(self.chosen("small"), (both, [], 1))

    def test_what_has_changed_is_off_the_record(self):
        self.put_on_record()
        changes = [
            ("crates/small/src/lib.rt", SOURCE.replace("Some number", "Any number")),
            ("crates/small/wrong-edits/one_more_adds_two.edit", edit_text("    u16::from(x) + ONE", "    u16::from(x) + ONE + 2")),
            ("crates/small/wrong-edits/harmless.edit", edit_text("    u16::from(x) + 7", "    7 + u16::from(x)")),
        ]
        for path, text in changes:
            with open(f"{self.room}/{path}", encoding="utf-8") as it:
                before = it.read()
            write_text(f"{self.room}/{path}", text)
            self.assertEqual(self.chosen()[1], [], path)
            write_text(f"{self.room}/{path}", before)
        self.assertEqual(self.chosen()[1], ["one_more_adds_two"])

    def test_another_judge_or_logic_has_all_tried(self):
        self.put_on_record()
        for module, name in ((refusals, "judges"), (toolchain, "logic")):
            with mock.patch.object(module, name, lambda: "another"):
                self.assertEqual(self.chosen()[1], [], name)

    def test_the_last_crates_at_work_get_all_processors(self):
        at_work = runner.AtWork(4)
        with at_work, at_work:
            self.assertEqual(at_work.jobs(), 2)
            with at_work:
                self.assertEqual(at_work.jobs(), 1)
        self.assertEqual(at_work.jobs(), 4)

    def test_each_crate_with_edits_has_a_turn(self):
        root = os.path.dirname(os.path.dirname(RUNNER))
        with_edits = [it.name for it in toolchain.crates_below(root) if runner.edits_of(it)]
        turns = [name for it in refusals.TURNS for name in it]
        self.assertEqual(sorted(set(with_edits) - set(turns)), [])
        self.assertEqual((len(turns), len(refusals.TURNS)), (len(set(turns)), 10))


if __name__ == "__main__":
    unittest.main()
