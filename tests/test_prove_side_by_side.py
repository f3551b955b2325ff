"""Tests of prove_side_by_side: the order and the number of its proofs, and the whole on a repository of three small crates."""
import importlib.machinery
import importlib.util
import io
import os
import subprocess
import sys
import tempfile
import threading
import time
import unittest
from unittest import mock

from common import ROOT

RUNNER = f"{ROOT}/gate/prove_side_by_side"
loader = importlib.machinery.SourceFileLoader("prove_side_by_side", RUNNER)
runner = importlib.util.module_from_spec(importlib.util.spec_from_loader("prove_side_by_side", loader))
loader.exec_module(runner)

HEAD = "//! A small crate.\n#![tactic(auto)]\n\nghost use Rattle.std.specs.Prelude.{◌≡◌, ◌+◌};\n\n"
ONE_MORE = "/// One more.\npub fn one_more(x: u8) -> u16\n    ensures { result ≡ x + 1 }\n{\n    u16::from(x) + 1\n}\n"
TWO_MORE = "use low::one_more;\n\n/// Two more.\npub fn two_more(x: u8) -> u16\n    ensures { result ≡ x + 2 }\n{\n    one_more(x) + 1\n}\n"
TOP = "//! A small program.\n#![tactic(auto)]\n\nuse middle::two_more;\n\nfn main() {\n    let _sum = two_more(1);\n}\n"


class Small:
    """What prove_all asks of a crate."""

    def __init__(self, name, *deps, lines=100):
        self.name, self.deps, self.lines = name, deps, lines

    def below(self):
        found = []
        for dep in self.deps:
            found += [it for it in [*dep.below(), dep] if it not in found]
        return found

    def count(self, _):
        return self.lines


def diamond():
    low = Small("low")
    left, right = Small("left", low), Small("right", low)
    return [low, left, right, Small("top", left, right)]


class Orders(unittest.TestCase):
    def proved(self, crates, refused=(), seconds=None, processors=4, memory=10**12):
        """Proves crates by proofs that only wait: the plan, what was said, the order of begins and ends, and the most at once."""
        events, running, most = [], set(), [0]
        changing = threading.Lock()

        def prove_alone(crate, jobs, nice):
            with changing:
                running.add(crate.name)
                most[0] = max(most[0], len(running))
                events.append(("begins", crate.name, jobs, nice))
            time.sleep(0.3)
            with changing:
                running.remove(crate.name)
                events.append(("ends", crate.name))
            return crate.name not in refused, f"text of {crate.name}", 1.0

        plan = runner.Plan(crates, seconds or {it.name: 100 for it in crates}, processors, memory)
        said = io.StringIO()
        with mock.patch.object(runner, "prove_alone", prove_alone):
            used = runner.prove_all(plan, runner.Telling(plan, said))
        self.assertEqual(sorted(used), sorted(it for it, became in plan.became.items() if became != runner.LEFT))
        return plan.became, said.getvalue(), events, most[0]

    def begins(self, *given, **named):
        return {it[1]: it[2:] for it in self.proved(*given, **named)[2] if it[0] == "begins"}

    def test_each_waits_for_those_below_and_no_longer(self):
        became, said, events, most = self.proved(diamond())
        self.assertEqual(became, dict.fromkeys(["low", "left", "right", "top"], runner.PROVED))
        order = [it[:2] for it in events]
        self.assertEqual([order[:2], order[-2:]], [[("begins", "low"), ("ends", "low")], [("begins", "top"), ("ends", "top")]])
        self.assertEqual((most, said.count("\n")), (2, 4))

    def test_large_crates_get_all_processors_and_the_more_urgent_goes_first(self):
        crates = diamond()
        self.assertEqual(self.begins(crates, seconds={"low": 100, "left": 100, "right": 300, "top": 100}), {"low": (4, 0), "right": (4, 0), "left": (4, runner.NICE), "top": (4, 0)})
        self.assertEqual(self.begins(crates, processors=2)["top"], (2, 0))

    def test_no_third_large_crate_and_small_ones_with_one_job(self):
        many = [Small(f"crate{number}") for number in range(6)]
        self.assertEqual(self.proved(many)[3], 2)
        small = self.begins(many, seconds=dict.fromkeys([it.name for it in many], 10))
        self.assertEqual({it[0] for it in small.values()}, {1})
        self.assertEqual(self.proved(many, seconds=dict.fromkeys([it.name for it in many], 10))[3], 4)

    def test_what_stands_on_a_refused_crate_is_left(self):
        became, said, _, _ = self.proved(diamond(), refused=["right"])
        self.assertEqual((became["left"], became["right"], became["top"]), (runner.PROVED, runner.REFUSED, runner.LEFT))
        self.assertIn("text of right", said)
        self.assertNotIn("text of left", said)

    def test_no_more_at_once_than_memory_holds(self):
        many = [Small(f"crate{number}") for number in range(3)]
        self.assertEqual(self.proved(many, memory=7_000_000_000)[3], 1)
        self.assertEqual(self.proved(many, memory=1_000_000_000)[3], 1)
        self.assertEqual({it[0] for it in self.begins(many, memory=5_000_000_000).values()}, {2})

    def test_how_long_it_still_takes(self):
        plan = runner.Plan(diamond(), {"low": 100, "left": 100, "right": 100, "top": 300}, 4, 10**12)
        before = plan.seconds_left(1)
        plan.begin(plan.crates[0], 4)
        plan.end(plan.crates[0], runner.PROVED)
        self.assertEqual((round(before), round(plan.seconds_left(50)), round(plan.seconds_left(25))), (188, 250, 125))

    def test_the_bar_fits_the_terminal(self):
        class Terminal(io.StringIO):
            def isatty(self):
                return True

        plan, out = runner.Plan(diamond(), dict.fromkeys(["low", "left", "right", "top"], 100), 4, 10**12), Terminal()
        with mock.patch.dict(os.environ, TERM="xterm", COLUMNS="40"):
            telling = runner.Telling(plan, out)
            telling.bar()
        self.assertEqual(out.getvalue(), "\r\x1b[K[....................] 0 of 4 crates, a"[: 5 + 39 - 1])
        with mock.patch.dict(os.environ, TERM="dumb"):
            self.assertFalse(runner.Telling(plan, out).draws)


def write(path, text):
    os.makedirs(os.path.dirname(path), exist_ok=True)
    with open(path, "w", encoding="utf-8") as it:
        it.write(text)


def ran(room, *words):
    return subprocess.run([sys.executable, RUNNER, *words], cwd=room, capture_output=True, text=True, check=False)


class WholeRuns(unittest.TestCase):
    def test_refused_then_mended_then_kept(self):
        with tempfile.TemporaryDirectory() as room:
            os.mkdir(f"{room}/.git")
            write(f"{room}/crates.txt", "low:\nmiddle: low\ntop: middle\n")
            write(f"{room}/crates/low/src/lib.rt", HEAD + ONE_MORE)
            write(f"{room}/crates/middle/src/lib.rt", HEAD + TWO_MORE.replace("(x) + 1", "(x) + 2"))
            write(f"{room}/crates/top/src/main.rt", TOP)
            first = ran(room, "top")
            for wanted in ("s  low is proved (1 of 3, ", "s  middle is NOT proved (2 of 3, ", "fn middle::two_more: no proof", "not proved: top\n"):
                self.assertIn(wanted, first.stdout, first.stdout + first.stderr)
            self.assertEqual((first.returncode, "top is" in first.stdout), (1, False))
            write(f"{room}/crates/middle/src/lib.rt", HEAD + TWO_MORE)
            second = ran(room, "top")
            self.assertEqual(second.returncode, 0, second.stdout + second.stderr)
            self.assertEqual(sorted(it.split()[2] for it in second.stdout.splitlines()), ["low", "middle", "top"])
            self.assertTrue(os.access(f"{room}/crates/top/out/top", os.X_OK))
            later = subprocess.run(["rt", "check", "--jobs", "1"], cwd=f"{room}/crates/top", capture_output=True, text=True, check=False)
            self.assertRegex(later.stdout, r"(?m)^crate top: modules loaded=\d+ checked=0$")
            write(f"{room}/crates/middle/src/lib.rt", HEAD + TWO_MORE.replace("one_more(x) + 1", "one_more(x)  +  1"))
            untidy = ran(room, "middle")
            self.assertEqual((untidy.stdout.splitlines()[-1], untidy.returncode), ("not in the layout of rt fmt: middle", 1))

    def test_names_that_are_no_crates(self):
        told = ran(os.path.dirname(RUNNER), "no_such_crate")
        self.assertEqual((told.stderr, told.returncode), ("prove_side_by_side: there is no crate no_such_crate\n", 1))
        self.assertIn("usage", ran(os.path.dirname(RUNNER)).stderr)


if __name__ == "__main__":
    unittest.main()
