"""Tests of edits_at_tests on a repository of a small library and a small program."""
import os
import subprocess
import sys
import tempfile
import unittest

from common import ROOT
from files import write_text

RUNNER = f"{ROOT}/gate/edits_at_tests"

LIBRARY = """//! A pair.
#![tactic(auto)]

/// Two numbers.
#[derive(Drop)]
pub struct Pair {
    pub one: u8,
    pub two: u8,
}

/// A pair.
pub fn pair() -> Pair {
    Pair { one: 1, two: 2 }
}

/// Takes a pair apart.
fn all_fields(pair: &Pair) -> (&u8, &u8) {
    let Pair { one, two } = pair;
    (one, two)
}

#[cfg(test)]
mod tests {
    use super::*;

    #[test]
    fn two_fields(rt: HostRuntime) {
        let Pair { one, two } = pair();
        assert_eq!(rt; one, 1);
        assert!(rt; two > 0);
    }
}
"""

ABOVE = """//! What tries pairs.
#![tactic(auto)]

#[cfg(test)]
mod tests {
    use small::pair;

    #[test]
    fn one_is_one(rt: HostRuntime) {
        let found = pair();
        assert_eq!(rt; found.one, 1);
    }
}
"""

PROGRAM = """//! Says how it is.
#![tactic(auto)]

fn main(rt: HostRuntime) {
    let _ = println!(rt; "well");
}
"""

# Of each edit: its file, what it puts for what, its test, and what is said of it.
EDITS = {
    "two_is_three": ("small/src/lib.rt", "one: 1, two: 2", "one: 1, two: 3", "small tests::two_fields", "NOT CAUGHT"),
    "a_field_more": ("small/src/lib.rt", "pub one: u8,", "pub one: u8, pub three: u8,", "small tests::two_fields", "BAD EDIT: its test does not come to run"),
    "a_field_beside": ("small/src/lib.rt", "one: 1, two: 2", "four: 4, one: 1, two: 2", "above refuses crates/small/src/lib.rt all_fields", "BAD EDIT: its test does not come to run"),
    "one_field_more": ("small/src/lib.rt", "pub two: u8,", "pub two: u8, pub four: u8,", "above refuses crates/small/src/lib.rt all_fields", "caught, as it must be"),
    "two_is_four": ("small/src/lib.rt", "one: 1, two: 2", "one: 1, two: 4", "above refuses crates/small/src/lib.rt all_fields", "NOT CAUGHT"),
    "says_ill": ("app/src/main.rt", "well", "ill", "app", "caught, as it must be"),
    "not_there": ("app/src/main.rt", "better", "ill", "app", "BAD EDIT: an 'old:' text"),
}


def repository(room):
    os.mkdir(f"{room}/.git")
    write_text(f"{room}/crates.txt", "small:\nabove: small\napp:\n")
    write_text(f"{room}/crates/above/src/lib.rt", ABOVE)
    write_text(f"{room}/crates/small/src/lib.rt", LIBRARY)
    write_text(f"{room}/crates/app/src/main.rt", PROGRAM)
    write_text(f"{room}/crates/app/stdin", "")
    write_text(f"{room}/crates/app/stdout", "well\n")
    for name, (file, old, new, test, _) in EDITS.items():
        crate, _, path = file.partition("/")
        write_text(f"{room}/crates/{crate}/left-to-tests/{name}.edit", f"file: {path}\nwhy: a try\ntest: {test}\nold: {old}\nnew: {new}\n")


def run(room, *words, turn=0):
    return subprocess.run([sys.executable, RUNNER, *words], cwd=room, capture_output=True, text=True, check=False, env={**os.environ, "GATE_TURN": str(turn)})


class Edits(unittest.TestCase):
    def test_tells_each_edit(self):
        with tempfile.TemporaryDirectory() as room:
            repository(room)
            ran = run(room)
        for name, (file, *_, wanted) in EDITS.items():
            self.assertIn(f"edits-at-tests {file.partition('/')[0]}/{name}: {wanted}", ran.stdout, ran.stdout + ran.stderr)
        self.assertEqual((ran.stdout.split("\n")[-2], ran.returncode), ("2 passed, 5 failed", 1), ran.stdout + ran.stderr)

    def test_each_fifth_by_turns(self):
        with tempfile.TemporaryDirectory() as room:
            repository(room)
            for turn, wanted in ((0, {"app/not_there", "small/two_is_four"}), (6, {"app/says_ill", "small/two_is_three"}), (4, {"small/one_field_more"})):
                with self.subTest(turn=turn):
                    told = run(room, "--turn", turn=turn).stdout
                    self.assertEqual({it.split()[1].rstrip(":") for it in told.split("\n") if it.startswith("edits-at-tests ")}, wanted, told)

    def test_reads_alone(self):
        with tempfile.TemporaryDirectory() as room:
            repository(room)
            write_text(f"{room}/crates/small/wrong-edits/says_ill.edit", "")
            ran = run(room, "--read")
        self.assertIn("app/not_there: BAD EDIT: an 'old:' text", ran.stdout)
        self.assertIn("app/says_ill: BAD EDIT: crates/small/wrong-edits/says_ill.edit has its name", ran.stdout)
        self.assertEqual((ran.stdout.split("\n")[-2], ran.returncode), ("5 passed, 2 failed", 1), ran.stdout + ran.stderr)


if __name__ == "__main__":
    unittest.main()
