"""Tests of quick and passed: what they take for changed, and the whole on a repository of two small libraries, a program and tests."""
import os
import shutil
import subprocess
import sys
import tempfile
import unittest

from common import ROOT
from files import write_text

GATE = f"{ROOT}/gate"
import passed

HEAD = "//! A small crate.\n#![tactic(auto)]\n\n"
PLUS = "ghost use Rattle.std.specs.Prelude.{◌≡◌, ◌+◌};\n"
LOW = f"""{HEAD}{PLUS}ghost use Rattle.words.specs.Sums.{{more}};

/// More by the number that is the rule.
pub fn one_more(x: u8) -> u16
    ensures {{ result ≡ more x }}
{{
    u16::from(x) + 1
}}

/// The other way round.
pub fn sum(x: u8, y: u8) -> u16
    ensures {{ result ≡ x + y }}
{{
    u16::from(x) + u16::from(y)
}}
"""
SUMS = """-- Sums.
use Rattle.std.specs.Prelude.{ℕ, ◌+◌}

-- one more
abbrev pub more : ℕ → ℕ
more x = x + 1
"""
HIGH = f"""{HEAD}{PLUS}
use words::one_more;

/// Two more.
pub fn two_more(x: u8) -> u16
    ensures {{ result ≡ x + 2 }}
{{
    one_more(x) + 1
}}

/// The other way round.
pub fn sum(x: u8, y: u8) -> u16
    ensures {{ result ≡ x + y }}
{{
    u16::from(x) + u16::from(y)
}}
"""
PROGRAM = HEAD + "use workshop::two_more;\n\nfn main() {\n    let _sum = two_more(1);\n}\n"
TESTS = HEAD + """#[cfg(test)]
mod tests {
    use words::one_more;

    #[test]
    fn one_and_one(rt: HostRuntime) {
        assert_eq!(rt; one_more(1), 2);
    }
}
"""
HARMLESS = "file: src/lib.rt\nold:     u16::from(x) + u16::from(y)\nnew:     u16::from(y) + u16::from(x)\n"
TESTS_OF_PROGRAM = """import subprocess
import unittest

class Examples(unittest.TestCase):
    def test_example(self):
        self.assertEqual(subprocess.run(["crates/agcws/out/agcws"]).returncode, 0)
        self.assertEqual(open("examples/example").read(), "sound")
        self.assertNotIn("harmful", open("docs/MANUAL.md").read())
"""
TESTS_OF_OTHERS = """import unittest

class Devices(unittest.TestCase):
    def test_nothing(self):
        pass

class Sizes(Devices):
    pass
"""


def repository(room):
    """Writes a small repository with this one's scripts."""
    os.mkdir(f"{room}/.git")
    files = {
        "crates.txt": "words:\nworkshop: words\nagcws: words workshop\nlow_tests: words\n",
        "crates/words/src/lib.rt": LOW,
        "crates/words/specs/Lib.antt": "pub mod Sums\n",
        "crates/words/specs/Sums.antt": SUMS,
        "crates/workshop/src/lib.rt": HIGH,
        "crates/workshop/wrong-edits/harmless.edit": HARMLESS,
        "crates/workshop/wrong-edits/two_more_adds_one.edit": "why: one\nclause: `two_more`\nfile: src/lib.rt\nold:     one_more(x) + 1\nnew:     one_more(x)\n",
        "crates/agcws/src/main.rt": PROGRAM,
        "crates/low_tests/src/lib.rt": TESTS,
        "docs/THEOREMS.md": "| `words`: `more` |\n\n[edits](TESTING.md#wrong-edits), `crates/words`, `gate/quick`, `examples/example`\n",
        "docs/MANUAL.md": "sound",
        "examples/example": "sound",
        "tests/test_examples.py": TESTS_OF_PROGRAM,
        "tests/test_views.py": TESTS_OF_OTHERS.partition("\nclass Sizes")[0],
        "tests/test_hostile.py": TESTS_OF_OTHERS,
        "docs/TESTING.md": "## Wrong edits\n",
        "docs/ARCHITECTURE.md": "| `words` | sums | |\n| `workshop` | more sums | |\n| `agcws` | a program | |\n",
        "docs/pictures/crates.svg": "",
    }
    shutil.copytree(GATE, f"{room}/gate", ignore=shutil.ignore_patterns("test_*", "__pycache__", "*.md"))
    for path, text in files.items():
        write_text(f"{room}/{path}", text)
    run(room, "gate/crates_picture")


def run(room, *words):
    env = {**os.environ, "CI": ""}
    return subprocess.run(words or ["gate/quick"], cwd=room, capture_output=True, text=True, check=False, env=env)


def last(ran):
    return ran.stdout.split("\n")[-2]


class Bodies(unittest.TestCase):
    def test_bodies_go_and_all_else_stays(self):
        text = """use a;

impl A {
    pub fn long(
        a: u8,
    ) -> u8 {
        if a {
            gone
        }
    }

    fn plain(&self)
        ensures { kept }
    {
        gone
    }
}

trait T {
    fn none(&self)
        ensures { kept };
}

pub const fn counted() -> u8 {
    kept
}

fn small() {}

struct S {
    kept: u8,
}

fn last<T>()
where
    T: Kept,
{
    gone
}
"""
        left = passed.without_bodies(text)
        self.assertNotIn("gone", left)
        self.assertEqual(left.count("kept"), text.count("kept"))
        for line in ("    pub fn long(", "    ) -> u8 {", "    fn plain(&self)", "fn small() {}", "    T: Kept,"):
            self.assertIn(line, left.split("\n"))

    def test_body_without_an_end_stays(self):
        text = "fn f() {\n  gone\n  }\n"
        self.assertEqual(passed.without_bodies(text), text)


class WholeRuns(unittest.TestCase):
    """One repository through several changes, since its first build takes longest."""

    def setUp(self):
        self.room = tempfile.mkdtemp()
        repository(self.room)

    def tearDown(self):
        shutil.rmtree(self.room)

    def put(self, path, old, new):
        with open(f"{self.room}/{path}", encoding="utf-8") as it:
            text = it.read()
        self.assertEqual(text.count(old), 1)
        write_text(f"{self.room}/{path}", text.replace(old, new))

    def quick(self, *wanted, counts=None, others=()):
        """Runs quick: lines that it says and none that it doesn't, and how many things pass and fail."""
        ran = run(self.room)
        for it in wanted:
            self.assertIn(it, ran.stdout, ran.stderr)
        for it in others:
            self.assertNotIn(it, ran.stdout, ran.stderr)
        if counts:
            passes, fails = counts
            self.assertEqual((last(ran), ran.returncode), (f"{passes} passed, {fails} failed", int(fails > 0)), ran.stdout + ran.stderr)

    def tried(self):
        """How many wrong edits are tried, of one."""
        ran = run(self.room, "gate/wrong_edits")
        self.assertEqual(ran.returncode, 0, ran.stdout + ran.stderr)
        return last(ran)

    def test_changes_are_found_and_nothing_else_is_done(self):
        all_new = "changed: words workshop agcws; tests to run: low_tests; the program is to be built"
        # two edits read, their clauses, a row of definitions, four links and files that pages name, a picture, three crates, tests, the program's, the views', two of hostile inputs
        self.quick(all_new, "low_tests: tests passed", "not done by --quick: ", counts=(17, 0))
        nothing = "changed: no crate; tests to run: none; the program is as it was built"
        self.quick(nothing, counts=(9, 0), others=["proof passed", "tests of the program:"])
        self.assertEqual(last(run(self.room, "gate/wrong_edits", "--all")), "1 passed, 0 failed")
        self.assertEqual(self.tried(), "0 passed, 0 failed")
        self.documents_and_examples()
        self.bodies()
        self.definitions()
        self.quick("changed: no crate; tests to run: none; the program is as it was built")

    def documents_and_examples(self):
        """A wrong edit of a document, of an example, of a page that names definitions, of a heading that a link names, and of a wrong edit's text."""
        for path, old, new, said in (
            ("docs/MANUAL.md", "sound", "harmful", "tests of the program: 0 passed, 1 failed"),
            ("examples/example", "sound", "other", "tests of the program: 0 passed, 1 failed"),
            ("docs/THEOREMS.md", "`more`", "`less`", "definitions that the page of theorems names: 0 passed, 1 failed"),
            ("crates/workshop/wrong-edits/two_more_adds_one.edit", "clause: `two_more`", "clause: `two_more`, clause `none`", "the clauses that wrong edits name: 0 passed, 1 failed"),
            ("docs/ARCHITECTURE.md", "more sums", "other", "the picture of the crates: 0 passed, 1 failed"),
            ("docs/TESTING.md", "Wrong edits", "Edits", "links of the pages: 3 passed, 1 failed"),
            ("crates/workshop/wrong-edits/two_more_adds_one.edit", "(x) + 1", "(x) + 9", "wrong edits, read: 1 passed, 1 failed"),
        ):
            self.put(path, old, new)
            self.quick(said, counts=(12, 1))
            self.put(path, new, old)

        self.assertIn("| `two_more_adds_one` | one |", run(self.room, "gate/edits_page", "workshop::two_more").stdout)
        self.assertEqual(run(self.room, "gate/edits_page", "three_more").returncode, 1)
        self.assertEqual(run(self.room, "gate/what_to_read", "--counts", "docs/THEOREMS.md").stdout.split(), "1 definitions 2 lines words: more".split())

    def bodies(self):
        """A wrong edit at the top, and at the bottom; a right one at the bottom leaves what stands on it, and its edits, as they are."""
        self.put("crates/workshop/src/lib.rt", "one_more(x) + 1", "one_more(x) + 0")
        self.put("crates/workshop/wrong-edits/two_more_adds_one.edit", "old:     one_more(x) + 1", "old:     one_more(x) + 0")
        self.quick("changed: workshop; tests to run: none; the program stays as it was built", "fn workshop::two_more: no proof", others=["words: proof passed"])
        self.assertIn("to be tried: 1 of workshop", run(self.room, "gate/wrong_edits", "--read").stdout)
        self.put("crates/workshop/src/lib.rt", "one_more(x) + 0", "one_more(x) + 1")
        self.put("crates/workshop/wrong-edits/two_more_adds_one.edit", "old:     one_more(x) + 0", "old:     one_more(x) + 1")
        self.assertIn("to be tried: none", run(self.room, "gate/wrong_edits", "--read").stdout)
        self.put("crates/words/src/lib.rt", "u16::from(x) + 1", "u16::from(x) + 2")
        self.quick("fn words::one_more: no proof", "low_tests: tests LEFT")
        self.put("crates/words/src/lib.rt", "u16::from(x) + 2", "1 + u16::from(x)")
        self.quick("changed: words; tests to run: low_tests; the program stays as it was built", "words: proof passed", "the program with its new bodies", others=["workshop: proof passed", "tests of the program:"], counts=(11, 0))
        self.assertEqual(self.tried(), "0 passed, 0 failed")

    def definitions(self):
        """A definition below: what stands on it is proved again, and its edits are tried again."""
        self.put("crates/words/specs/Sums.antt", "more x = x + 1", "more x = 1 + x")
        self.quick("changed: words workshop", "workshop: proof passed")
        self.assertEqual(self.tried(), "1 passed, 0 failed")

    def test_scripts_that_change_try_all_again(self):
        for path in ("wrong_edits", "passed.py", "toolchain.py"):
            trial = "import passed\nprint(passed.Trial('k', ['a'], lambda sums, name: '', 'gate/wrong_edits').before['a'])"
            tell = lambda trial=trial: run(self.room, sys.executable, "-c", f"import sys\nsys.path.insert(0, 'gate')\n{trial}").stdout
            before = tell()
            with open(f"{self.room}/gate/{path}", "a", encoding="utf-8") as it:
                it.write("\n")
            self.assertTrue(before)
            self.assertNotEqual(before, tell())


if __name__ == "__main__":
    unittest.main()
