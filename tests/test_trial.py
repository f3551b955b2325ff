"""Tests of what tries and judges wrong edits, trial.py and copies.py, on texts."""
import unittest

import common
import copies
import trial


def edit_text(old, new, path="src/lib.rt"):
    return f"file: {path}\nold: {old}\nnew: {new}\n"


def edit_of(name, *functions, apart=()):
    return trial.Edit(name, edit_text(name, name.upper()), set(functions), set(apart))


class Functions(unittest.TestCase):
    def test_paths_of_functions_methods_and_impls(self):
        text = """pub(crate) const fn plain() {}

pub struct Here;

impl Here {
    pub fn new() -> Here
        ensures { result ≡ here }
    {
        if a {
            b
        }
    }
}

impl<'a, R: Files> io::Write for LazyFile<'a, R> {
    fn write(&mut self) {
        one
    }
}

impl Read for &[u8] {
    fn read(&mut self) {}
}

impl From<Far> for Here {
    fn from(far: Far) -> Here {
        three
    }
}

impl<T> Elsewhere<T> {
    fn far(self) {
        two
    }
}

fn last()
{}
"""
        homes = trial.homes_of("c", {"src/there.rt": "pub enum Elsewhere<T> {\n", "src/deep/here.rt": text})
        self.assertEqual(homes, {"Elsewhere": "c::there", "Here": "c::deep::here"})
        found = dict(zip(text.split("\n"), trial.functions_in("c", "src/deep/here.rt", text, homes)))
        wanted = {
            "pub(crate) const fn plain() {}": "c::deep::here::plain",
            "            b": "c::deep::here::Here::new",
            "        one": "c::deep::here::LazyFileWrite::write",
            "    fn read(&mut self) {}": "c::deep::here::RefSliceU8Read::read",
            "        three": "c::deep::here::HereFromFar::from",
            "        two": "c::there::Elsewhere::far",
            "{}": "c::deep::here::last",
            "pub struct Here;": trial.OUTSIDE,
            "impl<T> Elsewhere<T> {": trial.OUTSIDE,
        }
        self.assertEqual({it: found[it] for it in wanted}, wanted)

    def test_changed_functions_are_those_of_the_changed_lines(self):
        pristine = {"src/lib.rt": "fn f() {\n    a\n}\n\nfn g() {\n    b\n}\n\nconst C: u8 = 1;\n"}
        of = lambda old, new: trial.changed_functions("c", pristine, {"src/lib.rt": pristine["src/lib.rt"].replace(old, new)})
        self.assertEqual(of("    a\n", "    x\n"), {"c::f"})
        self.assertEqual(of("    b\n", "    x\n    b\n"), {"c::g"})
        self.assertEqual(of("    b\n", ""), {"c::g"})
        self.assertEqual(of("1", "2"), {trial.OUTSIDE})


class Batches(unittest.TestCase):
    pristine = {"src/lib.rt": "one two three four harm"}
    harmless = edit_of("harm", "h")

    def names(self, *edits):
        return [it.name for it in trial.next_batch(edits, self.harmless, self.pristine)[0]]

    def test_edits_of_one_function_are_apart(self):
        self.assertEqual(self.names(edit_of("one", "f"), edit_of("two", "f"), edit_of("three", "g")), ["one", "three"])
        self.assertEqual(self.names(edit_of("one", "h"), edit_of("two", "f")), ["two"])

    def test_edit_outside_functions_is_alone(self):
        outside = edit_of("one", trial.OUTSIDE)
        self.assertEqual(self.names(outside, edit_of("two", "f")), ["one"])
        self.assertEqual(self.names(edit_of("two", "f"), outside), ["two"])

    def test_turned_definition_is_alone(self):
        turned = edit_of("one", "laws::l")
        turned.turns = True
        self.assertEqual(self.names(turned, edit_of("two", "f")), ["one"])
        self.assertEqual(self.names(edit_of("two", "f"), turned), ["two"])

    def test_edit_that_waited_comes_first_and_apart(self):
        waited = edit_of("two", "f", apart=["g"])
        self.assertEqual(self.names(edit_of("one", "g"), waited, edit_of("three", "k")), ["two", "three"])

    def test_all_edits_of_a_batch_and_the_harmless_one_are_applied(self):
        texts = trial.next_batch([edit_of("one", "f"), edit_of("three", "g")], self.harmless, self.pristine)[1]
        self.assertEqual(texts, {"src/lib.rt": "ONE two THREE four HARM"})

    def test_edit_that_does_not_apply_beside_another_waits(self):
        other = trial.Edit("x", edit_text("two", "one"), {"g"})
        self.assertEqual(self.names(other, edit_of("one", "f")), ["x"])

    def test_edit_of_several_pairs_and_files(self):
        text = "file: src/lib.rt\nold: one\nnew: 1\nold: 1 two\nnew: 12\nfile: src/b.rt\nold: b\nnew: c\n"
        texts, why = trial.apply(text, {**self.pristine, "src/b.rt": "b"}, {})
        self.assertEqual((texts, why), ({"src/lib.rt": "12 three four harm", "src/b.rt": "c"}, None))


COPIED = """//! A file.

pub struct Here;

impl Here {
    /// One.
    #[tactic(auto)]
    pub fn one(&self) -> u8
        ensures { result ≡ one }
    {
        1
    }
}

impl Read for Here {
    fn read(&mut self) {
        self.one();
    }
}

/// Two.
fn two(n: u8) -> u8 {
    if n == 0 { 0 } else { two(n - 1) }
}

fn three() -> u8 {
    3
}
"""


class Copies(unittest.TestCase):
    def owners(self, text, file="src/a.rt"):
        return trial.functions_in("c", file, text, trial.homes_of("c", {file: text}))

    def copies_of(self, old, new, word="wrong"):
        return copies.copies_of(word, "src/a.rt", COPIED, COPIED.replace(old, new), self.owners)

    def test_function_with_its_edit_and_without(self):
        control, copy = self.copies_of("        1\n", "        2\n")
        self.assertEqual((control.path, copy.path), ("c::a::Here::one_as_it_is", "c::a::Here::one_wrong"))
        self.assertEqual(copy.lines[:3], ("    /// One.", "    #[tactic(auto)]", "    pub fn one_wrong(&self) -> u8"))
        self.assertEqual((control.lines[5], copy.lines[5]), ("        1", "        2"))
        text = copies.with_copies({}, {"src/a.rt": COPIED}, [control, copy], lambda file, text: self.owners(text, file))["src/a.rt"]
        self.assertIn("    }\n\n    /// One.\n    #[tactic(auto)]\n    pub fn one_wrong", text)
        self.assertEqual({copy.path, control.path, copy.function} - set(self.owners(text)), set())
        self.assertEqual([it for it in COPIED.split("\n") if it not in text.split("\n")], [])

    def test_no_copy_where_it_would_show_something_else(self):
        in_a_trait = self.copies_of("self.one();", "self.two();")
        naming_itself = self.copies_of("{ 0 }", "{ 1 }")
        two_functions = copies.copies_of("wrong", "src/a.rt", COPIED, COPIED.replace("    3", "    4").replace("        1\n", "        2\n"), self.owners)
        beside_it = copies.copies_of("wrong", "src/a.rt", COPIED, COPIED.replace("    3", "    4").replace("//! A", "//! B"), self.owners)
        self.assertEqual([in_a_trait, naming_itself, two_functions, beside_it], [None] * 4)
        self.assertIsNotNone(self.copies_of("    3", "    4"))

    def test_proof_files_are_copied_under_the_path_of_the_copy(self):
        copy = copies.Copy("src/a.rt", "c::a::Here::one", "c::a::Here::one_wrong", ())
        files = {"proofs/a/Here/one/Answers.antt": "use Rattle.c.proofs.a.Here.one.Goals as goal\nuse Rattle.c.proofs.a.Here.one_more.Goals", "proofs/a/Here/one_more/Answers.antt": ""}
        wanted = "use Rattle.c.proofs.a.Here.one_wrong.Goals as goal\nuse Rattle.c.proofs.a.Here.one_more.Goals"
        self.assertEqual(copy.proofs(files), {"proofs/a/Here/one_wrong/Answers.antt": wanted})

    def test_what_copies_may_call(self):
        copy = copies.Copy("src/a.rt", "c::f", "c::f_wrong", ("fn f_wrong() {", "    g()", "}"))
        sources = [("f", "    g()"), ("g", "    h()"), ("h", "    1"), ("k", "    f()")]
        self.assertEqual(copies.reached([copy], sources), {"g", "h"})


class Judgements(unittest.TestCase):
    def judged(self, said, *functions, apart=()):
        edit = edit_of("one", *functions, apart=apart)
        trial.judge(edit, said)
        return edit

    def test_refused_at_its_own_function_or_a_closure_of_it(self):
        open_goal = "no proof: expected answers in ./proofs/f/Answers.antt; `search` did not prove `returns`"
        self.assertTrue(self.judged({"c::f": open_goal}, "c::f").is_refused)
        self.assertTrue(self.judged({"c::f": "not proved"}, "c::f").is_refused)
        self.assertTrue(self.judged({"c::m::T::f": "proved", "c::m::fn::T::f::map": open_goal}, "c::m::T::f").is_refused)
        self.assertTrue(self.judged({"c::f": "proved", "c::g": open_goal}, "c::f", "c::g").is_refused)

    def test_proof_file_that_no_longer_fits_is_told_apart(self):
        output = """./proofs/m/f/Answers.antt:23:38: error: `returns`: the two types differ
./proofs/m/f/Answers.antt:24:38: error: `other` is not in scope
./proofs/m/g/Answers.antt:3:3: error: `goal` has no `returns-then` that can be named
fn c::m::f: not proved
fn c::m::g: not proved
fn c::m::h: no proof: it calls `c::m::g`, which is not proved
"""
        said = trial.lines_in(output)
        self.assertEqual(said, {"c::m::f": "not proved", "c::m::g": trial.MISFIT, "c::m::h": "no proof: it calls `c::m::g`, which is not proved"})
        self.assertTrue(self.judged(said, "c::m::g").is_refused)
        self.assertIn(trial.MISFIT, self.judged(said, "c::m::g").why)

    def test_whole_paths_are_compared(self):
        edit = self.judged({"c::m::of": "proved", "c::n::of": "not proved", "c::m::of_word": "not proved", "c::m::fn::of_word::map": "not proved"}, "c::m::of")
        self.assertIn("NOT REFUSED: c::m::of is still proved", edit.why)

    def test_function_that_only_calls_another_waits(self):
        said = {"c::f": "no proof: it calls `c::g`, which is not proved", "c::g": "not proved; it calls `c::h`, which is not proved", "c::h": "not proved"}
        edit = self.judged(said, "c::f")
        self.assertEqual((edit.why, edit.apart), ("", {"c::g", "c::h"}))
        self.assertIn("NOT TRIED: c::f waits for c::g c::h", self.judged(said, "c::f", apart=["c::g", "c::h"]).why)

    def test_function_without_a_line_or_a_goal(self):
        self.assertIn("the check has no line of c::f", self.judged({"c::g": "not proved"}, "c::f").why)
        self.assertIn("BAD EDIT: no goal of c::f was tried", self.judged({"c::f": "no proof: antt refuses the `ghost use` item"}, "c::f").why)


if __name__ == "__main__":
    unittest.main()
