"""Tries wrong edits of a crate, many in one check, and judges them by what the check says: the very function that each changes must be refused.

This file judges, with copies.py: a change of one of them has every edit tried anew (gate/refusals.py), so nothing else stands in them.

An edit has the form of those in must-fail: 'file: src/lib.rt', and then pairs 'old: TEXT', 'new: TEXT', each TEXT once in that file.
A check tries many edits. Where it can be, an edit stands in a copy of its function under another name, beside a copy of the function as it is, which has to be
proved (copies.py). All others stand in the functions themselves, those of different functions in one check, over what the checks before it have proved. A check
has to say of each edit that a function in which it stands has no proof, for a goal of its own. Where that function only calls one without a proof, the
edit goes into a later check. An edit outside the functions, as of a constant, is tried alone, and some function has to be refused.
An edit that turns a definition of specs/ has a line 'law: laws::NAME': it is tried alone, and that law has to be left without a proof.
Beside them stands harmless.edit, which changes nothing: it is in each batch, and its function has to stay proved.
"""
import collections
import dataclasses
import difflib
import os
import re
import sys
import tempfile

import toolchain
from copies import Copy, copies_of, reached, with_copies

HARMLESS = "harmless"
# From so many edits of one function on they stand in copies: a copy costs more than an edit in the function itself, and a further check more than a copy.
COPIED_FROM = 3
OUTSIDE = "outside the functions"
BESIDE = f"BAD EDIT: it cannot be tried beside {HARMLESS}.edit, which stands in the same function or on the same lines"
# Of a refusal that says little of the contract.
MISFIT = "not proved, but only because a proof file names what the edit took away"


@dataclasses.dataclass(eq=False)
class Edit:
    """An edit, the functions in which it stands, and the functions without which it has to be tried."""

    name: str
    text: str
    functions: set = dataclasses.field(default_factory=set)
    apart: set = dataclasses.field(default_factory=set)
    why: str = ""
    is_refused: bool = False
    # Its function with the edit under another name, and as it is under a third, where that can be tried in place of the function itself.
    copy: Copy = None
    control: Copy = None
    # Whether it turns a definition: then its function is a law.
    turns: bool = False

    def is_alone(self):
        """Whether no other edit stands beside it in a check."""
        return self.turns or OUTSIDE in self.functions

    def stands(self):
        """The functions by which a check tells of it."""
        return {self.copy.path} if self.copy else self.functions


def word_of(type_text):
    """Returns the name that the check gives a type or a trait: its last word, or RefSliceU8 for &[u8]."""
    plain = re.sub(r"<.*>", "", re.sub(r"'\w+ ", "", type_text)).strip()
    parts = [("Ref", "&"), ("Slice", "[")]
    before = "".join(word for word, sign in parts if sign in plain)
    last = re.findall(r"\w+", plain)[-1]
    return before + (last.capitalize() if before else last)


def trait_word_of(trait):
    """Returns the name that the check gives an implemented trait: FromFault for From<Fault>."""
    name, _, of = trait.partition("<")
    return word_of(name) + (word_of(of.removesuffix(">")) if of else "")


def module_of(crate, path):
    """Returns the module that a file of src/ is."""
    return "::".join([crate, *(it for it in path.removeprefix("src/").removesuffix(".rt").split("/") if it not in ("lib", "main", "mod"))])


def homes_of(crate, sources):
    """Returns the module in which each type of a crate is declared."""
    types = r"(?m)^(?:pub(?:\([^)]*\))? )?(?:struct|enum) (\w+)"
    return {name: module_of(crate, path) for path, text in sources.items() if path.startswith("src/") for name in re.findall(types, text)}


def functions_in(crate, path, text, homes):
    """Returns the path of the function in which each line of a file stands, as a check writes it, or OUTSIDE. The text has rt fmt's layout.
    A method has the path of its type, one of an impl of a trait the name of the type and the trait in the module of the impl, and a body
    that a trait gives the trait's."""
    module = module_of(crate, path)
    around, function, has_body, found = module, None, False, []
    for line in text.split("\n"):
        impl = re.match(r"impl\b(?:<.*?>(?= ))? ?(?:(\S.*) for )?(\S.*?)(?: where.*)? \{$", line)
        if impl:
            word = word_of(impl[2])
            around = f"{module}::{word}{trait_word_of(impl[1])}" if impl[1] else f"{homes.get(word, module)}::{word}"
        trait = re.match(r"(?:pub(?:\([^)]*\))? )?trait (\w+)", line)
        if trait:
            around = f"{module}::{trait[1]}"
        at = re.match(r"( {4})?(?:pub(?:\([^)]*\))? )?(?:const )?fn (\w+)", line)
        if at and function is None:
            function, has_body = (at[1] or "", f"{around if at[1] else module}::{at[2]}"), False
        found.append(function[1] if function else OUTSIDE)
        if function:
            has_body = has_body or line == function[0] + "{" or line.endswith(" {") and not line.lstrip().startswith(("requires", "ensures", "ghost"))
            if line in (function[0] + "}", function[0] + "{}") or at and line.endswith("{}") or not has_body and line.endswith(";"):
                function = None
        if line == "}":
            around, function = module, None
    return found


def apply(text, pristine, texts):
    """Returns these texts of a crate's files after an edit, or says why it cannot be applied. The others are pristine."""
    with tempfile.TemporaryDirectory(prefix="wrong-edits-") as room:
        for path in re.findall(r"(?m)^file: (.*?)\s*$", text):
            file = os.path.normpath(f"{room}/{path}")
            if file.startswith(f"{room}/") and path in pristine:
                os.makedirs(os.path.dirname(file), exist_ok=True)
                with open(file, "w", encoding="utf-8") as it:
                    it.write(texts.get(path, pristine[path]))
        changed, why = toolchain.edited(text, room)
    return (None, why) if why else ({**texts, **changed}, None)


def changed_functions(crate, pristine, texts):
    """Returns the functions whose lines an edit has changed."""
    found, homes = set(), homes_of(crate, pristine)
    for path, text in texts.items():
        owners = functions_in(crate, path, pristine[path], homes) if path.startswith("src/") else []
        moves = difflib.SequenceMatcher(None, pristine[path].split("\n"), text.split("\n"), autojunk=False).get_opcodes()
        for tag, first, last, _, _ in moves:
            if tag != "equal":
                found |= set(owners[first : max(last, first + 1)])
    return (found - {OUTSIDE}) or {OUTSIDE}


def next_batch(waiting, harmless, pristine):
    """Returns the edits of a batch and the texts that they make together. No two stand in one function, and an edit outside the functions is alone."""
    batch, taken, texts = [], set(harmless.functions), apply(harmless.text, pristine, {})[0]
    for edit in sorted(waiting, key=lambda it: -len(it.apart)):
        apart = edit.functions | edit.apart
        if batch and (edit.is_alone() or batch[0].is_alone()) or apart & taken or any(it.apart & edit.functions for it in batch):
            continue
        made, why = apply(edit.text, pristine, texts)
        if not why:
            batch, texts, taken = [*batch, edit], made, taken | edit.functions
    return batch, texts


def own_lines(said, function):
    """Returns what a check said of a function and of the closures in it, as of a::fn::f::map in a::f."""
    return [line for path, line in said.items() if path == function or f"{path.replace('::fn::', '::', 1)}::".startswith(f"{function}::") and "::fn::" in path]


def lines_in(output):
    """Returns what a check said of each function. That its proof file merely names what is no longer there is told apart."""
    said = dict(re.findall(r"(?m)^fn (\S+): (.*)$", output))
    for path in [it for it, line in said.items() if line == "not proved"]:
        folder = re.escape("/".join(path.split("::")[1:]))
        errors = re.findall(rf"(?m)^(?:\./)?proofs/{folder}/[^/]*:\d+:\d+: error: (.*)$", output)
        if errors and all(re.search("has no field|is not in scope|has no `|was not admitted", it) for it in errors):
            said[path] = MISFIT
    return said


def is_refusal(line):
    """Returns whether a line says that a goal of the function itself is open, or that its proof does not hold."""
    return line.startswith("no proof: expected answers in") or bool(re.match(r"not proved(?!; it (calls|waits))", line))


def is_waiting(line):
    return bool(re.match(r"(no proof: |not proved; )it (calls|waits)|no proof: the borrow checker's part .*: a call of `\S+`, which has no proof", line))


def callees(said, function):
    """Returns the functions for whose proofs a function waits, and those for which they wait."""
    found, left = set(), [function]
    while left:
        for line in own_lines(said, left.pop()):
            new = set(re.findall(r"`([^`]+)`", line)) - found if is_waiting(line) else set()
            found, left = found | new, [*left, *new]
    return found


def judge(edit, said):
    """Settles an edit by what a check said of each function; an edit that only waits for others is left as it is."""
    functions = set(said) if OUTSIDE in edit.functions else edit.stands()
    lines = {it: own_lines(said, it) for it in functions}
    told = [line for it in lines.values() for line in it]
    refused = [it for it in functions if any(map(is_refusal, lines[it]))]
    names = " ".join(sorted(functions)) if OUTSIDE not in edit.functions else "the crate"
    if refused and edit.turns:
        edit.is_refused, edit.why = True, f"{names} is left without a proof, as it must be"
    elif refused:
        edit.is_refused, edit.why = True, f"{min(refused)} is refused, as it must be: {next(filter(is_refusal, lines[min(refused)]))}"
    elif any(map(is_waiting, told)):
        waits = set().union(*(callees(said, it) for it in functions)) - functions
        if waits <= edit.apart:
            edit.why = f"NOT TRIED: {names} waits for {' '.join(sorted(waits))}"
        edit.apart |= waits
    elif not told:
        edit.why = f"BAD EDIT: the check has no line of {names}"
    elif all(it == "proved" for it in told):
        others = sorted(it for it in said if is_refusal(said[it]))
        edit.why = f"NOT REFUSED: {names} is still proved{', and another is refused: ' + others[0] if others else ''}"
    else:
        edit.why = f"BAD EDIT: no goal of {names} was tried: {next(it for it in told if it != 'proved')}"


def edits_of(crate):
    """Returns the names of a crate's edits. Any other file among them would be tried by nothing, so it ends the run."""
    folder = f"{crate.folder}/wrong-edits"
    found = sorted(os.listdir(folder)) if os.path.isdir(folder) else []
    for it in found:
        if not it.endswith(".edit"):
            sys.exit(f"wrong_edits: {crate.name}/wrong-edits/{it} is no edit: its name has to end in .edit")
    return [it.removesuffix(".edit") for it in found]


class Trial:
    """The edits of a crate, and the folder in which its checks keep their work."""

    def __init__(self, crate, names, kept, jobs=lambda: 1):
        self.crate, self.kept, self.checks, self.jobs = crate, kept, 0, jobs
        self.pristine = {}
        for file in toolchain.files_of(crate.folder):
            with open(file, encoding="utf-8") as it:
                self.pristine[os.path.relpath(file, crate.folder)] = it.read()
        self.homes = homes_of(crate.name, self.pristine)
        found = edits_of(crate)
        self.edits = [self.read(name) for name in found if name != HARMLESS and (not names or name in names)]
        self.harmless = self.read(HARMLESS) if HARMLESS in found else Edit(HARMLESS, "", why="BAD EDIT: there is no such file")
        if OUTSIDE in self.harmless.functions:
            self.harmless.why = "BAD EDIT: it stands outside the functions"
        for edit in self.edits:
            if not edit.why and edit.functions & self.harmless.functions:
                edit.why = BESIDE

    def read(self, name):
        with open(f"{self.crate.folder}/wrong-edits/{name}.edit", encoding="utf-8") as it:
            edit = Edit(name, it.read())
        texts, why = apply(edit.text, self.pristine, {})
        if why:
            edit.why = f"BAD EDIT: {why}"
        else:
            laws = {f"{self.crate.name}::{it}" for it in re.findall(r"(?m)^law: (\S+)\s*$", edit.text)}
            if laws and not all(it.startswith("specs/") for it in texts):
                edit.why = "BAD EDIT: a law stands beside an edit of specs/ alone"
            edit.functions = laws or changed_functions(self.crate.name, self.pristine, texts)
            edit.turns = bool(laws)
        return edit

    def owners_of(self, file, text):
        return functions_in(self.crate.name, file, text, self.homes)

    def copy(self, edit):
        """Notes the copies by which an edit can be tried, if there are any."""
        texts = apply(edit.text, self.pristine, {})[0] or {}
        changed = [it for it in texts if texts[it] != self.pristine[it]]
        if len(changed) == 1 and changed[0].startswith("src/"):
            found = copies_of(edit.name, changed[0], self.pristine[changed[0]], texts[changed[0]], lambda text: self.owners_of(changed[0], text))
            edit.control, edit.copy = found or (None, None)

    def check(self, texts, functions):
        """Checks these functions, or all, with these texts in place of the crate's own. Returns what it says of each function, or else its first error."""
        self.checks += 1
        only = [] if OUTSIDE in functions else [f"--only={it.partition('::')[2]}" for it in sorted(functions)]
        ran = toolchain.checked(self.crate, texts, ["--jobs", str(self.jobs()), *only], self.kept)
        lines = ran.stdout.rstrip("\n").split("\n")
        errors = [it for it in lines if toolchain.is_unread(it, texts)]
        if ran.returncode < 0:
            errors = [f"signal {-ran.returncode} stopped the check, most likely for memory: try with --jobs 1"]
        elif toolchain.has_stale(ran.stdout):
            errors = ["the kept work of a library could not be used"]
        elif not lines[-1].startswith(("logic=", "only=")):
            errors = errors or [it for it in lines if "error" in it] or lines[-1:]
        return ({}, errors[0]) if errors else (lines_in(ran.stdout), None)

    def make_copies(self):
        """Notes the copies of functions of which there are many edits."""
        for it in self.edits:
            self.copy(it)
        many = collections.Counter(it.copy.function for it in self.edits if it.copy)
        for it in self.edits:
            if it.copy and many[it.copy.function] < COPIED_FROM:
                it.copy = None

    def bodies(self):
        """The functions of the crate, each by its last name, with their texts."""
        for file, text in self.pristine.items():
            if file.startswith("src/"):
                for line, owner in zip(text.split("\n"), self.owners_of(file, text)):
                    if owner != OUTSIDE:
                        yield owner.rpartition("::")[2], line

    def next_batch(self, waiting):
        """Returns the edits of a batch and the texts that they make together: all that stand in copies, and of the others those that no copy may call."""
        copied = [it for it in waiting if it.copy]
        others = [it for it in waiting if not it.copy]
        if copied:
            calls = reached([it.copy for it in copied], self.bodies())
            others = [it for it in others if not it.is_alone() and not calls & {of.rpartition("::")[2] for of in it.functions}]
        batch, texts = next_batch(others, self.harmless, self.pristine)
        taken = set().union(*(it.functions for it in batch))
        copied = [it for it in copied if not it.apart & taken]
        copies = {it.path: it for edit in copied for it in (edit.copy, edit.control)}
        return [*batch, *copied], with_copies(texts, self.pristine, copies.values(), self.owners_of)

    def settle(self, batch, texts):
        """Tries a batch, in two halves where the check does not come to the prover. Where a copy of a function as it is has no proof, its edits are tried in the function itself."""
        controls = {it.control.path for it in batch if it.copy}
        said, error = self.check(texts, controls.union(self.harmless.functions, *(it.stands() for it in batch)))
        is_proved = lambda of: all(it == "proved" for it in own_lines(said, of) or ["no line"])
        if error and len(batch) > 1:
            for part in (batch[: len(batch) // 2], batch[len(batch) // 2 :]):
                self.settle(*self.next_batch(part))
        elif error and batch[0].copy:
            batch[0].copy = None
        elif error:
            batch[0].why = f"BAD EDIT: no contract was tried: {error[:300]}"
        elif not all(map(is_proved, self.harmless.functions)):
            self.harmless.why = f"NOT PROVED beside {' '.join(it.name for it in batch)}"
        else:
            for edit in batch:
                if edit.copy and not is_proved(edit.control.path):
                    edit.copy = None
                else:
                    judge(edit, said)

    def go_on(self):
        """Tries a batch of the edits that are not settled. Returns whether any was left."""
        waiting = [it for it in self.edits if not it.why]
        if self.harmless.why or not waiting:
            return False
        batch, texts = self.next_batch(waiting)
        if batch:
            self.settle(batch, texts)
        for edit in [] if batch else waiting:
            edit.why = BESIDE
        return True
