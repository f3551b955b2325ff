"""Copies of functions: a wrong edit stands in a copy of its function, under a name of its own, so that one check tries several of one function, and nothing that calls it waits.

A copy is judged by its own contract, as the function is. It is only made where it shows what the function would: of a function outside traits and their impls that does not name itself,
and stands in no cycle; and of an edit that changes nothing else. Its proof files, which are found by its name, are copied too.
"""
import dataclasses
import difflib
import re

SIGNATURE = r"( {4})?(?:pub(?:\([^)]*\))? )?(?:const )?fn (\w+)"


@dataclasses.dataclass(frozen=True)
class Copy:
    """A file, the function in it, and the text of a copy with the path under which a check tells of it."""

    file: str
    function: str
    path: str
    lines: tuple

    def proofs(self, pristine):
        """Returns the proof files of the function for its copy, each with its text: they name its goals by its path."""
        old, new = ("proofs/" + "/".join(it.split("::")[1:]) for it in (self.function, self.path))
        dotted = lambda it: it.replace("/", ".")
        named = rf"\b{re.escape(dotted(old))}(?=\.)"
        return {new + file.removeprefix(old): re.sub(named, dotted(new), text) for file, text in pristine.items() if file.startswith((f"{old}/", f"{old}."))}


def extent(lines, owners, function):
    """Returns the first line of a function with what stands above it, its own first and its last, or None where it stands in several places."""
    at = [number for number, it in enumerate(owners) if it == function]
    if not at or at[-1] - at[0] + 1 != len(at):
        return None
    first = at[0]
    while first and lines[first - 1].strip() and not lines[first - 1].endswith(("{", "}", ";")):
        first -= 1
    return first, at[0], at[-1]


def changed_owners(old, new, old_owners, new_owners):
    """Returns the functions of all lines that differ between two texts, on both sides."""
    moves = difflib.SequenceMatcher(None, old, new, autojunk=False).get_opcodes()
    return {it for tag, a, b, c, d in moves if tag != "equal" for it in [*old_owners[a:b], *new_owners[c:d]]}


def is_plain(lines, found):
    """Returns whether a function stands outside traits and their impls, and neither names itself nor has a part in a cycle."""
    above, own, last = found
    head = re.match(SIGNATURE, lines[own])
    if not head or re.search(r"\b(cycle|test|no_mangle|export_name)\b", "\n".join(lines[above:own])):
        return False
    heads = [it for it in lines[:above] if re.match(r"[a-z]", it)]
    if head[1] and not (heads and re.match(r"impl\b", heads[-1]) and " for " not in heads[-1]):
        return False
    indent = head[1] or ""
    begins = [at for at in range(own, last + 1) if lines[at] == indent + "{" or lines[at].endswith(" {") and (at == own or lines[at].startswith(indent + ")"))]
    body = "\n".join(it.partition("//")[0] for it in lines[begins[0] + 1 : last]) if begins else head[2]
    return head[2] != "main" and not re.search(rf"\b{head[2]}\b", body)


def named(lines, found, file, function, word):
    """Returns the copy of a function whose name ends in a word."""
    above, own, last = found
    name = function.rpartition("::")[2]
    text = [*lines[above:own], re.sub(rf"\bfn {name}\b", f"fn {name}_{word}", lines[own], count=1), *lines[own + 1 : last + 1]]
    return Copy(file, function, f"{function}_{word}", tuple(text))


def copies_of(word, file, old, new, owners_of):
    """Returns the copy of the one function that an edit changes in a file, with the edit and without, or None where the function itself has to be edited."""
    sides = [(it.split("\n"), owners_of(it)) for it in (old, new)]
    functions = changed_owners(sides[0][0], sides[1][0], sides[0][1], sides[1][1])
    if len(functions) != 1 or not re.fullmatch(r"\w+", word):
        return None
    (function,) = functions
    found = [extent(*it, function) for it in sides]
    if None in found or not all(is_plain(lines, it) for (lines, _), it in zip(sides, found)):
        return None
    return [named(lines, it, file, function, end) for (lines, _), it, end in zip(sides, found, ("as_it_is", word))]


def with_copies(texts, pristine, copies, owners_of):
    """Returns some files' texts with copies, each after its function."""
    texts = dict(texts)
    for file in {it.file for it in copies}:
        lines = texts.get(file, pristine[file]).split("\n")
        owners = owners_of(file, "\n".join(lines))
        places = sorted(((extent(lines, owners, it.function)[2], it.lines) for it in copies if it.file == file), reverse=True)
        for last, text in places:
            lines[last + 1 : last + 1] = ["", *text]
        texts[file] = "\n".join(lines)
    for it in copies:
        texts.update(it.proofs(pristine))
    return texts


def reached(copies, sources):
    """Returns the names of all functions that the copies may call, by the words in their texts and in those of the functions so named."""
    bodies = {}
    for name, text in sources:
        bodies.setdefault(name, set()).update(re.findall(r"\w+", text))
    words = {it for copy in copies for line in copy.lines for it in re.findall(r"\w+", line)}
    found, left = set(), [it for it in words if it in bodies]
    while left:
        it = left.pop()
        if it not in found:
            found.add(it)
            left += bodies[it] & bodies.keys() - found
    return found
