"""Remembers what has passed, with a sum of all texts on which that rests, so that only what has changed since is tried again.

Why nothing stale passes:
- A sum is taken of bytes, with the paths of the files: of what is there now, each time anew. No time stamp says that something is unchanged.
- It is kept only after a trial that passed, and only where it is the same after the trial as before, with no file written in between.
- It covers the kit: its name, and its own sums of its parts.
- It covers the scripts that try and judge.
- It covers each file of the crate's src/, specs/ and proofs/, and its line in crates.txt.
- Of the crates below it covers all that can be cited: specs/, proofs/ but the files that are private to a function, and src/ but the bodies of functions, since the toolchain
  lets no proof open the routine of another function, but in a cycle of calls, and no cycle leaves its crate.
- The body of a const fn counts, since a constant above may be computed by it, and so does all of a file in which a body has no end by the layout of `rt fmt`.
- Tests that are run rest on the bodies of the crates that they are for too.
- The program as it is run on examples rests on its own bytes, and on every file outside of the crates.
- The sums stand in out/ at the top, outside of the commits: a fresh clone has none. `./check --all` looks none up.
"""
import contextlib
import fcntl
import functools
import hashlib
import json
import os
import re

import toolchain

FOLDER = "out"
# Folders that hold nothing of the repository.
LEFT_OUT = (FOLDER, "dist", ".git", "__pycache__")
PRIVATE = ("Answers.antt", "Invariants.antt", "Proof.antt")


def sum_of(*parts):
    """Returns a sum of some texts, lists and numbers."""
    return hashlib.sha256(repr(parts).encode(errors="surrogateescape")).hexdigest()


def content_of(path):
    """Returns the bytes of a file, or None where there is none."""
    with contextlib.suppress(FileNotFoundError), open(path, "rb") as it:
        return it.read()
    return None


@functools.lru_cache(maxsize=None)
def without_bodies(text):
    """Returns a source, in rt fmt's layout, without the bodies of its functions, or the source itself where a body has no end."""
    kept, indent, end = [], None, None
    for line in text.split("\n"):
        if end is not None:
            end = None if line == end else end
            continue
        kept.append(line)
        at = re.match(r"( {4})?(?:pub(?:\([^)]*\))? )?fn \w+", line)
        if at:
            indent = at[1] or ""
        elif line == "}":
            indent = None
        # (a body begins below the clauses, or at the end of the line of the result)
        if indent is not None and (line == indent + "{" or line.endswith(" {") and (at or line.startswith(indent + ")"))):
            indent, end = None, indent + "}"
    return text if end is not None else "\n".join(kept)


class Sums:
    """The sums of crates as their files stand now. Each file is read once."""

    def __init__(self):
        for name in ("texts_of", "own", "stated", "proof", "refusal", "whole", "others"):
            setattr(self, name, functools.lru_cache(maxsize=None)(getattr(self, name)))
        self.times = []

    def texts_of(self, crate):
        """The paths and bytes of a crate's files, and when they were written."""
        found = []
        for file in toolchain.files_of(crate.folder):
            with open(file, "rb") as it:
                found.append((os.path.relpath(file, crate.folder), it.read()))
                self.times.append((file, os.fstat(it.fileno()).st_mtime_ns))
        return found

    def own(self, crate):
        return sum_of(toolchain.version(), crate.said, self.texts_of(crate))

    def stated(self, crate):
        """A sum of all that the crates above can cite."""
        found = []
        for path, content in self.texts_of(crate):
            if path.startswith("src/"):
                content = without_bodies(content.decode(errors="surrogateescape"))
            if not path.startswith("proofs/") or os.path.basename(path) not in PRIVATE:
                found.append((path, content))
        return sum_of(crate.said, found)

    def proof(self, crate):
        """A sum of all on which the proof of a crate rests."""
        return sum_of(self.own(crate), [self.stated(it) for it in crate.below()])

    def refusal(self, crate):
        """A sum of all of the repository on which it rests that a crate's function is refused."""
        return sum_of(crate.said, self.texts_of(crate), [self.stated(it) for it in crate.below()])

    def whole(self, crate):
        """A sum of all that a crate is built from."""
        return sum_of(self.own(crate), [self.own(it) for it in crate.below()])

    def others(self):
        """A sum of all files outside of the crates."""
        found = []
        for folder, folders, names in os.walk("."):
            folders[:] = sorted(it for it in folders if it not in LEFT_OUT and (folder, it) != (".", "crates"))
            for path in sorted(f"{folder}/{it}" for it in names):
                found.append((path, content_of(path)))
                self.times.append((path, os.stat(path, follow_symlinks=False).st_mtime_ns))
        return sum_of(found)


class Trial:
    """A trial of some things of a kind by a script, which begins now: a function of Sums and a name gives the sum of all on which each rests."""

    def __init__(self, kind, names, sum_by, script):
        scripts = [content_of(it) for it in (script, __file__, toolchain.__file__)]
        self.kind, self.sum_by, sums = kind, lambda sums, name: sum_of(scripts, sum_by(sums, name)), Sums()
        self.before = {name: self.sum_by(sums, name) for name in names}
        self.times = set(sums.times)

    def is_passed(self, name):
        """Returns whether this passed before, as it stands now."""
        return kept(self.kind).get(name) == self.before[name]

    def keep(self, names):
        """Keeps that these have passed, where nothing has changed since the trial began."""
        sums = Sums()
        now = {name: self.sum_by(sums, name) for name in names}
        if set(sums.times) <= self.times:
            keep(self.kind, {name: it for name, it in now.items() if it == self.before[name]})


def kept(kind):
    """Returns the sums that are kept of a kind, by name."""
    with contextlib.suppress(OSError, ValueError), open(f"{FOLDER}/{kind}.json", encoding="utf-8") as it:
        return json.load(it)
    return {}


def keep(kind, sums):
    """Keeps some sums of a kind beside those of others."""
    os.makedirs(FOLDER, exist_ok=True)
    with open(f"{FOLDER}/lock", "w", encoding="utf-8") as lock:
        fcntl.flock(lock, fcntl.LOCK_EX)
        text = json.dumps({**kept(kind), **sums}, indent=1, sort_keys=True)
        with open(f"{FOLDER}/{kind}.new", "w", encoding="utf-8") as it:
            it.write(text)
        os.replace(f"{FOLDER}/{kind}.new", f"{FOLDER}/{kind}.json")
