"""The record of wrong edits that were refused, gate/refused.json, and whose turn it is to be tried though it is on record.

An edit is on record with a sum of all on which its refusal rests: the edit and harmless.edit, its crate's files, all that can be cited of the crates below
(gate/passed.py), the toolchain's logic, and what judges (JUDGES, CHECKING, SUMMING). Where one of them changes, it is off the record, and is tried.
The row says too when, at which commit and under which kit it was refused. What the record shows is that the prover refused this edit, as it stands, then and
there; not that it does now. So each run tries the edits of one of ten groups of crates besides, by the day, and `./check --all` tries all and writes the record.
A refusal under one kit counts under another one of the same logic. A proof never does: nothing is taken for proved by a record.
"""
import contextlib
import datetime
import fcntl
import inspect
import json
import os
import subprocess

import passed
import toolchain

FILE = "gate/refused.json"
HERE = os.path.dirname(os.path.realpath(__file__))
# What judges: two files, the functions by which a crate with edits is checked, and those by which texts are summed.
JUDGES = [f"{HERE}/{it}" for it in ("trial.py", "copies.py")]
CHECKING = (toolchain.checked, toolchain.has_stale)
SUMMING = (passed.sum_of, passed.without_bodies, passed.Sums.texts_of, passed.Sums.stated, passed.Sums.refusal)
# Groups of crates whose edits take about as long as each other's.
TURNS = [
    ["workshop"],
    ["debugger"],
    ["diagnostics", "warnings", "explain", "near_names"],
    ["yayul"],
    ["cpu"],
    ["commands", "symbols", "agc_text"],
    ["words", "json_text", "audit", "align"],
    ["replay", "test_devices", "test_keepers"],
    ["feed", "rope", "space", "expect", "certain", "holes"],
    ["calls", "trace", "names", "cover", "reach", "bound", "notes", "access", "delays", "say", "whatif", "origins", "branches", "idle", "instructions", "addressed", "differ", "xref", "way_laws", "notation_laws", "named_source", "image_file", "command_line", "plans", "assumed", "confirmed", "included", "agcws"],
]


def whose_turn(today=None):
    """Returns the number of today's group, from 0, and its crates. GATE_TURN names another."""
    days = ((today or datetime.date.today()) - datetime.date(2026, 1, 1)).days
    number = int(os.environ.get("GATE_TURN", days)) % len(TURNS)
    return number, TURNS[number]


def judges():
    """Returns the texts of all that judges."""
    return [*map(passed.content_of, JUDGES), *map(inspect.getsource, CHECKING + SUMMING)]


def sums_of(trial):
    """Returns for each edit of a trial the sum of all on which its refusal rests."""
    sums = passed.Sums()
    rest = passed.sum_of(judges(), toolchain.logic(), sums.refusal(trial.crate), trial.harmless.text)
    return {it.name: passed.sum_of(rest, it.text)[:16] for it in trial.edits}


def rows():
    """Returns the record: for each crate the edits, each with its sum, date, commit and kit."""
    with contextlib.suppress(FileNotFoundError), open(FILE, encoding="utf-8") as it:
        return json.load(it)
    return {}


def on_record(crate, sums):
    """Returns the dates of the edits of a crate that are on record as they stand."""
    found = {name: row.split() for name, row in rows().get(crate, {}).items()}
    return {name: found[name][1] for name, it in sums.items() if name in found and found[name][0] == it}


def commit():
    """Returns the commit that stands here, with a + where crates have changed since."""
    git = lambda *words: subprocess.run(["git", *words], capture_output=True, text=True, check=False).stdout.strip()
    return (git("rev-parse", "--short=10", "HEAD") or "none") + ("+" if git("status", "--porcelain", "--", "crates", "crates.txt") else "")


def write(crate, sums, refused):
    """Puts the edits of a crate that were just refused on record, and takes off those that are gone, or no longer stand as they did."""
    seal = f"{datetime.date.today()} {commit()} {toolchain.version().split()[0]}"
    os.makedirs(passed.FOLDER, exist_ok=True)
    with open(f"{passed.FOLDER}/lock", "w", encoding="utf-8") as lock:
        fcntl.flock(lock, fcntl.LOCK_EX)
        found = rows()
        kept = {name: row for name, row in found.get(crate, {}).items() if sums.get(name) == row.split()[0]}
        found[crate] = {**kept, **{name: f"{sums[name]} {seal}" for name in refused}}
        text = json.dumps({name: it for name, it in found.items() if it}, indent=1, sort_keys=True)
        with open(FILE + ".new", "w", encoding="utf-8") as file:
            file.write(text + "\n")
        os.replace(FILE + ".new", FILE)
