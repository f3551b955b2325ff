"""A session steps no processor but its own: neither it, nor the debugger, nor what reads commands makes one, or a fixed memory of its own. No contract says so; the text does."""
import os
import re

MAKERS = r"Processor::new|Rope::(?:empty|read)|Feed::(?:new|empty)|\bassemble\("
# A maker under another name: a name that an import or a type gives what a crate below has, all names of a crate, or such a crate itself.
OTHERS = r"(?s)\b(?:use|extern crate)\s+(?:cpu|rope|feed|yayul)\b(?:[^;]*(?:\bas\b|\*)[^;]*)?;|\btype\s+\w+[^;]*\b(?:Processor|Rope|Feed|Machine)\b[^;]*;"
# A machine at its start that is lent to be looked at, as an argument, is stepped by nobody.
OWNED_MACHINE = r"(?<!&)Machine::start|Machine::start\(\)(?![,)])"
CALLS = {"commands": MAKERS, "debugger": rf"{MAKERS}|{OWNED_MACHINE}", "replay": MAKERS}


def second_makers(crates):
    """Returns the places, below a folder of crates, at which a second processor may be made."""
    found = []
    for crate, calls in CALLS.items():
        for folder, _, names in sorted(os.walk(f"{crates}/{crate}/src")):
            for name in sorted(names):
                with open(f"{folder}/{name}", encoding="utf-8") as it:
                    text = it.read()
                found += [f"{crate}/{name}: {made}" for made in re.findall(calls, text) + re.findall(OTHERS, text)]
    return found
