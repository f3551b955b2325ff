"""Tests of bench/ceilings over stand-ins of the program, valgrind and the toolchain."""
import json
import os
import shutil
import subprocess
import sys
import unittest

from common import ROOT, Case, write_text

# Counts 70 instructions a step, or 70.5 with `break exec`, and 1000 of a start.
VALGRIND = """#!/bin/sh
twice=140
while read -r line; do
    case $line in "break exec "*) twice=141 ;; "run "*) steps=${line#run } ;; esac
done
for word; do
    case $word in --log-file=*) log=${word#*=} ;; *[!0-9]*) ;; *) steps=$word ;; esac
done
echo "==1== Collected : $((twice * steps / 2 + 1000))" >"$log"
"""
WRITTEN = json.load(open(f"{ROOT}/bench/ceilings.json", encoding="utf-8"))
NAMES = [*WRITTEN["instructions"]]
REACHED = dict.fromkeys(NAMES, 70) | {"session, break exec": 70.5, "start": 1000}


def executable(path, text):
    write_text(path, text)
    os.chmod(path, 0o755)


def made(room):
    """A repository that holds bench/ceilings and a stand-in of the program, and a folder of stand-ins of the tools."""
    for path in ("bench/ceilings", "bench/callgrind.py"):
        os.makedirs(f"{room}/{os.path.dirname(path)}", exist_ok=True)
        shutil.copy(f"{ROOT}/{path}", f"{room}/{path}")
    executable(f"{room}/crates/agcws/out/agcws", "#!/bin/sh\n")
    executable(f"{room}/tools/valgrind", VALGRIND)
    executable(f"{room}/tools/rt", "#!/bin/sh\necho a-kit logic 0\n")


def said(room, ceilings, kit="a-kit", path="tools"):
    """What bench/ceilings says of some ceilings: its status, and its lines."""
    write_text(f"{room}/bench/ceilings.json", json.dumps({"kit": kit, "instructions": ceilings}))
    words, env = [sys.executable, f"{room}/bench/ceilings"], {"PATH": f"{room}/{path}"}
    ran = subprocess.run(words, env=env, capture_output=True, text=True, timeout=600)
    return ran.returncode, (ran.stdout + ran.stderr).splitlines()


class Ceilings(Case):
    """Counts at, above and without ceilings."""

    def setUp(self):
        super().setUp()
        made(self.room)

    def test_a_kit_is_named(self):
        self.assertTrue(WRITTEN["kit"])

    def check(self, label, got, status, *parts):
        """Whether the status is as wanted, and each part stands among the lines: the last one as the last line."""
        lines = "\n".join(got[1])
        with self.subTest(label):
            self.assertTrue(got[0] == status and all(it in lines for it in parts) and lines.endswith(parts[-1]), f"{got}")

    def test_counts(self):
        rows = len(NAMES)
        got = said(self.room, REACHED)
        self.check("each count at its ceiling", got, 0, f"{rows + 1} passed, 0 failed")
        with self.subTest("a line for each row"):
            self.assertEqual(len(got[1]), rows + 1)
        for name in ("run, loop", "session, break exec", "start"):
            got = said(self.room, REACHED | {name: REACHED[name] - 0.1})
            self.check(f"{name} above its ceiling", got, 1, f"{name}: FAILED: 1.00", f"{rows} passed, 1 failed")
        got = said(self.room, {it: REACHED[it] for it in NAMES[1:]})
        self.check("a row without a ceiling", got, 1, f"{NAMES[0]}: FAILED: no ceiling", f"{rows - 1} passed, 2 failed")
        self.check("a ceiling without a row", said(self.room, REACHED | {"another": 1}), 1, f"{rows} passed, 1 failed")

    def test_surroundings(self):
        told_so = "the ceilings are of another, and here is a-kit"
        got = said(self.room, REACHED | {"cover": 60}, kit="another")
        self.check("a count above its ceiling by another kit", got, 1, told_so, f"{len(NAMES)} passed, 1 failed")
        got = said(self.room, REACHED, path="nothing")
        self.check("no valgrind", got, 0, "skipped", "apt-get install valgrind", "0 passed, 0 failed")
        os.remove(f"{self.room}/crates/agcws/out/agcws")
        self.check("no program", said(self.room, REACHED), 1, "is not built", "0 passed, 1 failed")


if __name__ == "__main__":
    unittest.main()
