#!/usr/bin/env python3
"""Measures the module beside the native program: processor seconds of 20,000,000 steps, in node and in Chromium (of all its processes), the least of some runs in turn.

usage: page/measure.py MODULE [RUNS]"""
import json
import os
import resource
import subprocess
import sys
import tempfile

sys.dont_write_bytecode = True
sys.path.insert(0, f"{os.path.dirname(os.path.dirname(os.path.realpath(__file__)))}/tests")
import test_module
import one_file
from files import read, write

NAMES, STEPS = ("loop", "mix", "switched"), "20000000"
SCRIPT = """
import {engineIn} from './engine.js';
const given = JSON.parse(document.getElementById('cases').textContent);
const post = text => fetch(given.address, {method: 'POST', mode: 'no-cors', body: text});

async function measure() {
    const started = performance.now(), engine = engineIn(document);
    await engine.about;
    const ready = performance.now() - started;
    // (the first run has the engine compile what it had only made ready)
    for (const name of [...given.names, ...given.names]) {
        await post(`begin ${name}`);
        const {status, seconds} = await engine.call(['run', `${name}.agc`, 'my.feed', given.steps], given.files);
        await post(`end ${name} ${status} ${seconds}`);
    }
    await post(`ready ${ready / 1000}`);
}

measure();
"""


def ticks(root):
    """Processor seconds of a process and of all below it."""
    below, used, left, total = {}, {}, [root], 0
    for name in filter(str.isdigit, os.listdir("/proc")):
        try:
            fields = read(f"/proc/{name}/stat").rpartition(b") ")[2].split()
        except OSError:
            continue
        below.setdefault(int(fields[1]), []).append(int(name))
        used[int(name)] = int(fields[11]) + int(fields[12])
    while left:
        it = left.pop()
        total += used.get(it, 0)
        left += below.get(it, [])
    return total / os.sysconf("SC_CLK_TCK")


def seconds_of(*words):
    """Processor seconds of a command."""
    before = resource.getrusage(resource.RUSAGE_CHILDREN)
    subprocess.run(words, check=True, stdout=subprocess.DEVNULL)
    after = resource.getrusage(resource.RUSAGE_CHILDREN)
    return after.ru_utime + after.ru_stime - before.ru_utime - before.ru_stime


def in_chromium(module, room):
    """The processor seconds of each program in a page, and when its engine was ready."""
    answers, found, at = test_module.Answers(), {}, {}
    files = {f"{it}.agc": read(f"{test_module.ROOT}/bench/{it}.agc").decode() for it in NAMES} | {"my.feed": ""}
    script = one_file.script([f"{test_module.PAGES}/module/host.js", f"{test_module.PAGES}/module/unpack.js", f"{test_module.PAGES}/engine.js", write(f"{room}/measured.js", SCRIPT.encode())])
    cases = json.dumps({"address": answers.address, "names": NAMES, "steps": STEPS, "files": files}).replace("</", "<\\/")
    page = write(f"{room}/page.html", test_module.PAGE.format(module=one_file.packed(read(module)), cases=cases, script=script).encode())
    words, env = test_module.chromium(room, f"file://{page}")

    def take(body):
        what, name, *rest = body.decode().split()
        if what == "begin":
            at[name] = ticks(ran.pid)
        elif what == "end":
            found[name] = (ticks(ran.pid) - at[name], float(rest[1]))
        return what == "ready"

    answers.take = take
    ran = subprocess.Popen(words, env={**os.environ, "HOME": room, **env}, stdout=subprocess.DEVNULL, stderr=subprocess.DEVNULL, start_new_session=True)
    last = answers.wait()
    test_module.end(ran)
    return found, float(last.split()[1])


def main(module, runs=3):
    least = {}
    for _ in range(int(runs)):
        with tempfile.TemporaryDirectory(prefix="agcws-measure-") as room:
            found, ready = in_chromium(module, room)
        start = seconds_of("node", test_module.COMMAND, module, "--version")
        for name in NAMES:
            words = ["run", f"{test_module.ROOT}/bench/{name}.agc", "/dev/null", STEPS]
            row = [seconds_of(test_module.PROGRAM, *words), seconds_of("node", test_module.COMMAND, module, *words) - start, *found[name]]
            least[name] = list(map(min, zip(row, least.get(name, row))))
        least["ready"] = min(ready, least.get("ready", ready))
    print("| 20,000,000 steps of | native | node | through native | Chromium | through native | by the clock |")
    print("| --- | ---: | ---: | ---: | ---: | ---: | ---: |")
    for name in NAMES:
        native, node, chromium, clock = least[name]
        print(f"| {name} | {native:.2f} | {node:.2f} | {node / native:.2f} | {chromium:.2f} | {chromium / native:.2f} | {clock:.2f} |")
    print(f"the engine is ready {least['ready']:.2f} s after the page's script starts")


if __name__ == "__main__":
    if len(sys.argv) not in (2, 3):
        sys.exit(__doc__)
    main(os.path.abspath(sys.argv[1]), *sys.argv[2:])
