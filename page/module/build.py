"""Makes the program's module of WebAssembly of its bitcode, by the toolchain's clang and linker and binaryen's wasm-opt. The same bitcode comes to the same bytes."""
import json
import os
import shutil
import subprocess
import tempfile

from files import read, write
from retarget import TRIPLE, retargeted, with_calls
import toolchain

HERE = os.path.dirname(os.path.realpath(__file__))
# The memory with which it begins: its stack, which lies lowest, so that what goes beyond it is refused by the engine, and its data.
STACK_BYTES, FIRST_PAGES, PAGE_BYTES = 1 << 20, 32, 65536
TARGET = [f"--target={TRIPLE}", "-O2", "-fno-unroll-loops"]
# Functions that are alike become one; no pass is run.
MERGED = ["-Xclang", "-fmerge-functions"]
AS_IT_IS = ["-Xclang", "-disable-llvm-passes"]
LAYER = "-ffreestanding -nostdlib -std=c17 -Wall -Wextra -Wno-unused-parameter -Werror".split()
# Of C's main alone something is called from outside, and memory comes from there, so that each run has a bound of its own.
LINKED = f"""-mwasm64 -O2 -s --gc-sections --no-entry --export=main --import-memory --initial-memory={FIRST_PAGES * PAGE_BYTES} --max-memory={1 << 32}
    --stack-first -z stack-size={STACK_BYTES}""".split()
# What LLVM's target for WebAssembly takes as there. (Of the passes, one makes addresses of 32 bits; what that leaves over is taken away by the others.)
FEATURES = "--enable-memory64 --enable-bulk-memory --enable-sign-ext --enable-mutable-globals --enable-nontrapping-float-to-int".split()
# What makes it small: no zeros of its data, since each run has a memory of its own, in which nothing stands; functions that differ in constants alone become one; long
# constants that come often in a function are had once; and those functions and locals that are used most have the shortest numbers. No function is put in place of
# its calls: LLVM has done so where it is of use, and in greater ones than it makes steps took twice as long.
SMALL = """--zero-filled-memory --always-inline-max-function-size=0 --flexible-inline-max-function-size=0 --one-caller-inline-max-function-size=0 -Os
    --merge-similar-functions --rse --merge-locals --vacuum --code-folding --duplicate-function-elimination --const-hoisting --reorder-locals --reorder-functions""".split()
# Sections of a module: tables of functions, and what stands in them.
TABLES, ELEMENTS = 4, 9
# The section that says which program this is.
NAME = b"agcws"


def missing():
    """Returns what is not there that this needs, and how it is had, or nothing."""
    return None if shutil.which("wasm-opt") else "wasm-opt is not there: apt-get install binaryen"


def run(*words):
    """Runs a command. What it says where it fails ends the script."""
    ran = subprocess.run(words, stdin=subprocess.DEVNULL, stdout=subprocess.PIPE, stderr=subprocess.STDOUT, text=True, errors="replace", check=False)
    if ran.returncode:
        toolchain.stop(f"{os.path.basename(words[0])} has ended with status {ran.returncode}:\n{ran.stdout.strip()[-4000:]}")


def number(value):
    """Returns a whole number as WebAssembly has it: 7 bits a byte, the lowest first."""
    made = bytearray()
    while value >= 128:
        made.append(value & 127 | 128)
        value >>= 7
    return bytes([*made, value])


def section(name, content):
    """Returns a section that engines leave to others."""
    body = number(len(name)) + name + content
    return b"\0" + number(len(body)) + body


def parts(module):
    """Returns the number of each section of a module, with its bytes."""
    found, at = [], 8
    while at < len(module):
        size, shift, begin = 0, 0, at + 1
        while True:
            size, shift, begin = size | (module[begin] & 127) << shift, shift + 7, begin + 1
            if module[begin - 1] < 128:
                break
        found.append((module[at], module[at : begin + size]))
        at = begin + size
    return found


def without_table(module):
    """Returns a module without its table of functions, where that has none: the linker may leave one with wide indexes, which wasm-opt does not read."""
    found = parts(module)
    if any(number == ELEMENTS for number, _ in found):
        return module
    return module[:8] + b"".join(it for number, it in found if number != TABLES)


def said(version, is_proved):
    """Returns the section that says which program this is."""
    return section(NAME, json.dumps({"version": version, "proved": is_proved, "pages": FIRST_PAGES}, separators=(",", ":")).encode())


def module_of(bitcode, version, is_proved):
    """Returns the bytes of the module of a file of bitcode."""
    clang = toolchain.clang()
    with tempfile.TemporaryDirectory(prefix="module-") as room:
        # (the text is what every tool of LLVM of this version reads alike; no pass is run on the way)
        run(clang, "-x", "ir", "-S", "-emit-llvm", *AS_IT_IS, "-O1", "-o", f"{room}/program.ll", bitcode)
        try:
            write(f"{room}/module.ll", retargeted(read(f"{room}/program.ll").decode()).encode())
        except ValueError as error:
            toolchain.stop(f"the bitcode cannot be retargeted: {error}")
        run(clang, *TARGET, *MERGED, "-x", "ir", "-S", "-emit-llvm", "-o", f"{room}/optimised.ll", f"{room}/module.ll")
        write(f"{room}/calling.ll", with_calls(read(f"{room}/optimised.ll").decode()).encode())
        run(clang, *TARGET, *AS_IT_IS, "-x", "ir", "-c", "-o", f"{room}/program.o", f"{room}/calling.ll")
        run(clang, *TARGET, *LAYER, "-c", "-o", f"{room}/layer.o", f"{HERE}/layer.c")
        run(toolchain.wasm_linker(room), *LINKED, "-o", f"{room}/wide.wasm", f"{room}/program.o", f"{room}/layer.o")
        write(f"{room}/wide.wasm", without_table(read(f"{room}/wide.wasm")))
        run("wasm-opt", *FEATURES, "--memory64-lowering", *SMALL, "-o", f"{room}/agcws.wasm", f"{room}/wide.wasm")
        return read(f"{room}/agcws.wasm") + said(version, is_proved)


def layer_alone(to, names):
    """Makes a module of the layer alone, for tests, with some of its functions to be called."""
    with tempfile.TemporaryDirectory(prefix="module-") as room:
        run(toolchain.clang(), *TARGET, *LAYER, "-c", "-o", f"{room}/layer.o", f"{HERE}/layer.c")
        words = ["-mwasm64", "--no-entry", "--stack-first", "-z", f"stack-size={PAGE_BYTES}", *(f"--export={it}" for it in names)]
        run(toolchain.wasm_linker(room), *words, "-o", f"{room}/wide.wasm", f"{room}/layer.o")
        run("wasm-opt", *FEATURES, "--memory64-lowering", "-O1", "-o", to, f"{room}/wide.wasm")
