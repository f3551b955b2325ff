"""Turns the text of a module of LLVM for x86-64 into one for wasm64: its layout of data, its triple, and the attributes that name what x86-64 alone has.

Functions in which no run spends its time are to be small rather than fast: what is often done in them is done by a call."""
import re

LAYOUT = "e-m:e-p:64:64-p10:8:8-p20:8:8-i64:64-i128:128-n32:64-S128-ni:1:10:20"
TRIPLE = "wasm64-unknown-unknown"
# Attributes of functions that say how x86-64 makes a frame, which processor it is for, and what a check at run time adds.
DROPPED = re.compile(r' sanitize_address| "(?:frame-pointer|probe-stack|stack-probe-size|target-cpu|target-features)"="[^"]*"')
# The crates and modules whose functions are to be fast: those of the steps, and of what makes many of them.
FAST = "words space rope feed cpu workshop::engine".split()
# What of these is done once in a run, or a few times.
SLOW = tuple("rope::memory::Rope::write rope::memory::Rope::read feed::reading feed::slip feed::statement cpu::processor::Processor::sources".split())
FUNCTION = re.compile(r'^(define [^\n]*?@"?)(([\w.$]+)(?:::\w+)?)([^\n]*? #\d+)([^\n]*\{)$', re.M)
EMPTY, NO_FRAME = "{ }", '{ "frame-pointer"="none" }'
# An address, and one at a constant distance after it: addresses lie below 2^32, so that the sum does not wrap, and a load or a store can hold the distance.
DISTANCE = re.compile(r"^(  %[\w.]+ = getelementptr)( i8, ptr [%@][\w.]+, i64 \d{1,9})$", re.M)
# How many bytes the layer clears and copies by a function each.
ZEROS, COPIES = (5, 6, 7, 12, 16, 24, 31, 32, 40, 48, 56), (5, 6, 7, 14, 16, 20, 24, 32, 40, 48, 56)
TOLD = r"ptr (?:[a-z]+(?:\([^()\n]*\)| \d+)? )*"
MOVES = re.compile(
    r"^  (?:tail )?call void @llvm\.mem(?:"
    rf"set\.p0\.i64\({TOLD}(?P<cleared>[%@][\w.]+), i8 0, i64 (?P<zeros>\d+)|"
    rf"cpy\.p0\.p0\.i64\({TOLD}(?P<to>[%@][\w.]+), {TOLD}(?P<of>[%@][\w.]+), i64 (?P<copies>\d+)), i1 false\)[^\n]*$", re.M)
# What would mean another thing, or nothing, on another machine, so that no module with it is taken.
FOREIGN = re.compile(r"(?<![\w.@%])(?:asm|x86_fp80|musttail|cmpxchg|atomicrmw|fence)(?![\w.])|@llvm\.x86\.|\baddrspace\(")


def once(pattern, line, text):
    """Puts a line in place of the only one that has a form."""
    made, count = re.subn(pattern, lambda _: line, text, flags=re.M)
    if count != 1:
        raise ValueError(f"{count} lines of the module have the form {pattern}")
    return made


def retargeted(text):
    """Returns the text of a module for wasm64. Where it holds what that has not, this is a ValueError."""
    code = re.sub(r'"(?:[^"\\]|\\.)*"', '""', text)
    if found := FOREIGN.search(code):
        raise ValueError(f"the module holds {found[0]}, which is not known to mean the same in WebAssembly")
    text = once(r"^target datalayout = .*$", f'target datalayout = "{LAYOUT}"', text)
    text = once(r"^target triple = .*$", f'target triple = "{TRIPLE}"', text)

    def attributes(found):
        left = DROPPED.sub("", found[0])
        return left.replace(EMPTY, NO_FRAME) if left.endswith(EMPTY) else left

    def small(found):
        front, module, crate, name, rest = found.groups()
        is_fast = (crate in FAST or module in FAST) and not (module + name).startswith(SLOW)
        return found[0] if is_fast else f"{front}{module}{name} minsize optsize{rest}"

    text = DISTANCE.sub(r"\1 nuw\2", FUNCTION.sub(small, text))
    return re.sub(r"^attributes #\d+ = \{.*\}$", attributes, text, flags=re.M)


def with_calls(text):
    """Returns the text of an optimised module in which those functions that are to be small call ZEROS and COPIES of the layer for what these do."""
    is_small = {it[1]: " minsize " in it[2] for it in re.finditer(r"^attributes (#\d+) = \{(.*)\}$", text, re.M)}
    called = set()

    def call(found):
        name, sizes = (f"zero_{found['zeros']}", ZEROS) if found["zeros"] else (f"copy_{found['copies']}", COPIES)
        if int(found["zeros"] or found["copies"]) not in sizes:
            return found[0]
        called.add(name)
        pointers = [f"ptr {it}" for it in (found["to"] or found["cleared"], found["of"]) if it]
        return f"  call void @{name}({', '.join(pointers)})"

    def function(found):
        return MOVES.sub(call, found[0]) if any(is_small.get(it) for it in re.findall(r"#\d+", found[1])) else found[0]

    text = re.sub(r"^define ([^\n]*)\n.*?^\}$", function, text, flags=re.M | re.S)
    declared = [f"declare void @{it}({', '.join(['ptr'] * (1 + it.startswith('copy')))})\n" for it in sorted(called)]
    return text + "\n" + "".join(declared)
