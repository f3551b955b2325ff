"""All that the scripts of this repository use of the toolchain's insides: its command rt, taken as a Python module, and what that knows of crates and edits.

It was written for the kits WRITTEN_FOR, of which the first lets the checkouts of a machine share what is proved, and the second keeps it in each. What
another kit no longer has under these names is told by its name, when a script starts; where a script fails in another way under another kit, this file is
what to compare with the kit's rt and rtlib.py.
"""
import contextlib
import copy
import functools
import hashlib
import importlib.machinery
import importlib.util
import os
import shlex
import shutil
import subprocess
import sys
import tempfile

WRITTEN_FOR = "rattle-kit-13f and rattle-kit-13b, logic dac8208d650f15bf"
# Of rt, and of rtlib, which rt loads.
NAMES = "KIT checked edited edits_of free in_lanes processors rtlib unread".split()
# Of rt, where checkouts share what is proved.
SHARING_NAMES = "linked share_work work_for".split()
LIBRARY_NAMES = "PARTS STALE crates_below files_of fmt guarded kit_sources lock".split()
CRATE_NAMES = "below build_and_run build_rlib call check count has_tests is_built makes_rlib run sources_below".split()
# Stands for clang where a program is built, and keeps the bitcode that it is given to compile.
KEEPING = """#!/bin/sh
for it in "$@"; do
    case $it in *.bc) cp -- "$it" {kept} ;; esac
done
exec {clang} "$@"
"""


def stop(why):
    """Ends the script that runs, with its name and why."""
    sys.exit(f"{os.path.basename(sys.argv[0])}: {why}")


def load():
    """Returns the toolchain's command rt as a module."""
    found = shutil.which("rt") or stop("the toolchain's command rt is not on the PATH")
    loader = importlib.machinery.SourceFileLoader("rt", os.path.realpath(found))
    made = importlib.util.module_from_spec(importlib.util.spec_from_loader("rt", loader))
    loader.exec_module(made)
    wanted = [(made, NAMES), (getattr(made, "rtlib", None), LIBRARY_NAMES), (getattr(getattr(made, "rtlib", None), "Crate", None), CRATE_NAMES)]
    missing = [name for it, names in wanted for name in names if not hasattr(it, name)]
    if missing:
        stop(f"the toolchain's rt has no {' '.join(missing)}: gate/toolchain.py was written for {WRITTEN_FOR}")
    return made


rt = load()
# Whether the checkouts of this machine share what is proved.
SHARES = all(hasattr(rt, it) for it in SHARING_NAMES)


def start(shares=True):
    """Has what a script starts end with it, and what it proves shared with the other checkouts of this machine where they share. To be called first, by the
    main thread: it sets a signal's handler."""
    rt.rtlib.guarded()
    if SHARES and shares:
        rt.share_work(True)


@functools.lru_cache(maxsize=None)
def version():
    """Returns the kit's name and a sum of what it holds."""
    with open(f"{rt.KIT}/KIT-ID", encoding="utf-8") as name, open(f"{rt.KIT}/WHAT", "rb") as parts:
        return f"{name.read().strip()} {hashlib.sha256(parts.read()).hexdigest()}"


def logic():
    """Returns the name of the kit's logic, by which a proof holds or does not, or the kit's where it names none."""
    return version().partition(" logic ")[2].split()[0] if " logic " in version() else version()


# The crates below a folder, lowest first. Each has a name, a folder and below(), the crates of the repository under it.
crates_below = rt.rtlib.crates_below
# The words before a command that has to end when this script ends.
guarded = rt.rtlib.guarded
# Keeps other runs of rt out of some crates until what it returns is closed.
lock = rt.rtlib.lock
# The files of a crate's src/, specs/ and proofs/.
files_of = rt.rtlib.files_of
# Runs tasks side by side, each once those it waits for have ended.
in_lanes = rt.in_lanes
# The texts of the files that an edit changes, or why it cannot be applied.
edited = rt.edited
# The files of a crate's edits of must-fail, and what stands beside them that is none.
must_fail_of = rt.edits_of
# The words by which the front end reads some libraries of the kit, and those that they use, as source.
kit_sources = rt.rtlib.kit_sources
# Whether a line of a check says that a text cannot be read.
is_unread = rt.unread
processors, free = rt.processors, rt.free


def said_by(crate, work):
    """Does some work on a crate, which answers a status. Returns whether that is well, and what was said."""
    os.makedirs(f"{crate.folder}/out", exist_ok=True)
    crate = copy.copy(crate)
    crate.held = []
    with tempfile.TemporaryFile("a+", errors="replace") as crate.out:
        status = work(crate)
        crate.out.seek(0)
        return status == 0, crate.out.read()


def prove(crate, jobs):
    """Proves a crate over what is kept of it, and leaves what crates above a library load. Returns whether it is proved, and what was said."""
    flags = ["--jobs", str(jobs)]
    return said_by(crate, lambda it: it.build_rlib(flags, anew=False) if it.makes_rlib() else it.check(flags))


def clang():
    """Returns the kit's clang, which compiles bitcode too."""
    return f"{rt.KIT}/toolchain/bin/clang"


def wasm_linker(room):
    """Returns the kit's linker for WebAssembly: one program is all that clang and the linkers are, by the name that it is called by."""
    os.symlink(clang(), f"{room}/wasm-ld")
    return f"{room}/wasm-ld"


def tools_with(room, script, **paths):
    """Makes a toolchain of links in a folder, but for its clang, which is a script; in that the names stand for paths, and clang for the kit's. Returns it."""
    made, tools = f"{room}/toolchain", os.path.dirname(clang())
    os.makedirs(f"{made}/bin")
    os.symlink(f"{rt.KIT}/toolchain/lib", f"{made}/lib")
    for it in os.listdir(tools):
        if it != "clang":
            os.symlink(f"{tools}/{it}", f"{made}/bin/{it}")
    with open(f"{made}/bin/clang", "w", encoding="utf-8") as it:
        it.write(script.format(clang=shlex.quote(clang()), **{name: shlex.quote(path) for name, path in paths.items()}))
    os.chmod(f"{made}/bin/clang", 0o755)
    return made


def build(crate, jobs):
    """Proves and builds a program over what is kept, has it run with the word --version, and keeps the bitcode of which it was compiled. Returns whether it is
    built, and what was said."""
    with tempfile.TemporaryDirectory(prefix="toolchain-") as room:
        kept, own = f"{room}/program.bc", f"{rt.KIT}/toolchain"
        made = tools_with(room, KEEPING, kept=kept)

        def work(it):
            call = it.call
            it.call = lambda *words: call(*(made if words[1] == "build" and word == own else word for word in words))
            return it.build_and_run(["--jobs", str(jobs)], ["--version"], False)

        is_built, said = said_by(crate, work)
        # (a program that has not changed is not compiled again)
        if is_built and os.path.isfile(kept):
            keep_bitcode(crate, kept)
        return is_built, said


def sum_of_program(crate):
    """Returns a sum of a program's object and of the bitcode that is kept of it."""
    sums = []
    for path in (f"{crate.folder}/out/{crate.name}.o", f"{crate.folder}/out/{crate.name}.bc"):
        with open(path, "rb") as it:
            sums.append(hashlib.sha256(it.read()).hexdigest())
    return " ".join(sums)


def keep_bitcode(crate, made):
    """Keeps the bitcode of a program that is built, and of which object it is."""
    to = f"{crate.folder}/out/{crate.name}.bc"
    shutil.copyfile(made, f"{to}.new")
    os.replace(f"{to}.new", to)
    with open(f"{to}.of", "w", encoding="utf-8") as it:
        it.write(sum_of_program(crate))


def bitcode(crate):
    """Returns the file of the bitcode of which a proved program was compiled as it stands built, or None where that is not kept."""
    path = f"{crate.folder}/out/{crate.name}.bc"
    with contextlib.suppress(FileNotFoundError), open(f"{path}.of", encoding="utf-8") as it:
        return path if it.read() == sum_of_program(crate) else None
    return None


def forget_build(crate):
    """Has a program compiled again when it is built next, though nothing has changed."""
    with contextlib.suppress(FileNotFoundError):
        os.remove(f"{crate.folder}/out/{crate.name}.stamp")


def test(crate, jobs):
    """Proves a crate's tests over what is kept, and runs them. Returns whether all pass, and what was said."""
    return said_by(crate, lambda it: it.run(["--jobs", str(jobs)], [], tests=True))


def archives():
    """Returns the archives of C with which every program is linked."""
    return [f"{rt.KIT}/c/{it}" for it in ("libos_c.a", "liblibc_c.a")]


def link(built, to):
    """Links the object of a program as a build does. Returns whether it is linked, and what was said."""
    words = ["--target", "x86_64-unknown-linux-gnu", "--toolchain", f"{rt.KIT}/toolchain", "-o", to, built, *archives()]
    ran = subprocess.run([f"{rt.KIT}/bin/rattle-link", *words], capture_output=True, text=True, errors="replace", check=False)
    return ran.returncode == 0, ran.stdout + ran.stderr


def is_formatted(crate):
    """Returns whether a crate's files have rt fmt's layout, and what was said."""
    return said_by(crate, lambda it: rt.rtlib.fmt(it.folder, "--check", it.out, diff=it.out))


def checked(crate, texts, flags, kept):
    """Checks a copy of a crate with some texts in place of its own, or beside them, over what kept holds."""
    with tempfile.TemporaryDirectory(prefix="checked-") as room:
        new = {os.path.dirname(it) for it in texts if not os.path.isdir(f"{crate.folder}/{os.path.dirname(it)}")}
        if new:
            folder, crate = crate.folder, copy.copy(crate)
            crate.folder = room
            for part in rt.rtlib.PARTS:
                if os.path.isdir(f"{folder}/{part}"):
                    shutil.copytree(f"{folder}/{part}", f"{room}/{part}")
            for it in new:
                os.makedirs(f"{room}/{it}", exist_ok=True)
        return rt.checked(crate, texts, flags, kept)


def kept_work(crate):
    """Returns the folder of what a check last kept of a crate, and what copies it: in any checkout of this machine where they share, else in this one. There
    may be none."""
    if SHARES:
        # (what was proved is linked: a check replaces such a file, and changes none)
        return rt.work_for(crate), rt.linked
    own = f"{crate.folder}/out/incremental"
    return own if os.path.isdir(own) else None, shutil.copytree


def begin(crate, folder):
    """Makes a folder that holds what a check last kept of a crate, if one did. Checks over the folder leave that as it was."""
    found, copy_work = kept_work(crate)
    if found:
        # (another command may write what is copied)
        with contextlib.suppress(OSError, shutil.Error):
            return copy_work(found, folder)
        shutil.rmtree(folder, ignore_errors=True)
    os.mkdir(folder)


def has_stale(said):
    """Returns whether a check could not use the kept work of a library."""
    return bool(rt.rtlib.STALE.search(said))
