"""Tests of the script `agcws` at the top, and of what gate/pack packs. The program has to be built; none is built here."""
import glob
import gzip
import importlib.machinery
import importlib.util
import os
import re
import shutil
import struct
import subprocess
import tarfile
import unittest

from common import ROOT, Case, read, write
import help_pages
import toolchain
from terminal import CTRL_C, Terminal

loader = importlib.machinery.SourceFileLoader("pack", f"{ROOT}/gate/pack")
pack = importlib.util.module_from_spec(importlib.util.spec_from_loader("pack", loader))
loader.exec_module(pack)
PROGRAM = f"{ROOT}/crates/agcws/out/agcws"
MOST_BYTES = 3_500_000
RUN, LINES = ["run", "examples/five_plus_five.agc", "/dev/null", "4"], b"7 CH 010 00012\n"
SHAKEN = ["examples/lost_sum.agc", "200", "TIME3 PINC", "--to", "2"]
SAME = b"without it: CH 012 00062\n2 of 2 cycles: the same\n  1-2\n"


def call(words, folder, path="", **more):
    """What a command answers in a folder, on a machine that has no toolchain: its status, its output and its error output."""
    env = {"PATH": f"{path}:/usr/bin:/bin", "LC_ALL": "C.UTF-8"}
    ran = subprocess.run(words, cwd=folder, env=env, stdin=subprocess.DEVNULL, capture_output=True, timeout=120, **more)
    return ran.returncode, ran.stdout, ran.stderr


def executable(path, text):
    write(path, text.encode())
    os.chmod(path, 0o755)
    return path


def asks_for_libraries(program):
    """Returns whether a program names another that loads libraries for it: whether its header has a part of kind 3."""
    content = read(program)
    start, size, count = struct.unpack_from("<Q", content, 32)[0], *struct.unpack_from("<HH", content, 54)
    return any(struct.unpack_from("<I", content, start + size * it)[0] == 3 for it in range(count))


# Words that are typed, and those that complete the last of them.
COMPLETED = {
    "agcws d": "delays differ debug damages",
    "agcws co": "cover compare",
    "agcws --": "--help --version",
    "agcws help ex": "expect explain",
    "agcws run --p": "--parity --progress",
    "agcws run --rope ": "1 2",
    "agcws compare --old-form h": "",
    "agcws debug examples/lost_sum.agc --e": "--extended",
    "agcws run exam": "",
}


def missing_object():
    """Returns that the program's object is not there, as where rt ci has taken the program from an earlier run, or nothing."""
    return None if os.path.isfile(pack.OBJECT) else f"{pack.OBJECT} is not there; ./agcws --prove builds it"


class Packed(Case):
    """What is packed, unpacked, installed and run."""

    def setUp(self):
        super().setUp()
        if not os.access(PROGRAM, os.X_OK):
            if os.environ.get("AGCWS") == PROGRAM:
                self.fail("the proved program is not built: ./agcws --prove builds it")
            self.skipTest("the proved program is not built: ./agcws --prove builds it")
        # (a path with a blank)
        self.room = f"{self.room}/agcws pack"
        os.mkdir(self.room)

    def test_handed_out(self):
        if why := pack.missing() or missing_object():
            print(f"what is handed out is not tried, since {why}")
            folder = f"{self.room}/laid out"
            pack.lay_out(folder, PROGRAM)
        else:
            folder = self.try_handed_out()
        self.try_packed(folder)
        self.try_missing()
        self.try_licences()
        self.try_ways(folder)
        self.try_broken_off(folder)
        self.try_words(folder)

    def try_ways(self, folder):
        """The script by all the ways that lead to it."""
        with self.subTest("from its folder"):
            self.assertAnswer(call(["./agcws", *RUN], folder), 0, LINES)
        words = ["run", f"{folder}/examples/five_plus_five.agc", "/dev/null", "4"]
        with self.subTest("from another folder"):
            self.assertAnswer(call([f"{folder}/agcws", *words], self.room), 0, LINES)
        os.mkdir(f"{self.room}/bin")
        os.symlink(f"{folder}/agcws", f"{self.room}/bin/agcws")
        os.symlink("agcws", f"{self.room}/bin/again")
        with self.subTest("through a link"):
            self.assertAnswer(call([f"{self.room}/bin/agcws", *words], self.room), 0, LINES)
        with self.subTest("through a link to a link, found on the PATH"):
            self.assertAnswer(call(["again", *words], self.room, path=f"{self.room}/bin"), 0, LINES)
        os.symlink(folder, f"{self.room}/linked")
        with self.subTest("through a link to its folder"):
            self.assertAnswer(call(["./agcws", *RUN], f"{self.room}/linked"), 0, LINES)
        write(f"{self.room}/a source.agc", b" SETLOC 4000\n")
        with self.subTest("of a path with a blank"):
            self.assertAnswer(call([f"{folder}/agcws", "run", "a source.agc", "/dev/null", "1"], self.room), 0, b"")
        with self.subTest("the status of a wrong command line"):
            self.assertEqual(call([f"{folder}/agcws", "run"], self.room)[0], 2)

    def try_words(self, folder):
        """What the script says where the program does not run."""
        script, program = f"{self.room}/bare/agcws", f"{self.room}/bare/crates/agcws/out/agcws"
        os.makedirs(os.path.dirname(program))
        shutil.copy(f"{folder}/agcws", script)
        executable(program, "#!/bin/sh\necho \"$0: /lib/x86_64-linux-gnu/libc.so.6: version 'GLIBC_2.34' not found (required by $0)\" >&2\nexit 1\n")
        os.mkdir(f"{self.room}/old")
        for version, told_so in (("glibc 2.31", b"2.31"), ("glibc 2.4", b"2.4"), ("", b"another")):
            executable(f"{self.room}/old/getconf", f"#!/bin/sh\necho '{version}'\n")
            status, out, err = call([script, *RUN], folder, path=f"{self.room}/old")
            said = re.match(rb"agcws: the program needs the C library glibc, version 2\.34 or later, and this system has (\S+): [^\n]*\n$", err)
            with self.subTest(f"a C library that is {version or 'none of glibc'}"):
                self.assertTrue((status, out) == (3, b"") and said and said[1] == told_so, f"{err!r}")
        executable(f"{self.room}/old/getconf", "#!/bin/sh\necho glibc 2.34\n")
        status, out, err = call([script, *RUN], folder, path=f"{self.room}/old")
        with self.subTest("a program that fails for another reason says it itself"):
            self.assertTrue(status == 1 and b"GLIBC_2.34" in err, f"{err!r}")
        executable(f"{self.room}/old/uname", "#!/bin/sh\necho Linux aarch64\n")
        status, out, err = call([script, *RUN], folder, path=f"{self.room}/old")
        with self.subTest("another processor"):
            self.assertEqual((status, err), (3, b"agcws: the program runs on Linux on x86-64, and this is Linux aarch64\n"))

    def try_broken_off(self, folder):
        """Ctrl-C at a terminal ends a session, and a line says how it is had again."""
        at = Terminal("./agcws", "debug", "examples/five_plus_five.agc", "/dev/null", folder=folder)
        shown = at.type(b"step 1\n", b"AT 1 2 4001")
        shown += at.type(b"run 1000000000000\n", b"7 CH 010 00012")
        shown += at.type(CTRL_C, b"goes on")
        status = at.end()
        with self.subTest("a session that Ctrl-C has ended"):
            self.assertTrue(status == 130 and b"agcws: Ctrl-C has ended the session." in shown, f"{status} {shown!r}")

    def try_links(self, folder):
        """The links of all pages that stand in a folder."""
        for page in sorted(glob.glob(f"{folder}/**/*.md", recursive=True)):
            for target in re.findall(r"\]\((?![a-z]+:)([^)#]+)", read(page).decode()):
                is_there = os.path.exists(f"{os.path.dirname(page)}/{target}")
                with self.subTest(f"the packed {os.path.relpath(page, folder)} links to {target}"):
                    self.assertTrue(is_there)

    def try_packed(self, folder):
        """What is packed, and that the pages and programs in it hold together."""
        names = "agcws README.md THIRD-PARTY docs/MANUAL.md examples/README.md examples/five_plus_five.agc views/README.md"
        for name in [*names.split(), "views/shake", "crates/agcws/out/agcws"]:
            with self.subTest(f"{name} is packed"):
                self.assertTrue(os.path.isfile(f"{folder}/{name}"))
        self.try_links(folder)
        with self.subTest("a view finds the packed program"):
            self.assertAnswer(call(["views/shake", *SHAKEN], folder), 0, SAME)

    def try_missing(self):
        """What is said where the static C library is not there."""
        os.mkdir(f"{self.room}/without")
        executable(f"{self.room}/without/gcc", "#!/bin/sh\necho libc.a\n")
        path = f"{self.room}/without:{os.path.dirname(shutil.which('rt'))}"
        said = b"pack: libc.a, the static C library, is not there: apt-get install libc6-dev\n"
        with self.subTest("packing without libc.a"):
            self.assertAnswer(call([f"{ROOT}/gate/pack", f"{self.room}/none"], ROOT, path=path), 1, b"", said)
        with self.subTest("nothing is packed then"):
            self.assertFalse(os.path.exists(f"{self.room}/none"))

    def pack_twice(self):
        """Packs what is handed out twice, and returns the paths of the first."""
        made = []
        for folder in ("first", "second folder"):
            words, options = [f"{ROOT}/gate/pack", f"{self.room}/{folder}"], {"capture_output": True, "timeout": 600}
            ran = subprocess.run(words, stdin=subprocess.DEVNULL, **options)
            with self.subTest("what is handed out is packed"):
                self.assertEqual((ran.returncode, ran.stderr), (0, b""))
            made.append(ran.stdout.decode().splitlines())
        for first, second in zip(*made):
            name, size = os.path.basename(first), os.path.getsize(first)
            with self.subTest(f"{name} has the same bytes when it is packed again"):
                self.assertEqual(read(first), read(second))
            with self.subTest(f"the size of {name}"):
                self.assertTrue(size < MOST_BYTES, f"{size} bytes")
        names = sorted(os.path.basename(it) for it in made[0])
        with self.subTest("what is told as packed"):
            self.assertEqual(names, sorted(os.listdir(f"{self.room}/first")))
        return made[0]

    def try_alone(self, program):
        """The program alone, where nothing else stands."""
        with self.subTest("the program asks for no library"):
            self.assertTrue(not asks_for_libraries(program) and asks_for_libraries(PROGRAM))
        root = f"{self.room}/root"
        os.mkdir(root)
        shutil.copy(program, f"{root}/agcws")
        wanted, found = help_pages.helps_of(PROGRAM), help_pages.helps_of(f"{root}/agcws")
        with self.subTest("the program's helps are those of the proved one"):
            self.assertTrue(wanted == found and len(wanted) > 10)
        for it in ("lost_sum.agc", "lost_sum.feed"):
            shutil.copy(f"{ROOT}/examples/{it}", root)
        words = ["/agcws", "run", "/lost_sum.agc", "/lost_sum.feed", "60"]
        try:
            answer = call(words, root, preexec_fn=lambda: os.chroot(root))
        except subprocess.SubprocessError:
            return print("the program in an empty root is not tried, since this user may not change the root")
        with self.subTest("the program in an empty root"):
            self.assertAnswer(answer, 0, b"87 CH 012 00075\n")

    def try_relinked(self, folder):
        """That the packed program is had again from the objects that are packed with it, as the file beside them tells."""
        command = read(f"{folder}/README").decode().splitlines()[-1].split()
        ran = subprocess.run(command, cwd=folder, capture_output=True, timeout=120)
        same = ran.returncode == 0 and read(f"{folder}/agcws") == read(f"{folder}/../crates/agcws/out/agcws")
        with self.subTest("the packed program is linked anew of its objects"):
            self.assertTrue(same, f"{ran}")

    def try_man_page(self, path):
        """The man page, as it is shown: each help's tables, and each line of what follows them."""
        if not shutil.which("groff"):
            return print("the man page is not tried, since groff is not there: apt-get install groff-base")
        words, page = ["groff", "-man", "-Tascii", "-ww", "-P", "-cbou"], gzip.decompress(read(path))
        ran = subprocess.run(words, input=page, capture_output=True, timeout=120)
        with self.subTest("the man page is shown without a warning"):
            self.assertEqual((ran.returncode, ran.stderr), (0, b""))
        lines = ran.stdout.decode().splitlines()
        words = " ".join(ran.stdout.decode().split())
        for it in help_pages.helps_of(PROGRAM):
            left = [line for line in it.more.split("\n") if line not in lines]
            with self.subTest(f"the man page has what follows in the help of {it.words}"):
                self.assertFalse(left, f"{left}")
            left = [row for rows in it.tables.values() for row in rows if " ".join(row) not in words]
            with self.subTest(f"the man page has the tables of the help of {it.words}"):
                self.assertFalse(left, f"{left}")

    def try_completion(self, path):
        """What bash completes."""
        with self.subTest("bash reads what completes words"):
            self.assertEqual(call(["bash", "-n", path], "/"), (0, b"", b""))
        for typed, completed in COMPLETED.items():
            script = '. "$1"; COMP_WORDS=("${@:2}"); COMP_CWORD=$(($# - 2)); _agcws; echo "${COMPREPLY[*]}"'
            answer = call(["bash", "-c", script, "bash", path, *typed.split(" ")], "/")
            with self.subTest(f"{typed!r} is completed"):
                self.assertAnswer(answer, 0, f"{completed}\n".encode())

    def try_installed(self, root):
        """What the package puts into the root of a system."""
        with self.subTest("the program of the package"):
            self.assertAnswer(call([f"{root}/usr/bin/agcws", *RUN], ROOT), 0, LINES)
        views = f"{root}/usr/share/agcws/views"
        shaken = call([f"{views}/shake", *SHAKEN], ROOT, path=f"{root}/usr/bin")
        with self.subTest("a view of the package finds the program on the PATH"):
            self.assertAnswer(shaken, 0, SAME)
        first_line = read(f"{views}/shake").startswith(pack.PYTHON_OF_SYSTEM)
        with self.subTest("a view of the package is run by the system's Python"):
            self.assertTrue(first_line)
        self.try_links(f"{root}/usr/share/agcws")
        for name in ("copyright", "changelog.gz", "README.md", "docs/MANUAL.md", "examples/lost_sum.agc"):
            with self.subTest(f"the package has the document {name}"):
                self.assertTrue(os.path.isfile(f"{root}/usr/share/doc/agcws/{name}"))
        self.try_man_page(f"{root}/usr/share/man/man1/agcws.1.gz")
        self.try_completion(f"{root}/usr/share/bash-completion/completions/agcws")

    def try_package(self, package):
        """The package, put into a root of its own and taken out again, so that nothing of this system is changed."""
        root = f"{self.room}/system"
        os.makedirs(f"{root}/var/lib/dpkg/info")
        os.makedirs(f"{root}/var/lib/dpkg/updates")
        write(f"{root}/var/lib/dpkg/status", b"")
        if os.geteuid() or not shutil.which("dpkg"):
            print("the package is only unpacked, since to install it takes dpkg and the user root")
            subprocess.run(["dpkg-deb", "-x", package, root], check=True)
            return self.try_installed(root)
        before = pack.paths_in(root)

        def dpkg(*words):
            options = [f"--root={root}", f"--log={self.room}/dpkg.log"]
            return subprocess.run(["dpkg", *options, *words], capture_output=True, timeout=120)

        ran = dpkg("--install", package)
        with self.subTest("the package is installed"):
            self.assertEqual((ran.returncode, ran.stderr), (0, b""))
        ran = dpkg("--verify", "agcws")
        with self.subTest("the sums of the package hold"):
            self.assertEqual((ran.returncode, ran.stdout, ran.stderr), (0, b"", b""))
        self.try_installed(root)
        ran = dpkg("--remove", "agcws")
        with self.subTest("the package is removed"):
            self.assertEqual((ran.returncode, ran.stderr), (0, b""))
        left = [it for it in pack.paths_in(root) if it not in before and not it.startswith("var/lib/dpkg/")]
        with self.subTest("nothing of the package is left"):
            self.assertFalse(left, f"{left}")

    def try_licences(self):
        """That THIRD-PARTY names all crates of the toolchain that the program uses, and has the licences that they have."""
        known = {it.name: it for it in toolchain.crates_below(ROOT)}
        used = {name for it in [known["agcws"], *known["agcws"].below()] for name in it.of_kit}
        text = " ".join(read(f"{ROOT}/THIRD-PARTY").decode().split())
        for name in sorted({*used, "strsim"}):
            files = [f"{toolchain.rt.KIT}/rattle/{name}/{it}" for it in ("LICENSE-MIT", "LICENSE")]
            licences = [" ".join(read(it).decode().split()) for it in files if os.path.isfile(it)]
            with self.subTest(f"the licence of {name}"):
                self.assertTrue(re.search(rf"\b{name}\b", text) and all(it in text for it in licences))

    def try_handed_out(self):
        """What is handed out, and the folder of the packed file."""
        program, file, package = self.pack_twice()
        with tarfile.open(file) as packed:
            owners = {(it.uid, it.gid, it.uname, it.gname) for it in packed}
            with self.subTest("the packed file tells nothing of who packed it"):
                self.assertEqual(owners, {(0, 0, "", "")})
            packed.extractall(f"{self.room}/unpacked")
        folder = f"{self.room}/unpacked/{os.listdir(f'{self.room}/unpacked')[0]}"
        same = read(f"{folder}/crates/agcws/out/agcws") == read(program)
        with self.subTest("the packed program is the one that is handed out alone"):
            self.assertTrue(same)
        self.try_relinked(f"{folder}/relink")
        self.try_alone(program)
        self.try_package(package)
        return folder


if __name__ == "__main__":
    unittest.main()
