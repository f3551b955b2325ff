"""What the tests share: where things stand, the program that is tried, and a case with a folder of its own."""
import os
import signal
import subprocess
import sys
import tempfile
import unittest

sys.dont_write_bytecode = True
TESTS = os.path.dirname(os.path.realpath(__file__))
ROOT = os.path.dirname(TESTS)
EXAMPLES, VIEWS, ROWS = f"{ROOT}/examples", f"{ROOT}/views", f"{TESTS}/rows"
EMPTY = f"{EXAMPLES}/empty.feed"
sys.path += [TESTS, f"{TESTS}/hostile", *(f"{ROOT}/{it}" for it in ("gate", "views", "page", "page/module", "bench"))]
from files import read, write, write_text

IMAGE_BYTES = 73728
# How much of two unequal values is shown, before and after the place where they differ.
BEFORE, AFTER = 200, 400


def program():
    """The program that is tried: what AGCWS names, else the proved one where it is built, else the quick one."""
    built = f"{ROOT}/crates/agcws/out"
    if "AGCWS" not in os.environ:
        proved, quick = f"{built}/agcws", f"{built}/unproved/agcws"
        if not os.access(proved, os.X_OK):
            subprocess.run([f"{ROOT}/agcws", "--unproved", "--version"], stdout=subprocess.DEVNULL, check=True)
        os.environ["AGCWS"] = proved if os.access(proved, os.X_OK) else quick
    if not os.access(os.environ["AGCWS"], os.X_OK):
        raise FileNotFoundError(f"{os.environ['AGCWS']} is not built: run ./agcws --prove first")
    return os.environ["AGCWS"]


def __getattr__(name):
    """PROGRAM is found, and the quick one compiled, where a test asks for it."""
    if name != "PROGRAM":
        raise AttributeError(name)
    globals()["PROGRAM"] = program()
    return globals()["PROGRAM"]


def agcws(*words):
    """Runs the program, and answers its status, its output and its error output."""
    ran = subprocess.run([sys.modules[__name__].PROGRAM, *words], stdin=subprocess.DEVNULL, capture_output=True, timeout=300)
    return ran.returncode, ran.stdout, ran.stderr


def text_of(name):
    """The text of a file of the repository."""
    return read(f"{ROOT}/{name}").decode()


def rows_of_runs():
    """The rows of examples/runs.txt: the name of a program, its feed and its steps."""
    return [line.split() for line in text_of("examples/runs.txt").splitlines() if line and not line.startswith("#")]


def example_runs():
    """The examples that are run: the name of each, and its source and its feed."""
    for name, feed, _ in rows_of_runs():
        yield name, [f"{EXAMPLES}/{name}.agc", f"{EXAMPLES}/{feed}"]


def with_ending(ending):
    """The names of the files of examples/ with an ending, without it."""
    return {it.removesuffix(ending) for it in os.listdir(EXAMPLES) if it.endswith(ending)}


def difference(got, wanted):
    """Two values from shortly before the place where they differ."""
    one, other = repr(got), repr(wanted)
    at = next((at for at, (a, b) in enumerate(zip(one, other)) if a != b), min(len(one), len(other)))
    return "; ".join(f"{label} {'..' * (at > BEFORE)}{it[max(0, at - BEFORE) : at + AFTER]}" for label, it in (("got", one), ("wanted", other)))


class Case(unittest.TestCase):
    """Tests in a new folder each, self.room, that break off after most_seconds, where that is given."""

    most_seconds = None

    def setUp(self):
        super().setUp()
        room = tempfile.TemporaryDirectory(prefix="agcws-")
        self.addCleanup(room.cleanup)
        self.room = room.name
        # (those of unittest draw up all of what differs, which of long outputs takes minutes)
        for it in (bytes, str, list, tuple, dict, set):
            self.addTypeEqualityFunc(it, self.assert_same)
        if self.most_seconds:
            self.addCleanup(signal.setitimer, signal.ITIMER_REAL, 0)
            signal.signal(signal.SIGALRM, self.break_off)
            signal.setitimer(signal.ITIMER_REAL, self.most_seconds, 5)

    def break_off(self, *_):
        raise TimeoutError(f"no end within {self.most_seconds} seconds")

    def assert_same(self, got, wanted, msg=None):
        if got != wanted:
            self.fail(self._formatMessage(msg, difference(got, wanted)))

    def assertAnswer(self, got, status, out, err=b""):
        """The status, the output and the error output of a call."""
        self.assertEqual(got, (status, out, err))
