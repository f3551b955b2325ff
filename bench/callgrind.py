"""Counts the instructions that a program executes, by valgrind's callgrind."""
import re
import shutil
import subprocess
import tempfile

INSTALL = "apt-get install valgrind"


def is_there():
    """Returns whether valgrind is installed."""
    return shutil.which("valgrind") is not None


def instructions(command, given=b""):
    """Returns how many instructions a command takes, to which some bytes are given."""
    with tempfile.NamedTemporaryFile(prefix="callgrind-") as log:
        valgrind = ["valgrind", "--tool=callgrind", "--callgrind-out-file=/dev/null", f"--log-file={log.name}"]
        words = [*valgrind, *map(str, command)]
        subprocess.run(words, input=given, stdout=subprocess.DEVNULL, stderr=subprocess.DEVNULL, check=True)
        return int(re.search(rb"Collected : (\d+)", log.read())[1])
