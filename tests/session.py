"""Sessions of the program through pipes."""
import fcntl
import os
import re
import select
import subprocess
import termios
import time

import common

# The most seconds that a reply is awaited while the program goes on, and that one is after such a wait in vain.
WAIT, WAIT_LATER = 300, 2
# So many seconds pass until a program that is silent is looked at.
LOOK = 0.02
# The most parts of a wrong reply that are read, so that the next reply is told apart.
MOST_PARTS = 1000


class Session:
    """A session of `agcws debug` through pipes: the replies to each command are awaited before the next one is sent."""

    # The most seconds that a reply is awaited, by what has come so far in any session
    longest = WAIT

    def __init__(self, test, source, feed, *options):
        self.test = test
        self.ran = subprocess.Popen([common.PROGRAM, "debug", *options, source, feed], stdin=subprocess.PIPE, stdout=subprocess.PIPE, stderr=subprocess.PIPE)

    def ask(self, label, command, replies):
        """Sends a command with its line feed, and compares as many bytes as the replies have. Nothing is awaited after a byte that is another, or where the program waits itself."""
        try:
            os.write(self.ran.stdin.fileno(), command)
        except BrokenPipeError:
            pass  # the program has ended
        got = b""
        while len(got) < len(replies) and replies.startswith(got) and (part := self.more(len(replies) - len(got))):
            got += part
        with self.test.subTest(f"{label}: {command!r}"):
            self.test.assertEqual(got, replies)
        if got != replies:
            self.leave_the_rest()

    def leave_the_rest(self):
        """Reads what else is replied, so that the next reply is told apart; a program that goes on and on is ended."""
        for _ in range(MOST_PARTS):
            if not self.more(65536):
                return
        self.ran.kill()

    def more(self, most):
        """At most so many bytes that are replied; none where nothing comes, since the program waits for a command, has ended, or has not replied in time, and is ended."""
        last = time.monotonic() + Session.longest
        while not self.has_replied(LOOK):
            if self.waits() and not self.has_replied(0):
                return b""
            if time.monotonic() > last:
                Session.longest = WAIT_LATER
                self.ran.kill()
        return os.read(self.ran.stdout.fileno(), most)

    def has_replied(self, seconds):
        """Returns whether something can be read, or the program has ended."""
        return bool(select.select([self.ran.stdout], [], [], seconds)[0])

    def waits(self):
        """Returns whether the program has read all that was sent to it, and sleeps."""
        unread = fcntl.ioctl(self.ran.stdin, termios.FIONREAD, bytes(4))
        with open(f"/proc/{self.ran.pid}/stat", encoding="ascii") as file:
            return not any(unread) and file.read().rpartition(") ")[2][0] == "S"

    def writes(self):
        """How many times the program has called the system to write."""
        with open(f"/proc/{self.ran.pid}/io", encoding="ascii") as file:
            return int(re.search(r"^syscw: (\d+)$", file.read(), re.M).group(1))

    def end(self, label):
        """Ends the input: nothing more is replied."""
        try:
            out, err = self.ran.communicate(timeout=WAIT)
        except subprocess.TimeoutExpired:
            self.ran.kill()
            out, err = b"", b"no end"
        with self.test.subTest(label):
            self.test.assertEqual((self.ran.returncode, out, err), (0, b"", b""))


def asked(text, mark="> "):
    """The commands of a text, each after a mark, with the replies that follow it."""
    for part in re.split(f"^{mark}", text, flags=re.M)[1:]:
        command, _, replies = part.partition("\n")
        yield f"{command}\n".encode(), replies.encode()
