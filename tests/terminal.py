"""A program at a terminal, where Ctrl-C can be typed."""
import os
import pty
import select
import signal
import time

CTRL_C = b"\x03"
# The most bytes that are awaited in vain.
MOST_SHOWN = 65536


class Terminal:
    """A program that was started at a terminal of its own, in a folder."""

    def __init__(self, program, *words, folder=".", env=None):
        self.process, self.terminal = pty.fork()
        if self.process == 0:
            os.chdir(folder)
            # (it is ignored where a script runs in the background)
            signal.signal(signal.SIGINT, signal.SIG_DFL)
            os.execve(program, [program, *words], os.environ if env is None else env)

    def type(self, typed, awaited=b"", most_seconds=20):
        """Types some bytes, and answers what is shown from then on, up to what is awaited and what comes with it. Where much is shown without it, no more is awaited."""
        os.write(self.terminal, typed)
        shown = b""
        while awaited not in shown and len(shown) < MOST_SHOWN and select.select([self.terminal], [], [], most_seconds)[0]:
            try:
                shown += os.read(self.terminal, 1000)
            except OSError:
                break  # the program has ended
        return shown

    def end(self, most_seconds=10):
        """The exit status of the program, which is to end by itself, and is ended where it does not."""
        last = time.monotonic() + most_seconds
        while True:
            found, status = os.waitpid(self.process, os.WNOHANG)
            if found:
                os.close(self.terminal)
                return os.waitstatus_to_exitcode(status)
            if time.monotonic() > last:
                os.kill(self.process, signal.SIGKILL)
                last += most_seconds
            time.sleep(0.05)
