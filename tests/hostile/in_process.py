"""The cases of hostile bytes, tried in one process for each call (in_process.c)."""
import collections
import os
import subprocess

import cases


class Run:
    """The cases of a kind, from a number to below another, that are tried by one of its calls."""

    def __init__(self, made, seed, first, last, kind, call):
        self.made, self.seed, self.first, self.last, self.kind, self.call = made, seed, first, last, kind, call
        self.words, self.step = cases.CALLS[kind][call], len(cases.CALLS[kind])
        self.progress = f"{made.room}/progress-{kind}-{call}"
        self.count, self.wrong, self.told, self.answers, self.failures = 0, [], [], collections.Counter(), collections.Counter()
        self.slowest, self.largest = (0, 0), (0, 0)

    def try_from(self, first, settings):
        """Tries the cases from a number on, until one ends the process; answers where to go on."""
        settings = {
            "SEED": self.seed,
            "KIND": cases.KINDS.index(self.kind),
            "FIRST": first,
            "STEP": self.step,
            "LAST": self.last,
            "SOUND": ":".join(self.made.sound[self.kind]),
            "INPUT": self.made.commands,
            "REFUSALS": ",".join(map(str, cases.REFUSALS[self.kind])),
            "PROGRESS": self.progress,
            **settings,
        }
        env = {**os.environ, "LD_PRELOAD": self.made.in_process, **{f"HOSTILE_{name}": str(it) for name, it in settings.items()}}
        ran = subprocess.run([cases.PROGRAM, *self.words], env=env, capture_output=True, text=True)
        is_ended = self.take(ran.stdout)
        if is_ended and ran.returncode in (0, 1):
            return None
        stopped = int.from_bytes(cases.read(self.progress), "little")
        self.wrong.append(f"{stopped} " + ("did not end in time" if ran.returncode == 99 else f"ended the process: {ran.returncode} {ran.stderr[-200:]}"))
        return stopped + self.step

    def take(self, text):
        """Takes what the library tells, and answers whether it told all."""
        is_ended = False
        for line in text.splitlines():
            word, _, rest = line.partition(" ")
            if word == "wrong":
                self.wrong.append(rest)
            elif word == "told":
                self.told.append(line)
            elif word == "cases":
                self.count += int(rest)
                is_ended = True
            elif word in ("answers", "failures"):
                what, count = rest.split()
                getattr(self, word)[what] += int(count)
            elif word in ("slowest", "largest"):
                setattr(self, word, max(getattr(self, word), tuple(map(int, rest.split()))))
        return is_ended

    def try_all(self, **settings):
        first = self.first + (self.call - self.first) % self.step
        while first is not None and first < self.last and len(self.wrong) < 10:
            first = self.try_from(first, settings)
        return self


def runs_of(made, seed, first, last, kind):
    """A run for each call of a kind."""
    return [Run(made, seed, first, last, kind, call) for call in range(len(cases.CALLS[kind]))]
