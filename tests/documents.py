"""What a document shows, block by block.

In a document each fenced block says by its first word what it is:
  agc      a source, which stands in the file my.agc until the next one
  feed     the feed of the next run or session, else the feed is empty; it stands in my.feed
  listing  what `agcws asm` writes for the last source
  listing alone ..   the same, with options, for the source that the listing itself shows
  run N    what `agcws run` writes for the last source in N steps
  debug SRC FEED   a session of `agcws debug`: commands, each after '> ', and the replies to each. A block `debug` goes on with it
  debug my.agc     a session over the last source and feed
  extended SRC FEED   a session of `agcws debug --extended`, as of `debug`
  image V  the bytes with which the image of version V of the last source begins, in hexadecimal
  shell    commands, each after '$ ', and what each writes, run in a folder with my.agc, my.feed and examples/, where agcws is found;
           a last line '..' stands for the rest
  text     nothing that a program takes or writes, as a picture
"""
import os
import re
import subprocess

from common import EXAMPLES, PROGRAM, ROOT, VIEWS, agcws, read, text_of, write
from session import Session, asked

def blocks(text):
    """The fenced blocks of a manual, each with its first line's words and its number."""
    for found in re.finditer(r"^```(\S[^\n]*)\n(.*?)^```$", text, re.M | re.S):
        yield found.group(1).split(), found.group(2).encode(), text.count("\n", 0, found.start()) + 1


def source_of(listing):
    """The source of a listing: the texts of its rows, of which a second word of a line has none."""
    rows = {}
    for row in listing.split("SYMBOLS")[0].splitlines():
        rows.setdefault(row[:5], row[21:].rstrip())
    return "".join(f"{it}\n" for it in rows.values())


def settle(room):
    """Has the program, the examples and the views stand in a folder, as the documents have it."""
    os.symlink(PROGRAM, f"{room}/agcws")
    os.symlink(EXAMPLES, f"{room}/examples")
    os.symlink(VIEWS, f"{room}/views")


class Document:
    """Tries all that a document shows, block by block."""

    def __init__(self, test, name):
        self.test, self.room, self.name, self.session = test, test.room, name, None
        self.source, self.feed, self.rope = (f"{self.room}/my.{it}" for it in ("agc", "feed", "rope"))
        write(self.feed, b"")

    def check(self):
        text = text_of(self.name)
        for words, body, line in blocks(text):
            shown = getattr(self, f"try_{words[0]}", None)
            if shown:
                shown(f"{self.name}:{line}", words[1:], body)
            else:
                with self.test.subTest(f"{self.name}:{line}"):
                    self.test.fail(f"no such block: {words[0]}")
        self.end()

    def try_agc(self, label, words, body):
        write(self.source, body)
        write(self.feed, b"")

    def try_feed(self, label, words, body):
        write(self.feed, body)

    def try_listing(self, label, words, body):
        if words[:1] == ["alone"]:
            self.try_agc(label, [], source_of(body.decode()).encode())
        with self.test.subTest(label):
            self.test.assertAnswer(agcws("asm", *words[1:], self.source, self.rope), 0, body)

    def try_image(self, label, words, body):
        status, _, _ = agcws("asm", "--rope", words[0], self.source, self.rope)
        with self.test.subTest(label):
            self.test.assertTrue(status == 0 and read(self.rope).startswith(bytes.fromhex(body.decode())))

    def try_run(self, label, words, body):
        with self.test.subTest(label):
            self.test.assertAnswer(agcws("run", self.source, self.feed, words[0]), 0, body)

    def try_extended(self, label, words, body):
        self.try_debug(label, words, body, "--extended")

    def try_debug(self, label, words, body, *options):
        if words:
            self.end()
            source, feed = (self.source, self.feed) if words == ["my.agc"] else [f"{ROOT}/{it}" for it in words]
            self.session = Session(self.test, source, feed, *options)
        for command, replies in asked(body.decode(), "> "):
            self.session.ask(label, command, replies)

    def try_shell(self, label, words, body):
        for command, wanted in asked(body.decode(), r"\$ "):
            ran = subprocess.run(["bash", "-c", command], cwd=self.room, env={**os.environ, "PATH": f"{self.room}:{os.environ['PATH']}"},
                                 stdin=subprocess.DEVNULL, stdout=subprocess.PIPE, stderr=subprocess.STDOUT, timeout=300)
            is_right = ran.stdout.startswith(wanted[:-3]) if wanted.endswith(b"\n..\n") else ran.stdout == wanted
            with self.test.subTest(f"{label}: {command!r}"):
                self.test.assertTrue(is_right, f"wanted {wanted!r}, got {ran.stdout!r}")

    def try_text(self, label, words, body):
        with self.test.subTest(label):
            self.test.assertFalse(words)

    def end(self):
        if self.session:
            self.session.end(f"a session of {self.name}")
            self.session = None
