"""Sessions whose images stand in a vector, by the program vector_session: the rows of sessions, and what it answers where memory is refused."""
import collections
import os
import re
import subprocess
import unittest

from common import ROOT, ROWS, Case, read, write
from test_hostile import Refusing, agcws
from test_rows import OnRows

# The program; and a source, a feed and commands for a session.
VECTOR_SESSION = os.environ.get("VECTOR_SESSION", f"{ROOT}/crates/vector_session/out/vector_session")
PARTS = read(f"{ROOT}/crates/vector_session/stdin").split(b"---\n")


def sessions():
    """The sessions of sessions.md: a source, a feed, commands and the replies to all of them."""
    source, feed = b"", b""
    with open(f"{ROWS}/sessions.md", encoding="utf-8") as file:
        for words, body in re.findall(r"^```(\S.*)\n((?s:.*?))^```$", file.read(), re.M):
            kind, *files = words.split()
            if kind == "agc":
                source, feed = body.encode(), b""
            elif kind == "feed":
                feed = body.encode()
            elif kind == "debug":
                lines = body.splitlines()
                over = (source, feed) if files == ["my.agc"] else [read(f"{ROOT}/{it}") for it in files]
                yield (*over, [it[2:] for it in lines if it.startswith("> ")], "".join(f"{it}\n" for it in lines if not it.startswith("> ")))


def replies_with(replies, commands, told):
    """The replies that a session may have where some of its steps and inputs are refused: as these tell where."""
    made, n, text = b"", 0, b""
    for line in commands.splitlines(True):
        rest, name = told.removeprefix(text), line.split()[0]
        refused = re.match(rb"(?:\d+ CH \d+ \d+\n)*E2 MEMORY\n(?:AT (\d+) .*\n)?", rest)
        if refused and name == b"add":
            text += b"E2 MEMORY\n"
            continue
        is_cut = refused and name in (b"run", b"step")
        # (a step that is refused at once leaves the position at the present, as `goto` does)
        made += line if not is_cut else b"step %d\n" % (int(refused[1]) - n) if int(refused[1]) > n else b"goto %d\n" % n
        reply = replies(made).removeprefix(text.replace(b"E2 MEMORY\n", b""))
        if is_cut:
            reply = re.sub(rb"(AT .*\n)$", rb"E2 MEMORY\n\1", reply)
        if name in (b"run", b"step"):
            n = int(re.search(rb"AT (\d+) .*\n$", reply)[1])
        text += reply
    return text


class VectorCase(Case):
    """Tests of the program vector_session."""

    @classmethod
    def setUpClass(cls):
        super().setUpClass()
        if "VECTOR_SESSION" not in os.environ and not os.access(VECTOR_SESSION, os.X_OK):
            raise unittest.SkipTest("crates/vector_session is not built: rt run in its folder builds it")


class Rows(OnRows, VectorCase):
    """Sessions whose images stand in a vector, by the program vector_session: it takes all from its input, and replies after a line DONE."""

    def session(self, commands):
        parts = [read(self.source), read(self.feed), "".join(f"{it}\n" for it in commands).encode()]
        ran = subprocess.run([VECTOR_SESSION], input=b"---\n".join(parts), capture_output=True, timeout=300)
        return ran.returncode, ran.stdout.decode().partition("DONE\n")[2], ran.stderr.decode()

    def test_sessions(self):
        """The sessions of sessions.md."""
        for source, feed, commands, replies in sessions():
            write(self.source, source)
            write(self.feed, feed)
            with self.subTest(f"a session with images in a vector, {commands[0]}"):
                self.assertEqual(self.session(commands), (0, replies, ""))


class Refused(VectorCase):
    """Growths of the vector that are refused."""

    def test_images_in_a_vector(self):
        """A session whose images stand in a vector: where one of its growths is refused, the step is refused and changes nothing, as the program itself sees, and is made again.
        Then commands, whose replies tell the refused steps and inputs: they are those to the same commands with so many steps fewer, and without those inputs."""
        refusing = Refusing(self.room)
        source, feed = write(f"{self.room}/vector_source", PARTS[0]), write(f"{self.room}/vector_feed", PARTS[1])
        replies = lambda commands: agcws("debug", source, feed, commands=commands)[1]
        text = b"---\n".join(PARTS)
        for setting, title in (("REFUSE_AT", "each of {} requests refused once"), ("REFUSE_FROM", "all requests refused from each of {} on")):
            at, wrong, answers, is_met = 0, [], collections.Counter(), True
            while is_met and at < 100_000:
                at += 1
                (status, out, err), is_met = refusing.run((), text, program=VECTOR_SESSION, **{setting: at})
                steps, done, commands = out.partition(b"DONE\n")
                what = "none" if status else "again" if steps else "told" if b"E2 MEMORY\n" in commands else "whole"
                answers[what] += is_met
                is_right = (status, commands) == (3, b"") or (status == 0 and done and commands == replies_with(replies, PARTS[2], commands))
                if err or steps not in (b"", b"REFUSED\n") or not is_right or (what in ("again", "whole") and is_met and setting == "REFUSE_FROM"):
                    wrong.append((at, status, out[-80:], err[-200:]))
            is_tried = answers["told"] and bool(answers["again"]) == (setting == "REFUSE_AT")
            with self.subTest(f"memory: images in a vector, {title.format(at - 1)}"):
                self.assertTrue(not wrong and not is_met and is_tried, f"{len(wrong)} wrong, the first: {wrong[:3]}; {answers}")
            print(f"memory: images in a vector: {title.format(at - 1)}; {answers['again']} steps refused and made again, {answers['told']} scripts with a refused step or input", flush=True)


if __name__ == "__main__":
    unittest.main()
