"""Messages of the Debug Adapter Protocol and of the Language Server Protocol, whatever a client sends. `dap` and `lsp` use this module.

A message has a header, `Content-Length: N` and an empty line, and N bytes of JSON."""
import json
import queue
import re
import threading
from typing import NamedTuple

# The most bytes of a message, of a line of its header, and the most messages that wait to be answered.
MOST_BYTES, MOST_LINE, MOST_WAITING = 1 << 20, 1 << 12, 64
# A length of more digits is none.
MOST_DIGITS = 12

LENGTH = re.compile(rb"content-length:[ \t]*([^\r\n]*)", re.I)
SEQ, COMMAND = re.compile(rb'"seq"\s*:\s*(\d{1,15})\b'), re.compile(rb'"command"\s*:\s*"(\w{1,64})"')
FIELD = re.compile(rb"[A-Za-z-]+:[^{]*")


class Wrong(NamedTuple):
    """What is no request: why, and what is known of it, its number and its command."""

    said: str
    seq: int = 0
    command: str = ""


class Messages:
    """The messages of a stream, each as JSON has it, and what is wrong in its place. After that it goes on with the next header."""

    def __init__(self, stream, most=MOST_BYTES, named=(SEQ, COMMAND)):
        """A message has MOST bytes at most; of a longer one it is known what NAMED finds, its number and its name."""
        self.stream, self.rest, self.most, self.named = stream, b"", most, named

    def __iter__(self):
        length, is_lost = None, False
        while line := self.line():
            found = LENGTH.search(line)
            if found:
                length = found[1].strip()
            elif line.strip() and not FIELD.match(line):
                if not is_lost:
                    yield Wrong("what stands before a header is passed over")
                is_lost = True
            elif not line.strip() and length is not None:
                is_right = length.isdigit() and len(length) < MOST_DIGITS
                message = self.message(int(length)) if is_right else Wrong(f"Content-Length: {length[:40].decode('ascii', 'replace')} is no number of bytes")
                if message is None:
                    return
                yield message
                # (what follows a wrong length is no header yet, which goes without saying)
                length, is_lost = None, not is_right

    def line(self):
        """The next line, or as much of it as a header may have."""
        part, feed, rest = self.rest.partition(b"\n")
        self.rest = rest
        return part + feed if feed else part + self.stream.readline(MOST_LINE)

    def read(self, count):
        """So many bytes, or fewer at the end."""
        part, self.rest = self.rest[:count], self.rest[count:]
        return part + self.stream.read(count - len(part))

    def message(self, length):
        """The message of so many bytes, or None at the end."""
        if length > self.most:
            return self.passed_over(length)
        body = self.read(length)
        if len(body) < length:
            return None
        try:
            return json_of(body.decode())
        except json.JSONDecodeError as wrong:
            if wrong.msg == "Extra data":
                # (its length was too great: what follows it belongs to the next one)
                self.rest = wrong.doc[wrong.pos :].encode() + self.rest
                return json_of(wrong.doc[: wrong.pos])
            return Wrong("a message that is no JSON is passed over")
        except (ValueError, RecursionError):
            return Wrong("a message that is no JSON is passed over")

    def passed_over(self, length):
        """What is known of a message that is too long: it is not held."""
        head = self.read(MOST_LINE)
        tail, left = head, length - len(head)
        while left > 0:
            part = self.read(min(left, 1 << 16))
            if not part:
                return None
            tail, left = (tail + part)[-MOST_LINE:], left - len(part)
        found = [[it[1].decode() for text in (head, tail) if (it := form.search(text))] for form in self.named]
        seq, command = (it[0] if it else "" for it in found)
        return Wrong(f"a message has {self.most} bytes at most, and this one {length}", int(seq or 0), command)


def json_of(text):
    def refuse(name):
        raise ValueError(name)

    message = json.loads(text, parse_constant=refuse)
    return Wrong("null is no message") if message is None else message


class Inbox:
    """What a client sends, read while the adapter is at work."""

    def __init__(self, stream, leave):
        """`leave` is called where the client leaves, or asks for the end."""
        self.waiting, self.cancelled, self.leave = queue.Queue(MOST_WAITING), set(), leave
        threading.Thread(target=self.fill, args=[stream], daemon=True).start()

    def fill(self, stream):
        try:
            for message in Messages(stream):
                command = message.get("command") if isinstance(message, dict) else None
                if command == "cancel":
                    self.cancelled.add(cancelled_by(message))
                if command in ("disconnect", "terminate"):
                    self.leave()
                self.waiting.put(message)
        except OSError:
            pass  # (as at the end)
        self.leave()
        self.waiting.put(None)

    def next(self, seconds):
        """The next message, or None at the end. Raises queue.Empty where none comes in that time."""
        return self.waiting.get(timeout=seconds) if seconds else self.waiting.get_nowait()


def cancelled_by(message):
    """The number of the request that a cancel request names, or None."""
    asked = message.get("arguments")
    number = asked.get("requestId") if isinstance(asked, dict) else None
    return number if isinstance(number, int) else None


class Refusal(Exception):
    """Why a request is refused, in words, and in the word that the protocol has for it, if any."""

    def __init__(self, said, short=None):
        super().__init__(said)
        self.short = short or said


KINDS = {int: "a whole number", str: "a text", bool: "true or false", list: "a list", dict: "an object"}


def argument(asked, name, kind, *default):
    """An argument of a request, or of a part of it, of the kind that it is to be."""
    value = asked.get(name) if isinstance(asked, dict) else None
    if value is None and default:
        return default[0]
    if not isinstance(value, kind) or kind is int and isinstance(value, bool):
        raise Refusal(f"{name} is to be {KINDS[kind]}")
    return value


def one_line(text, most=1000):
    """A text that is a line of ASCII, as commands are."""
    if not text.isascii() or not text.isprintable() or len(text) > most:
        raise Refusal(f"this is to be one line of ASCII, of {most} bytes at most")
    return text.strip()
