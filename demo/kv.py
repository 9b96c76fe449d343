#!/usr/bin/env python3
"""Talks to kvell: reads lines of commands, sends them as frames, and prints one line per reply.

    python3 demo/kv.py DIR [FILE]

opens the store in the folder DIR, or makes a new one there, by starting `kvell serve DIR 1 - -`, and takes its
commands from FILE, or from standard input. A line is a command, or empty, or a remark that begins with #:

    put KEY VALUE      gives KEY the value
    put KEY @FILE      gives KEY what stands in FILE (a value that begins with @ is written @@)
    get KEY            asks for the value of KEY
    del KEY            takes the value of KEY away
    after STAMP        asks that each later stamp be above this one, which some reply told

Words are quoted as in a shell: put 'a key' "two words". The commands of FILE are sent without waiting for replies, in
groups as large as kvell takes; behind each line of standard input goes a Flush, so that its reply comes at once, and at
a terminal each prompt waits for it.

The program is crates/kvell/out/kvell, as `rt run` leaves it, or what the variable KVELL names.

Exit status: kvell's own (0 all is well, 1 the session ended early or a write is unsure, 2 kvell didn't take its words,
3 the store can't be opened, 4 no memory); where kvell's is 0, 2 for lines that are no commands or words that aren't DIR
[FILE].
"""

import os
import shlex
import struct
import subprocess
import sys
import threading
from collections import deque
from typing import BinaryIO, Callable, Iterable, NamedTuple

LONG_FILE = 10_000  # lines from which on a file's progress is told
SHOWN_BYTES = 200  # bytes of a value that are printed
LONGEST_FRAME = 66_000  # bytes of a frame behind its length


# ---- Requests: one entry for each command ---------------------------------------------------------------------------


class Command(NamedTuple):
    """A command: how its line reads, how many words follow its name, and the frame's content."""

    line: str
    words: int
    content: Callable[..., bytes]


class BadLine(Exception):
    """A line that can't be sent, and why."""


def put_content(key: str, value: str) -> bytes:
    name = raw(key)
    if len(name) > 255:
        raise BadLine("the key has more than 255 bytes")
    return bytes([0x01, len(name)]) + name + value_of(value)


def get_content(key: str) -> bytes:
    return b"\x02" + raw(key)


def delete_content(key: str) -> bytes:
    return b"\x03" + raw(key)


def after_content(stamp: str) -> bytes:
    if not stamp.isascii() or not stamp.isdigit() or int(stamp) >= 1 << 64:
        raise BadLine("a stamp is a number below 2^64")
    return b"\x06" + struct.pack("<Q", int(stamp))


COMMANDS = {
    "put": Command("put KEY VALUE", 2, put_content),
    "get": Command("get KEY", 1, get_content),
    "del": Command("del KEY", 1, delete_content),
    "after": Command("after STAMP", 1, after_content),
}

FLUSH = struct.pack("<IB", 1, 0x05)  # ends a group, whose replies are then written


def raw(word: str) -> bytes:
    return word.encode("utf-8", "surrogateescape")


def value_of(word: str) -> bytes:
    """The bytes of a value: the word itself, or the content of the file that it names."""
    if word.startswith("@@"):
        return raw(word[1:])
    if not word.startswith("@"):
        return raw(word)
    try:
        with open(word[1:], "rb") as file:
            return file.read(LONGEST_FRAME + 1)
    except OSError as error:
        raise BadLine(f"{word[1:]}: {error.strerror}") from error


def frame_of(line: str) -> bytes | None:
    """The request frame of a line, or none where it is empty or a remark."""
    try:
        words = shlex.split(line, comments=False)
    except ValueError as error:
        raise BadLine(str(error).lower()) from error
    if not words or words[0].startswith("#"):
        return None
    command = COMMANDS.get(words[0])
    if command is None:
        raise BadLine(f"{words[0]!r} is no command: {' or '.join(c.line for c in COMMANDS.values())}")
    if len(words) != command.words + 1:
        raise BadLine(f"it should read {command.line}")
    content = command.content(*words[1:])
    if len(content) > LONGEST_FRAME:
        raise BadLine(f"it has more than {LONGEST_FRAME:,} bytes")
    return struct.pack("<I", len(content)) + content


# ---- Replies: one entry for each kind -------------------------------------------------------------------------------


def stamp_of(body: bytes) -> int:
    return struct.unpack_from("<Q", body)[0]


def shown(value: bytes) -> str:
    """A value as text: its first bytes, and how many there are where they aren't all."""
    text = value[:SHOWN_BYTES].decode("utf-8", "backslashreplace")
    return text if len(value) <= SHOWN_BYTES else f"{text}... ({len(value):,} bytes)"


REPLIES = {
    0x81: lambda body: f"stored at {stamp_of(body)}",
    0x82: lambda body: f"found at {stamp_of(body)}: {shown(body[8:])}",
    0x83: lambda body: f"missing at {stamp_of(body)}",
    0x84: lambda body: f"removed at {stamp_of(body)}",
    0x85: lambda body: f"absent at {stamp_of(body)}",
    0x87: lambda body: "noted: later stamps are above it",
    0xE1: lambda body: "refused: a key has 1 to 255 bytes",
    0xE2: lambda body: "refused: key and value have more than 65,400 bytes together",
    0xE3: lambda body: f"refused: each slot of class {body[0]} is taken",
    0xE4: lambda body: "refused: the store has no memory for it; nothing changed",
    0xE5: lambda body: "refused: the disk failed to read; nothing changed, and the store goes on",
    0xE6: lambda body: f"unsure at {stamp_of(body)}: the disk failed, and the change may be on it or not",
    0xE7: lambda body: "refused: the store is closed, since an earlier change is unsure; open it again",
    0xE8: lambda body: f"refused: no stamp is left; the next would be {stamp_of(body)}",
    0xE9: lambda body: f"the bytes at {stamp_of(body)} are no request; nothing behind them was read",
    0xEA: lambda body: f"refused: no stamp from {stamp_of(body)} on was given so far",
}

STATUSES = {
    1: "A change is unsure or bytes were no request, as a line above says; else the session's input or output failed.",
    2: "kvell didn't take its words: DIR may not be empty, nor begin with - but where it is - alone.",
    3: "The store can't be opened: the folder above DIR isn't there, DIR has files that are no store, a store of more "
    "workers or one that another process has open, or its disk failed.",
    4: "There was no memory to begin with.",
}


def read_frame(stream: BinaryIO) -> tuple[int, bytes] | None:
    """The kind and the body of the next reply, or none where the replies end."""
    head = stream.read(4)
    if len(head) < 4:
        return None
    length = struct.unpack("<I", head)[0]
    content = stream.read(length)
    return (content[0], content[1:]) if length == len(content) != 0 else None


# ---- A session ------------------------------------------------------------------------------------------------------


class Session:
    """A running kvell, and the lines that it hasn't answered yet."""

    def __init__(self, program: str, folder: str, lines: int | None):
        self.process = subprocess.Popen(
            [program, "serve", folder, "1", "-", "-"], stdin=subprocess.PIPE, stdout=subprocess.PIPE
        )
        self.waiting: deque[str] = deque()
        self.answered = 0
        self.lines = lines
        self.changed = threading.Condition()
        self.ended = False
        self.reader = threading.Thread(target=self.print_replies)
        self.reader.start()

    def send(self, line: str, frame: bytes) -> bool:
        """Sends a request; false where kvell takes no more."""
        with self.changed:
            self.waiting.append(line)
        try:
            self.process.stdin.write(frame)
            return True
        except BrokenPipeError:
            return False

    def flush(self) -> bool:
        try:
            self.process.stdin.flush()
            return True
        except BrokenPipeError:
            return False

    def wait_for_replies(self) -> None:
        with self.changed:
            self.changed.wait_for(lambda: self.ended or not self.waiting)

    def print_replies(self) -> None:
        try:
            while (frame := read_frame(self.process.stdout)) is not None:
                self.print_reply(*frame)
        except BrokenPipeError:
            pass  # nobody reads our lines any more
        finally:
            self.process.stdout.close()
            with self.changed:
                self.ended = True
                self.changed.notify_all()

    def print_reply(self, kind: int, body: bytes) -> None:
        reply = REPLIES.get(kind, lambda body: f"a reply of the unknown kind {kind:#x}")
        line = self.waiting[0] if self.waiting else "(end of input)"
        print(f"{line}: {reply(body)}", flush=self.lines is None)
        self.answered += 1
        self.tell_progress()
        with self.changed:
            if self.waiting:
                self.waiting.popleft()
            self.changed.notify_all()

    def tell_progress(self) -> None:
        if self.lines is not None and self.lines >= LONG_FILE and self.answered % LONG_FILE == 0:
            print(f"{self.answered:,} replies to {self.lines:,} lines", file=sys.stderr)

    def close(self) -> int:
        """Ends the input, waits for the replies that are still to come, and answers kvell's status."""
        try:
            self.process.stdin.close()
        except BrokenPipeError:
            pass
        self.reader.join()
        status = self.process.wait()
        if self.waiting:
            print(f"Commands that were not answered: {len(self.waiting)}.", file=sys.stderr)
        if status < 0:
            print(f"kvell was ended by the signal {-status}.", file=sys.stderr)
            return 1
        if status != 0:
            print(STATUSES.get(status, f"kvell ended with the status {status}."), file=sys.stderr)
        return status


def run(session: Session, lines: Iterable[str], terminal: bool) -> int:
    """Sends the lines; answers how many of them are no commands."""
    bad = 0
    for number, line in enumerate(lines, 1):
        line = line.strip()
        try:
            frame = frame_of(line)
        except BadLine as error:
            print(f"line {number}: {error}", file=sys.stderr)
            bad += 1
            continue
        if frame is None:
            continue
        if session.lines is None:
            frame += FLUSH
        if not session.send(line if len(line) <= 60 else line[:57] + "...", frame):
            break
        if session.lines is None and not session.flush():
            break
        if terminal:
            session.wait_for_replies()
    return bad


def prompted() -> Iterable[str]:
    """The lines that a person types, each behind a prompt."""
    while True:
        try:
            yield input("kvell> ")
        except EOFError:
            print()
            return


def count_lines(path: str) -> int:
    with open(path, "rb") as file:
        return sum(1 for _ in file)


def main(words: list[str]) -> int:
    if len(words) not in (1, 2) or words[0] in ("-h", "--help"):
        print(__doc__.strip(), file=sys.stderr)
        return 2
    folder = words[0]
    here = os.path.dirname(os.path.abspath(__file__))
    program = os.environ.get("KVELL") or os.path.join(here, "..", "crates", "kvell", "out", "kvell")
    if not os.access(program, os.X_OK):
        print("kvell isn't built: `cd crates/kvell && rt run` builds it.", file=sys.stderr)
        return 2
    sys.stdin.reconfigure(errors="surrogateescape")
    sys.stdout.reconfigure(errors="backslashreplace")
    terminal = len(words) == 1 and sys.stdin.isatty()
    source, lines = prompted() if terminal else sys.stdin, None
    if len(words) == 2:
        try:
            lines = count_lines(words[1])
            source = open(words[1], encoding="utf-8", errors="surrogateescape")
        except OSError as error:
            print(f"{words[1]}: {error.strerror}", file=sys.stderr)
            return 2
    session = Session(program, folder, lines)
    try:
        bad = run(session, source, terminal)
    except KeyboardInterrupt:
        bad = 0
    status = session.close()
    return status or (2 if bad else 0)


if __name__ == "__main__":
    sys.exit(main(sys.argv[1:]))
