#!/usr/bin/env python3
"""Tests of the demonstration, over the built program; `rt run` builds it where it isn't there."""

import os
import shutil
import subprocess
import sys
import tempfile
import unittest

HERE = os.path.dirname(os.path.abspath(__file__))
CRATE = os.path.join(HERE, "..", "crates", "kvell")
PROGRAM = os.environ.get("KVELL") or os.path.join(CRATE, "out", "kvell")


def build() -> None:
    if os.access(PROGRAM, os.X_OK):
        return
    if shutil.which("rt") is None:
        raise unittest.SkipTest("the program isn't built, and rt isn't there")
    # Without words the program itself ends with status 2.
    subprocess.run(["rt", "run"], cwd=CRATE, stdin=subprocess.DEVNULL, stdout=subprocess.DEVNULL)


class Demonstration(unittest.TestCase):
    @classmethod
    def setUpClass(cls):
        build()

    def setUp(self):
        self.scratch = tempfile.TemporaryDirectory()
        self.addCleanup(self.scratch.cleanup)

    def path(self, name: str) -> str:
        return os.path.join(self.scratch.name, name)

    def write(self, name: str, content: bytes) -> str:
        with open(self.path(name), "wb") as file:
            file.write(content)
        return self.path(name)

    def run_kv(self, words: list[str], typed: bytes = b"") -> subprocess.CompletedProcess:
        environment = {**os.environ, "KVELL": PROGRAM}
        return subprocess.run(
            [sys.executable, os.path.join(HERE, "kv.py"), *words],
            input=typed, capture_output=True, env=environment, timeout=60,
        )

    def test_each_line_has_its_reply_in_order(self):
        table = [
            ("put a 1", "put a 1: stored at 1"),
            ("get a", "get a: found at 2: 1"),
            ("get b", "get b: missing at 3"),
            ("", None),
            ("# a remark", None),
            ("put 'two words' \"x  y\"", "put 'two words' \"x  y\": stored at 4"),
            ("get 'two words'", "get 'two words': found at 5: x  y"),
            ("put a @@1", "put a @@1: stored at 6"),
            ("get a", "get a: found at 7: @1"),
            ("del a", "del a: removed at 8"),
            ("del a", "del a: absent at 9"),
            ("get a", "get a: missing at 10"),
            ("get ''", "get '': refused: a key has 1 to 255 bytes"),
        ]
        file = self.write("commands", "\n".join(line for line, _ in table).encode())
        done = self.run_kv([self.path("store"), file])
        self.assertEqual(done.stdout.decode().splitlines(), [reply for _, reply in table if reply])
        self.assertEqual((done.returncode, done.stderr), (0, b""))

    def test_a_value_may_come_from_a_file(self):
        value = self.write("value", b"\xff" + b"v" * 65_398)
        large = self.write("large", b"v" * 65_400)
        lines = f"put a @{value}\nget a\nput b @{large}\nput c @{self.path('none')}\nput d @{large}"
        done = self.run_kv([self.path("store")], lines.encode())
        replies = [line.rsplit(": ", 1)[1] for line in done.stdout.decode().splitlines()]
        self.assertEqual(replies[0], "stored at 1")
        self.assertEqual(replies[1], "\\xff" + "v" * 199 + "... (65,399 bytes)")
        self.assertEqual(replies[2:], ["key and value have more than 65,400 bytes together"] * 2)
        self.assertIn(b"line 4:", done.stderr)
        self.assertEqual(done.returncode, 2)

    def test_lines_that_are_no_commands_are_told_and_passed_over(self):
        lines = b"push a 1\nput a\nput a 'x\nput a 1\nget a b\nget a\n"
        done = self.run_kv([self.path("store")], lines)
        self.assertEqual(done.stdout.decode().splitlines(), ["put a 1: stored at 1", "get a: found at 2: 1"])
        for number in (1, 2, 3, 5):
            self.assertIn(f"line {number}:", done.stderr.decode())
        self.assertEqual(done.returncode, 2)

    def test_a_store_that_is_there_is_opened_again(self):
        self.assertEqual(self.run_kv([self.path("store")], b"put a 1\nput b 2\ndel b\n").returncode, 0)
        done = self.run_kv([self.path("store")], b"get a\nget b\n")
        self.assertEqual(done.stdout, b"get a: found at 4: 1\nget b: missing at 5\n")
        self.assertEqual((done.returncode, done.stderr), (0, b""))

    def test_a_store_that_cannot_be_opened_has_a_sentence(self):
        plain = self.write("plain", b"")
        done = self.run_kv([os.path.join(plain, "store")], b"get a\n")
        self.assertEqual((done.returncode, done.stdout), (3, b""))
        self.assertIn(b"can't be opened", done.stderr)

    def test_a_long_file_is_pipelined_and_its_progress_told(self):
        file = self.write("long", b"put a 1\n" + b"get a\n" * 19_999)
        done = self.run_kv([self.path("store"), file])
        replies = done.stdout.decode().splitlines()
        self.assertEqual((len(replies), replies[-1]), (20_000, "get a: found at 20000: 1"))
        self.assertIn(b"10,000 replies to 20,000 lines", done.stderr)
        self.assertEqual(done.returncode, 0)


if __name__ == "__main__":
    unittest.main()
