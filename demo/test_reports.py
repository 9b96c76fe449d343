#!/usr/bin/env python3
"""Tests of the built program's reports and status lines, over a store that was just made and a damaged one."""

import os
import subprocess
import tempfile
import unittest

from test_kv import PROGRAM, build
from test_store import FLUSH, put

COUNTS = "disk 0 class 1 end 2 kept {} stale 0 foreign 0 tomb 0 never 0 torn 0 bad {}\ndisk 0 floor 3 keys {}\n"
USAGE = "kvell: usage: serve DIR N IN OUT [IN OUT ..] / check DIR N / dump DIR N / try SEED COUNT N\n"


def kvell(*words: str | bytes, typed: bytes = b"") -> tuple[int, str, str]:
    """The status, what was written, and what was said."""
    run = subprocess.run([PROGRAM, *words], input=typed, capture_output=True, timeout=60)
    return run.returncode, run.stdout.decode("latin-1"), run.stderr.decode()


class Reports(unittest.TestCase):
    @classmethod
    def setUpClass(cls):
        build()

    def setUp(self):
        scratch = tempfile.TemporaryDirectory()
        self.addCleanup(scratch.cleanup)
        self.folder = os.path.join(scratch.name, "store")

    def fill(self) -> None:
        """Keys a and b in slots 0 and 1 of class 1, at stamps 3 and 2."""
        typed = put(b"a", b"1") + put(b"b", b"2") + FLUSH + put(b"a", b"3")
        self.assertEqual(kvell("serve", self.folder, "1", "-", "-", typed=typed)[0], 0)

    def damage(self, file: int, offset: int, content: bytes) -> None:
        with open(os.path.join(self.folder, "0", str(file)), "r+b") as slab:
            slab.seek(offset)
            slab.write(content)

    def test_a_store_is_counted_and_listed(self):
        self.fill()
        self.assertEqual(kvell("check", self.folder, "1"), (0, COUNTS.format(2, 0, 2), ""))
        self.assertEqual(kvell("dump", self.folder, "1"), (0, "3 61 33\n2 62 32\n", ""))

    def test_a_damaged_slot_is_counted_and_left_out(self):
        self.fill()
        self.damage(1, 8, b"\x07")
        self.assertEqual(kvell("check", self.folder, "1"), (0, COUNTS.format(1, 1, 1), ""))
        self.assertEqual(kvell("dump", self.folder, "1"), (0, "2 62 32\n", ""))

    def test_each_refusal_has_its_line(self):
        self.fill()
        other = "kvell: disk 0: store of worker 0 of 1, asked for worker 0 of 2\n"
        self.assertEqual(kvell("check", self.folder, "2"), (3, "", other))
        self.damage(0, 0, b"X")
        refused = (3, "", "kvell: disk 0: not a store\n")
        for words in [("check", "1"), ("dump", "1"), ("serve", "1", "-", "-")]:
            self.assertEqual(kvell(words[0], self.folder, *words[1:]), refused)
        plain = os.path.join(self.folder, "0", "0")
        self.assertEqual(kvell("check", plain, "1"), (3, "", "kvell: disk 0: cannot be taken\n"))
        absent = os.path.join(self.folder, "none", "none")
        taken = kvell("serve", os.path.join(os.path.dirname(self.folder), "new"), "1", absent, "-")
        self.assertEqual(taken, (3, "", "kvell: session 0: cannot be taken\n"))

    def test_other_words_are_told_the_usage(self):
        serves = [("serve", self.folder, "1", *ends) for ends in (["-"], ["-"] * 4, ["x"] * 18)]
        serves += [("serve", self.folder, workers, "-", "-") for workers in ("0", "17")]
        others = [(), ("serve",), ("check", "D", "17"), ("dump", "", "1"), ("check", b"\xff", "1")]
        for words in others + serves:
            self.assertEqual(kvell(*words), (2, "", USAGE))
        self.assertFalse(os.path.exists(self.folder))

    def test_an_input_that_is_cut_off_is_told(self):
        told = kvell("serve", self.folder, "1", "-", "-", typed=put(b"a", b"1") + b"\x04")
        self.assertEqual((told[0], told[2]), (1, "kvell: session 0 ended: malformed at 8\n"))


if __name__ == "__main__":
    unittest.main()
