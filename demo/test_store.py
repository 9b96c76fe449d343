#!/usr/bin/env python3
"""Tests of the built program over its files: it is killed at random moments and opened again, and its files are damaged."""

import os
import random
import struct
import subprocess
import tempfile
import threading
import time
import unittest

from test_kv import PROGRAM, build

ROUNDS = 20
KEYS = 120
FLUSH = struct.pack("<IB", 1, 5)
STORED, FOUND, MISSING, REMOVED, ABSENT = 0x81, 0x82, 0x83, 0x84, 0x85
# The most bytes of a key and its value in each class, and some in the middle.
SIZES = [7, 40, 48, 49, 112, 240, 496, 800, 1_008, 2_032, 4_080, 4_081, 8_168, 9_000, 16_344, 30_000, 32_696, 65_400]


def frame(content: bytes) -> bytes:
    return struct.pack("<I", len(content)) + content


def put(key: bytes, value: bytes) -> bytes:
    return frame(bytes([1, len(key)]) + key + value)


def get(key: bytes) -> bytes:
    return frame(b"\x02" + key)


def delete(key: bytes) -> bytes:
    return frame(b"\x03" + key)


def replies_in(data: bytes) -> list[tuple[int, bytes]]:
    """The kind and the body of each whole frame."""
    replies, at = [], 0
    while len(data) - at >= 4:
        length = struct.unpack_from("<I", data, at)[0]
        if len(data) - at < 4 + length:
            break
        replies.append((data[at + 4], data[at + 5 : at + 4 + length]))
        at += 4 + length
    return replies


class Run:
    """A running program, whose replies are collected."""

    def __init__(self, folder: str):
        self.process = subprocess.Popen(
            [PROGRAM, "serve", folder, "1", "-", "-"], stdin=subprocess.PIPE, stdout=subprocess.PIPE, bufsize=0
        )
        self.data = bytearray()
        self.reader = threading.Thread(target=self.collect)
        self.reader.start()

    def collect(self) -> None:
        while piece := self.process.stdout.read(1 << 16):
            self.data += piece
        self.process.stdout.close()

    def send(self, data: bytes) -> bool:
        view = memoryview(data)
        try:
            while view:
                view = view[self.process.stdin.write(view) :]
            return True
        except (BrokenPipeError, ValueError):
            return False

    def end(self) -> int:
        try:
            self.process.stdin.close()
        except BrokenPipeError:
            pass
        self.reader.join(60)
        return self.process.wait(60)

    def replies(self) -> list[tuple[int, bytes]]:
        return replies_in(bytes(self.data))


def ask(folder: str, requests: bytes, workers: int = 1) -> tuple[int, list[tuple[int, bytes]]]:
    """The status and the replies of a run over these requests."""
    words = [PROGRAM, "serve", folder, str(workers), "-", "-"]
    done = subprocess.run(words, input=requests, capture_output=True, timeout=60)
    return done.returncode, replies_in(done.stdout)


class Store(unittest.TestCase):
    @classmethod
    def setUpClass(cls):
        build()

    def setUp(self):
        self.scratch = tempfile.TemporaryDirectory()
        self.addCleanup(self.scratch.cleanup)
        self.folder = os.path.join(self.scratch.name, "store")

    def file(self, number: int) -> str:
        return os.path.join(self.folder, "0", str(number))

    def test_what_was_acknowledged_is_there_after_a_kill(self):
        draw = random.Random(7)
        keys = [b"key-%03d" % number for number in range(KEYS)]
        # What a key may have: the value of its last acknowledged change, or one that was sent behind it.
        may_have: dict[bytes, list[bytes | None]] = {key: [None] for key in keys}
        acknowledged = 0
        for number in range(ROUNDS):
            sent: list[tuple[bytes, bytes | None]] = []
            run = Run(self.folder)
            killer = threading.Timer(draw.uniform(0.05, 0.6), run.process.kill)
            killer.start()
            while True:
                group = bytearray()
                for _ in range(draw.randint(1, 64)):
                    key = draw.choice(keys)
                    size = draw.choice(SIZES) - len(key) if draw.random() < 0.3 else draw.randint(0, 300)
                    value = None if draw.random() < 0.3 else draw.randbytes(size)
                    sent.append((key, value))
                    group += delete(key) if value is None else put(key, value)
                if not run.send(bytes(group) + FLUSH):
                    break
                if draw.random() < 0.5:
                    time.sleep(0.002)
            killer.join()
            run.end()
            replies = run.replies()
            self.assertLessEqual(len(replies), len(sent))
            for (key, value), (kind, _) in zip(sent, replies):
                self.assertIn(kind, (REMOVED, ABSENT) if value is None else (STORED,))
                may_have[key] = [value]
            acknowledged += len(replies)
            for key, value in sent[len(replies) :]:
                may_have[key].append(value)
            status, found = ask(self.folder, b"".join(get(key) for key in keys))
            self.assertEqual((status, len(found)), (0, KEYS))
            for key, (kind, body) in zip(keys, found):
                value = body[8:] if kind == FOUND else None
                self.assertIn(value, may_have[key], f"round {number}, key {key}")
                may_have[key] = [value]
        self.assertGreater(acknowledged, ROUNDS)

    def fill(self) -> list[tuple[bytes, bytes]]:
        """Three keys of class 1 and one of class 4."""
        items = [(b"a", b"1"), (b"b", b"2"), (b"c", b"3"), (b"d", b"4" * 300)]
        status, replies = ask(self.folder, b"".join(put(key, value) for key, value in items))
        self.assertEqual((status, [kind for kind, _ in replies]), (0, [STORED] * 4))
        return items

    def values(self, items: list[tuple[bytes, bytes]]) -> list[bytes | None]:
        status, replies = ask(self.folder, b"".join(get(key) for key, _ in items))
        self.assertEqual(status, 0)
        return [body[8:] if kind == FOUND else None for kind, body in replies]

    def test_a_file_that_is_cut_inside_a_slot_loses_that_slot_alone(self):
        items = self.fill()
        # Slots of class 1 have 64 bytes: the cut leaves slots 0 and 1, and of slot 2 half of its stamp.
        os.truncate(self.file(1), 2 * 64 + 4)
        self.assertEqual(self.values(items), [b"1", b"2", None, b"4" * 300])
        self.assertEqual(ask(self.folder, put(b"c", b"5"))[1][0][0], STORED)
        self.assertEqual(self.values(items), [b"1", b"2", b"5", b"4" * 300])

    def refuses(self, items: list[tuple[bytes, bytes]], number: int, damage) -> None:
        """While the file is damaged so the store is refused and stays as it is; mended it has all items."""
        path = self.file(number)
        with open(path, "rb") as file:
            whole = file.read()
        with open(path, "wb") as file:
            file.write(damage(whole))
        before = self.contents()
        self.assertEqual(ask(self.folder, get(b"a")), (3, []))
        self.assertEqual(self.contents(), before)
        with open(path, "wb") as file:
            file.write(whole)
        self.assertEqual(self.values(items), [value for _, value in items])

    def contents(self) -> dict[str, bytes]:
        folder = os.path.join(self.folder, "0")
        found = {}
        for name in sorted(os.listdir(folder)):
            with open(os.path.join(folder, name), "rb") as file:
                found[name] = file.read()
        return found

    def test_a_store_that_cannot_be_opened_is_left_as_it_is(self):
        items = self.fill()
        table = [
            ("a page of FF has no stamp left", 3, lambda whole: whole + b"\xff" * 4096),
            ("the head of worker 1 of 4", 0, lambda whole: whole[:10] + b"\x01\x00\x04\x00" + whole[14:]),
            ("a head of another format", 0, lambda whole: whole[:8] + b"\x09\x00" + whole[10:]),
            ("no head over used files", 0, lambda whole: b"\0" * len(whole)),
        ]
        for what, number, damage in table:
            with self.subTest(what):
                self.refuses(items, number, damage)

    def test_a_second_process_is_refused(self):
        self.fill()
        run = Run(self.folder)
        self.assertTrue(run.send(get(b"a") + FLUSH))
        while not run.replies():
            time.sleep(0.001)
        self.assertEqual(ask(self.folder, get(b"a")), (3, []))
        self.assertEqual(run.end(), 0)
        self.assertEqual(run.replies()[0][0], FOUND)


if __name__ == "__main__":
    unittest.main()
