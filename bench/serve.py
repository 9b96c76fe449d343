#!/usr/bin/env python3
"""Measures kvell beside a C loop of the same system calls, on one folder, in turn.

    python3 bench/serve.py [COUNT [FOLDER]]

For values of 1,000 and of 100 bytes, and for groups of 64 and of 1 request: COUNT new items (COUNT / 10 in groups of 1),
as many updates in another order, as many gets, and updates and gets in turn, each from a file, in one run; three runs
each, interleaved. It prints requests a second, the best run and the median, and the peak memory for each item; then how
long opening the store takes, beside syncing what opening syncs and reading its files page by page, and beside reading
them alone, page by page and in pieces of 1 MB; nine runs each, interleaved. FOLDER is where the files go, by default one
below /tmp.
"""

import glob
import math
import os
import shutil
import statistics
import struct
import subprocess
import sys
import tempfile
import time

HERE = os.path.dirname(os.path.abspath(__file__))
KVELL = os.environ.get("KVELL") or os.path.join(HERE, "..", "crates", "kvell", "out", "kvell")
ROUNDS = 3
PHASES = ("new items", "updates", "gets", "half and half")
FLUSH = struct.pack("<IB", 1, 5)


def frame(content: bytes) -> bytes:
    return struct.pack("<I", len(content)) + content


def key_of(number: int) -> bytes:
    return b"%010d" % number


def put(number: int, value: bytes) -> bytes:
    return frame(b"\x01\x0a" + key_of(number) + value)


def get(number: int) -> bytes:
    return frame(b"\x02" + key_of(number))


def write_input(path: str, count: int, size: int, group: int) -> list[int]:
    """Writes the requests of all phases, and answers how many bytes of replies each phase has."""
    value = (bytes(range(250)) * 4)[:size]
    step = next(n for n in range(count * 5 // 8, 2 * count + 2) if math.gcd(n, count) == 1)
    with open(path, "wb") as file:
        for phase in range(len(PHASES)):
            for number in range(count):
                other = number * step % count
                if phase == 0:
                    request = put(number, value)
                elif phase == 1 or phase == 3 and number % 2 == 0:
                    request = put(other, value)
                else:
                    request = get(other)
                file.write(request)
                if group == 1 or number == count - 1:
                    file.write(FLUSH)
    stored, found = 13, 13 + size
    return [count * stored, count * stored, count * found, count // 2 * found + (count + 1) // 2 * stored]


def follow(process: subprocess.Popen, sizes: list[int]) -> tuple[list[float], int]:
    """The seconds of each phase, by the bytes of its replies, and the peak memory in KB."""
    begin, seen, seconds, peak = time.perf_counter(), 0, [], 0
    ends = [sum(sizes[: n + 1]) for n in range(len(sizes))]
    while piece := os.read(process.stdout.fileno(), 1 << 20):
        seen += len(piece)
        while len(seconds) < len(ends) and seen >= ends[len(seconds)]:
            now = time.perf_counter()
            seconds.append(now - begin)
            begin = now
            if len(seconds) == len(ends) - 1:
                peak = peak_kilobytes(process.pid)
    if seen != ends[-1]:
        sys.exit(f"{seen} bytes of replies in place of {ends[-1]}")
    if process.wait() != 0:
        sys.exit(f"it ended with the status {process.returncode}")
    return seconds, peak


def peak_kilobytes(pid: int) -> int:
    with open(f"/proc/{pid}/status", encoding="ascii") as file:
        return next(int(line.split()[1]) for line in file if line.startswith("VmHWM"))


def run(words: list[str], path: str, sizes: list[int]) -> tuple[list[float], int]:
    with open(path, "rb") as file:
        return follow(subprocess.Popen(words, stdin=file, stdout=subprocess.PIPE), sizes)


def seconds_of(words: list[str]) -> float:
    begin = time.perf_counter()
    subprocess.run(words, stdin=subprocess.DEVNULL, stdout=subprocess.DEVNULL, check=True)
    return time.perf_counter() - begin


def remove(store: str) -> None:
    if os.path.isdir(store):
        shutil.rmtree(store)
    elif os.path.exists(store):
        os.remove(store)


def shown(figures: list[float]) -> str:
    return f"{max(figures):,.0f} ({statistics.median(figures):,.0f})"


def measure(folder: str, loop: str, count: int, size: int, group: int) -> None:
    path, store = os.path.join(folder, "requests"), os.path.join(folder, "store")
    sizes = write_input(path, count, size, group)
    figures: dict[tuple[str, int], list[float]] = {}
    peak = 0
    for _ in range(ROUNDS):
        for name, words in (("loop", [loop, store]), ("kvell", [KVELL, "serve", store, "1", "-", "-"])):
            remove(store)
            seconds, memory = run(words, path, sizes)
            for phase, second in enumerate(seconds):
                figures.setdefault((name, phase), []).append(count / second)
            if name == "kvell":
                peak = memory
    files = sorted(glob.glob(os.path.join(store, "0", "*")))
    folders = [os.path.join(store, "0"), store, folder]
    ways = {
        "kvell": [KVELL, "serve", store, "1", "-", "-"],
        "opened": [loop, *files, *folders, "--open", "4096"],
        "pages": [loop, *files, "--read", "4096"],
        "pieces": [loop, *files, "--read", str(1 << 20)],
    }
    taken: dict[str, list[float]] = {name: [] for name in ways}
    for _ in range(3 * ROUNDS):
        for name, words in ways.items():
            taken[name].append(seconds_of(words))
    remove(store)
    print(f"\n{count:,} items, values of {size:,} bytes, groups of {group}")
    print(f"{'':16}{'kvell':>22}{'loop':>22}{'ratio':>8}")
    for phase, what in enumerate(PHASES):
        kvell, twin = figures["kvell", phase], figures["loop", phase]
        ratio = statistics.median(kvell) / statistics.median(twin)
        print(f"{what:16}{shown(kvell):>22}{shown(twin):>22}{ratio:8.2f}")
    print(f"peak memory {peak / 1024:.1f} MB, {peak * 1024 / count:.0f} bytes an item")
    print("milliseconds of a whole program, the least and the median:")
    for name, what in (
        ("kvell", "kvell opens the store"),
        ("opened", "loop syncs the same files and folders, and reads page by page"),
        ("pages", "loop reads page by page"),
        ("pieces", "loop reads in pieces of 1 MB"),
    ):
        least, median = (1_000 * figure(taken[name]) for figure in (min, statistics.median))
        print(f"{what:64}{least:9.1f}{median:9.1f}", flush=True)


def main() -> None:
    count = int(sys.argv[1]) if len(sys.argv) > 1 else 100_000
    folder = tempfile.mkdtemp(dir=sys.argv[2] if len(sys.argv) > 2 else None)
    try:
        loop = os.path.join(folder, "loop")
        subprocess.run(["gcc", "-O2", "-o", loop, os.path.join(HERE, "loop.c")], check=True)
        for size in (1_000, 100):
            for group in (64, 1):
                measure(folder, loop, count if group == 64 else max(count // 10, 1), size, group)
    finally:
        shutil.rmtree(folder)


if __name__ == "__main__":
    main()
