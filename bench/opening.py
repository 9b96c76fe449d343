#!/usr/bin/env python3
"""Measures how long kvell takes to open a store, beside a C loop that reads the same files.

    python3 bench/opening.py [COUNT [FOLDER]]

For values of 1,000 and of 100 bytes: a store of COUNT items is made by kvell, then opened by it, beside the loop that
syncs the same files and folders and reads page by page, and the loop that reads alone, page by page and in pieces of
1 MB; nine runs each, interleaved. It prints the milliseconds of the whole program by the clock and of the processor,
the least and the median, and kvell's peak memory. FOLDER is where the files go, by default one below /tmp.
"""

import glob
import os
import shutil
import statistics
import subprocess
import sys
import tempfile
import time

from serve import FLUSH, HERE, KVELL, get, peak_kilobytes, put

RUNS = 9


def make(store: str, count: int, size: int) -> None:
    value = (bytes(range(250)) * 4)[:size]
    words = [KVELL, "serve", store, "1", "-", "-"]
    with subprocess.Popen(words, stdin=subprocess.PIPE, stdout=subprocess.DEVNULL) as process:
        for begin in range(0, count, 64):
            numbers = range(begin, min(begin + 64, count))
            process.stdin.write(b"".join(put(n, value) for n in numbers) + FLUSH)
        process.stdin.close()
    if process.returncode != 0:
        sys.exit(f"kvell ended with the status {process.returncode}")


def run(words: list[str]) -> tuple[float, float]:
    """The milliseconds by the clock and of the processor."""
    begin = time.perf_counter()
    process = subprocess.Popen(words, stdin=subprocess.DEVNULL, stdout=subprocess.DEVNULL)
    _, status, usage = os.wait4(process.pid, 0)
    clock = time.perf_counter() - begin
    if status != 0:
        sys.exit(f"{words[0]} ended with the status {os.waitstatus_to_exitcode(status)}")
    return 1_000 * clock, 1_000 * (usage.ru_utime + usage.ru_stime)


def peak(store: str) -> float:
    """The peak memory in MB of a kvell that has opened the store and answered a get."""
    words = [KVELL, "serve", store, "1", "-", "-"]
    with subprocess.Popen(words, stdin=subprocess.PIPE, stdout=subprocess.PIPE) as process:
        process.stdin.write(get(0) + FLUSH)
        process.stdin.flush()
        process.stdout.read(1)
        megabytes = peak_kilobytes(process.pid) / 1_024
        process.stdin.close()
    return megabytes


def measure(folder: str, loop: str, count: int, size: int) -> None:
    store = os.path.join(folder, "store")
    make(store, count, size)
    files = sorted(glob.glob(os.path.join(store, "0", "*")))
    folders = [os.path.join(store, "0"), store, folder]
    ways = {
        "kvell opens the store": [KVELL, "serve", store, "1", "-", "-"],
        "loop syncs the same, and reads page by page": [loop, *files, *folders, "--open", "4096"],
        "loop reads page by page": [loop, *files, "--read", "4096"],
        "loop reads in pieces of 1 MB": [loop, *files, "--read", str(1 << 20)],
    }
    taken: dict[str, list[tuple[float, float]]] = {name: [] for name in ways}
    for _ in range(RUNS):
        for name, words in ways.items():
            taken[name].append(run(words))
    megabytes = peak(store)
    shutil.rmtree(store)
    print(f"\n{count:,} items, values of {size:,} bytes: milliseconds, the least and the median")
    print(f"{'':46}{'clock':>18}{'processor':>18}")
    for name, runs in taken.items():
        clocks, processors = zip(*runs)
        columns = "".join(
            f"{min(figures):9.1f}{statistics.median(figures):9.1f}" for figures in (clocks, processors)
        )
        print(f"{name:46}{columns}")
    print(f"peak memory {megabytes:.1f} MB, {megabytes * (1 << 20) / count:.0f} bytes an item", flush=True)


def main() -> None:
    count = int(sys.argv[1]) if len(sys.argv) > 1 else 100_000
    folder = tempfile.mkdtemp(dir=sys.argv[2] if len(sys.argv) > 2 else None)
    try:
        loop = os.path.join(folder, "loop")
        subprocess.run(["gcc", "-O2", "-o", loop, os.path.join(HERE, "loop.c")], check=True)
        for size in (1_000, 100):
            measure(folder, loop, count, size)
    finally:
        shutil.rmtree(folder)


if __name__ == "__main__":
    main()
