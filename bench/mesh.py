#!/usr/bin/env python3
"""Measures kvell with several workers and sessions beside a C twin of the same system calls.

    python3 bench/mesh.py [--long] [COUNT [FOLDER]]

For 1, 2 and 4 workers, 1, 4 and 8 sessions, groups of 64 and of 1 request, and values of 100 and
1,000 bytes: COUNT new items (COUNT / 10 in groups of 1), as many updates in another order, as many
gets, and updates and gets in turn, shared among the sessions. Each session has a client on a thread
of its own (bench/clients.c), the same for kvell and for the twin (bench/mesh.c), which sends a
group through a named pipe and waits for its replies. It prints requests a second of all sessions
together, kvell / twin and the ratio, by the medians of rounds in turn; and then how long a lone put
and a lone get take, the median and the 99th of a hundred. COUNT is 10,000, in three rounds, a
minute or two on a quiet machine; with --long 100,000, in five rounds, about half an hour. FOLDER is
where the files go, by default one below /tmp.
"""

import os
import platform
import shutil
import statistics
import subprocess
import sys
import tempfile
import time

from serve import HERE, KVELL, PHASES, remove

WORKERS = (1, 2, 4)
SESSIONS = (1, 4, 8)
LONE = ((1, 1), (4, 1), (4, 8))  # workers and sessions where one session asks alone


class Folder:
    """Where the pipes, the store and the built C programs are."""

    def __init__(self, path: str):
        self.path = path
        self.store = os.path.join(path, "store")
        names = [f"{end}-{number}" for number in range(max(SESSIONS)) for end in ("in", "out")]
        self.pipes = [os.path.join(path, name) for name in names]
        for pipe in self.pipes:
            os.mkfifo(pipe)
        self.programs = {"kvell": KVELL, "twin": self.build("mesh")}
        self.clients = self.build("clients")

    def build(self, name: str) -> str:
        program, source = os.path.join(self.path, name), os.path.join(HERE, f"{name}.c")
        subprocess.run(["gcc", "-O2", "-pthread", "-o", program, source], check=True)
        return program

    def figures(self, name: str, workers: int, sessions: int, words: list[str]) -> list[float]:
        """What the clients print over a new store."""
        remove(self.store)
        pipes = self.pipes[: 2 * sessions]
        server = subprocess.Popen([self.programs[name], "serve", self.store, str(workers), *pipes])
        words = [self.clients, *words, *pipes]
        clients = subprocess.Popen(words, stdout=subprocess.PIPE, text=True)
        while clients.poll() is None and not server.poll():
            time.sleep(0.01)
        clients.kill()
        text = clients.communicate()[0]
        if clients.returncode != 0:
            server.kill()
        if server.wait() != 0:
            sys.exit(f"{name}: status {server.returncode}, and {clients.returncode} of its clients")
        return [float(line) for line in text.splitlines()]


def measure_rates(folder: Folder, count: int, rounds: int, size: int, group: int) -> None:
    print(f"\nvalues of {size:,} bytes, groups of {group}, {count:,} items")
    print("requests a second, kvell / twin, and the ratio")
    print(f"{'workers':>7} {'sessions':>8}" + "".join(f"{phase:^26}" for phase in PHASES))
    for workers in WORKERS:
        for sessions in SESSIONS:
            taken: dict[str, list[list[float]]] = {name: [] for name in folder.programs}
            words = ["rate", str(count), str(size), str(group)]
            for _ in range(rounds):
                for name, runs in taken.items():
                    runs.append(folder.figures(name, workers, sessions, words))
            row = f"{workers:7} {sessions:8}"
            for phase in range(len(PHASES)):
                rates = ([count / run[phase] for run in runs] for runs in taken.values())
                kvell, twin = map(statistics.median, rates)
                row += f"{kvell:10,.0f} /{twin:8,.0f}{kvell / twin:6.2f}"
            print(row, flush=True)


def measure_lone(folder: Folder, count: int, size: int) -> None:
    print(f"\nvalues of {size:,} bytes, {count:,} items, a lone request")
    print("microseconds, the median and the 99th of a hundred")
    columns = ("put: kvell", "twin", "get: kvell", "twin")
    print(f"{'workers':>7} {'sessions':>8}" + "".join(f"{column:>18}" for column in columns))
    words = ["lone", str(count), str(size)]
    for workers, sessions in LONE:
        row = f"{workers:7} {sessions:8}"
        runs = [folder.figures(name, workers, sessions, words) for name in folder.programs]
        for kind in (0, 100):
            for run in runs:
                times = sorted(run[kind : kind + 100])
                row += f"{statistics.median(times):9,.0f}{times[98]:9,.0f}"
        print(row, flush=True)


def machine() -> str:
    """The date, the processors and the load."""
    try:
        with open("/proc/cpuinfo", encoding="ascii", errors="replace") as file:
            named = (line.split(":", 1)[1] for line in file if line.startswith("model name"))
            model = next(named).strip()
    except (OSError, StopIteration):
        model = platform.machine()
    date, system = time.strftime("%Y-%m-%d %H:%M"), f"{platform.system()} {platform.release()}"
    load = os.getloadavg()[0]
    return f"{date}, {os.cpu_count()} processors, {model}, {system}, load {load:.1f}"


def main() -> None:
    words = [word for word in sys.argv[1:] if word != "--long"]
    long = len(words) < len(sys.argv) - 1
    count = int(words[0]) if words else 100_000 if long else 10_000
    path = tempfile.mkdtemp(dir=words[1] if len(words) > 1 else None)
    try:
        folder = Folder(path)
        print(machine())
        for size in (1_000, 100):
            for group, items in ((64, count), (1, max(count // 10, 1))):
                measure_rates(folder, items, 5 if long else 3, size, group)
        for size in (1_000, 100):
            measure_lone(folder, count, size)
        print(f"\n{machine()}")
    finally:
        shutil.rmtree(path)


if __name__ == "__main__":
    main()
