"""A running program with several sessions over named pipes, and the clients of these."""

import errno
import os
import random
import select
import subprocess
import time
from concurrent.futures import ThreadPoolExecutor
from typing import Callable, Iterable, NamedTuple

from test_kv import PROGRAM
from test_store import ABSENT, FOUND, MISSING, REMOVED, STORED
from test_store import FLUSH, SIZES, delete, frame, get, put, replies_in

NOTED, AHEAD = 0x87, 0xEA
PATIENCE = 30  # seconds that a pipe may stand still
SHARED_KEYS = [b"shared-%02d" % number for number in range(24)]


# ---- Requests, and what a plain map answers ------------------------------------------------------


class Request(NamedTuple):
    """What is asked of a key, and the value of a put; of an After its stamp alone."""

    what: str
    key: bytes = b""
    value: bytes | None = None
    stamp: int = 0


Reply = tuple[int, bytes]  # the kind and the body
FRAMES: dict[str, Callable[[Request], bytes]] = {
    "put": lambda request: put(request.key, request.value),
    "get": lambda request: get(request.key),
    "delete": lambda request: delete(request.key),
    "after": lambda request: frame(b"\x06" + request.stamp.to_bytes(8, "little")),
}
STAMPED = (STORED, FOUND, MISSING, REMOVED, ABSENT)


def frames_of(group: Iterable[Request]) -> bytes:
    return b"".join(FRAMES[request.what](request) for request in group)


def answer(contents: dict[bytes, bytes], request: Request) -> Reply:
    """The kind of a plain map's reply, and what follows its stamp; makes the change in the map."""
    before = contents.get(request.key)
    if request.what == "put":
        contents[request.key] = request.value
        return STORED, b""
    if request.what == "get":
        return (MISSING, b"") if before is None else (FOUND, before)
    contents.pop(request.key, None)
    return (ABSENT if before is None else REMOVED), b""


def stamp_of(reply: Reply) -> int:
    kind, body = reply
    if kind not in STAMPED:
        raise AssertionError(f"a reply of kind {kind:#x} has no stamp")
    return int.from_bytes(body[:8], "little")


# ---- A running program, and its clients ----------------------------------------------------------


class Client:
    """The other side of a session, which takes replies while it sends, lest both sides wait."""

    def __init__(self, number: int, source: int | None = None, sink: int | None = None):
        self.number = number
        self.source = source  # the pipe that the session reads
        self.sink = sink  # the pipe that the session writes
        self.tail = bytearray()
        self.replies: list[Reply] = []
        self.groups: list[list[Request]] = []
        self.keys = [b"%d-%02d" % (number, key) for key in range(40)]
        self.own: dict[bytes, bytes] = {}  # what its own keys have
        self.values = 0
        self.told: list[int] = []  # stamps that clients tell each other

    def move(self, data: bytes, replies: int = 0, reading: bool = True) -> bool:
        """Sends the data, and waits for so many replies; false where a pipe ended before."""
        left = memoryview(data)
        while left or len(self.replies) < replies:
            poll = select.poll()
            if left:
                poll.register(self.source, select.POLLOUT)
            if reading:
                poll.register(self.sink, select.POLLIN)
            ready = poll.poll(1_000 * PATIENCE)
            if not ready:
                raise AssertionError(f"session {self.number} stood still for {PATIENCE} seconds")
            for pipe, _ in ready:
                try:
                    if pipe == self.source:
                        left = left[os.write(pipe, left) :]
                    elif not self.take(os.read(pipe, 1 << 16)):
                        return False
                except BlockingIOError:
                    pass
                except BrokenPipeError:
                    return False
        return True

    def take(self, piece: bytes) -> bool:
        """Keeps the replies that are whole; false at the end."""
        self.tail += piece
        for kind, body in replies_in(bytes(self.tail)):
            self.replies.append((kind, body))
            del self.tail[: 5 + len(body)]
        return bool(piece)

    def send(self, group: list[Request], reading: bool = True) -> bool:
        self.groups.append(group)
        return self.move(frames_of(group) + FLUSH, 0, reading)

    def send_unread(self, *groups: list[Request]) -> None:
        """Sends groups that have long replies, and leaves these in the pipe."""
        for group in groups:
            self.send(group, reading=False)
        select.select([self.sink], [], [], PATIENCE)

    def wait(self) -> None:
        """Waits until all groups are answered."""
        if not self.move(b"", sum(map(len, self.groups))):
            raise AssertionError(f"session {self.number} ended with requests that have no reply")

    def ask(self, *groups: list[Request]) -> None:
        for group in groups:
            if not self.send(group):
                raise AssertionError(f"session {self.number} takes no more requests")
        self.wait()

    def drain(self) -> None:
        """Takes replies until the program closes the pipe, when all sessions have ended."""
        while self.sink is not None:
            try:
                if not self.take(os.read(self.sink, 1 << 16)):
                    return
            except BlockingIOError:
                self.move(b"", len(self.replies) + 1)

    def pairs(self) -> list[list[tuple[Request, Reply]]]:
        """The groups' requests with their replies, as far as there are any."""
        replies = iter(self.replies)
        return [list(zip(group, replies)) for group in self.groups]

    def unanswered(self) -> list[Request]:
        requests = [request for group in self.groups for request in group]
        return requests[len(self.replies) :]

    def close_source(self) -> None:
        if self.source is not None:
            os.close(self.source)
            self.source = None

    def close_sink(self) -> None:
        if self.sink is not None:
            os.close(self.sink)
            self.sink = None

    def value(self, draw: random.Random) -> bytes:
        """A value that no other put has."""
        self.values += 1
        size = draw.choice(SIZES) - 10 if draw.random() < 0.1 else draw.randint(0, 300)
        return (b"%d.%d." % (self.number, self.values)).ljust(size, b"-")

    def change(self, draw: random.Random) -> Request:
        key = draw.choice(self.keys + SHARED_KEYS)
        if draw.random() < 0.3:
            return Request("delete", key)
        return Request("put", key, self.value(draw))

    def request(self, draw: random.Random) -> Request:
        if draw.random() < 0.4:
            return Request("get", draw.choice(self.keys + SHARED_KEYS))
        return self.change(draw)

    def use(self, groups: int) -> None:
        """Asks so many groups, some of them at once, and then reads all keys back."""
        draw = random.Random(1_000 * self.number + len(self.groups))
        first = len(self.groups)
        while len(self.groups) < first + groups:
            if self.told and draw.random() < 0.2:
                self.ask([Request("after", stamp=self.told[-1])])
            sizes = [draw.randint(1, 64) for _ in range(draw.choice([1, 1, 1, 4]))]
            self.ask(*([self.request(draw) for _ in range(size)] for size in sizes))
            self.told.append(stamp_of(self.replies[-1]))
        self.ask([Request("get", key) for key in self.keys + SHARED_KEYS])
        for group in self.pairs()[first:]:
            for request, (kind, body) in group:
                if request.key in self.keys and (kind, body[8:]) != answer(self.own, request):
                    told = f"session {self.number}, its own key {request.key}"
                    raise AssertionError(f"{told}: {kind:#x} {body[8:28]}")


Work = Callable[[Client], object]


class Mesh:
    """A running program and its sessions' clients, which open the pipes in its order."""

    def __init__(self, folder: str, pipes: list[str], workers: int):
        words = [PROGRAM, "serve", folder, str(workers), *pipes]
        self.process = subprocess.Popen(words, stdin=subprocess.DEVNULL, stderr=subprocess.PIPE)
        self.clients: list[Client] = []
        told: list[int] = []
        try:
            for source, sink in zip(pipes[::2], pipes[1::2]):
                # A poll of the sink tells nothing before the program has opened it.
                ends = self.open_source(source), os.open(sink, os.O_RDONLY | os.O_NONBLOCK)
                client = Client(len(self.clients), *ends)
                client.told = told
                self.clients.append(client)
        except BaseException:
            self.stop()
            raise

    def open_source(self, path: str) -> int:
        """The pipe, once the program has opened it."""
        until = time.monotonic() + PATIENCE
        while self.process.poll() is None and time.monotonic() < until:
            try:
                return os.open(path, os.O_WRONLY | os.O_NONBLOCK)
            except OSError as error:
                if error.errno != errno.ENXIO:
                    raise
            time.sleep(0.001)
        self.process.kill()
        raise AssertionError(f"{path} wasn't opened: {self.process.communicate()[1].decode()!r}")

    def at_once(self, work: Work, clients: list[Client] | None = None) -> None:
        """Does the work of these clients, or of all, each on a thread of its own."""
        clients = clients or self.clients
        with ThreadPoolExecutor(len(clients)) as pool:
            for done in [pool.submit(work, client) for client in clients]:
                done.result()

    def others(self, client: Client) -> list[Client]:
        return [other for other in self.clients if other is not client]

    def end(self) -> tuple[int, str]:
        """Ends all inputs; the status, and what was said."""
        for client in self.clients:
            client.close_source()
        self.at_once(Client.drain)
        status = self.process.wait(PATIENCE)
        said = self.process.stderr.read().decode()
        self.stop()
        return status, said

    def stop(self) -> None:
        self.process.kill()
        self.process.wait()
        self.process.stderr.close()
        for client in self.clients:
            client.close_source()
            client.close_sink()

    def processor_seconds(self) -> float:
        with open(f"/proc/{self.process.pid}/stat", encoding="ascii", errors="replace") as file:
            fields = file.read().rpartition(")")[2].split()
        return (int(fields[11]) + int(fields[12])) / os.sysconf("SC_CLK_TCK")
