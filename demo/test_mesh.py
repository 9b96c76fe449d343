#!/usr/bin/env python3
"""Tests of the built program with several workers and sessions, whose clients use named pipes."""

import os
import random
import subprocess
import tempfile
import threading
import time
import unittest

from mesh import AHEAD, NOTED, SHARED_KEYS, Client, Mesh, Reply, Request, Work
from mesh import answer, frames_of, stamp_of
from test_kv import PROGRAM, build
from test_reports import kvell
from test_store import ABSENT, FLUSH, FOUND, REMOVED, STORED, ask, get, put

WORKERS = 4
SESSIONS = 4
GROUPS = 120  # of a client that uses the store freely
KILLS = 20
IDLE_SECONDS = 5
MALFORMED = 0xE9

Stamped = tuple[int, Request, Reply]
Kept = dict[bytes, tuple[int, bytes]]  # the stamp and the value of each key that disks keep


@unittest.skipUnless(hasattr(os, "mkfifo"), "this system has no named pipes")
class Meshes(unittest.TestCase):
    @classmethod
    def setUpClass(cls):
        build()

    def setUp(self):
        scratch = tempfile.TemporaryDirectory()
        self.addCleanup(scratch.cleanup)
        self.scratch = scratch.name
        self.folder = self.path("store")

    def path(self, name: str) -> str:
        return os.path.join(self.scratch, name)

    def start(self) -> Mesh:
        numbers = range(SESSIONS)
        pipes = [self.path(f"{end}-{number}") for number in numbers for end in ("in", "out")]
        for pipe in pipes:
            if not os.path.exists(pipe):
                os.mkfifo(pipe)
        mesh = Mesh(self.folder, pipes, WORKERS)
        self.addCleanup(mesh.stop)
        return mesh

    def check_stamps(self, clients: list[Client], floor: int = 0) -> list[Stamped]:
        """The answered requests about keys by stamp. All stamps differ, and in each session they
        rise from group to group, also above what was noted, and within a group for each key."""
        pairs = []
        for client in clients:
            low = floor
            for group in client.pairs():
                latest: dict[bytes, int] = {}
                for request, reply in group:
                    if request.what == "after":
                        low = self.seen_behind(low, request.stamp, reply)
                        continue
                    stamp = stamp_of(reply)
                    earlier = latest.get(request.key, low)
                    self.assertGreater(stamp, earlier, f"session {client.number}")
                    latest[request.key] = stamp
                    pairs.append((stamp, request, reply))
                low = max(latest.values(), default=low)
        pairs.sort(key=lambda pair: pair[0])
        self.assertEqual(len({stamp for stamp, _, _ in pairs}), len(pairs))
        return pairs

    def seen_behind(self, seen: int, stamp: int, reply: Reply) -> int:
        """What a session has seen behind an After of the stamp, which is noted; or the reply's
        number is at or below it, and above all that the session had seen."""
        kind, body = reply
        if kind == AHEAD:
            self.assertEqual(len(body), 8)
            number = int.from_bytes(body, "little")
            self.assertTrue(seen < number <= stamp, f"Ahead {number} at {stamp}, seen {seen}")
            return seen
        self.assertEqual(reply, (NOTED, b""))
        return max(seen, stamp)

    def check_one_map(self, clients: list[Client]) -> dict[bytes, bytes]:
        """By stamp the replies are those of one plain map, empty at first; answers that map."""
        contents: dict[bytes, bytes] = {}
        for stamp, request, (kind, body) in self.check_stamps(clients):
            expected = answer(contents, request)
            told = f"{request.what} of {request.key} at {stamp}: {kind:#x} {body[8:28]}"
            self.assertTrue((kind, body[8:]) == expected, f"{told}, not {expected[1][:20]}")
        return contents

    def values(self, keys: list[bytes], workers: int = WORKERS) -> list[bytes | None]:
        """What the keys have in the store, opened anew."""
        status, replies = ask(self.folder, b"".join(map(get, keys)), workers)
        self.assertEqual((status, len(replies)), (0, len(keys)))
        return [body[8:] if kind == FOUND else None for kind, body in replies]

    def all_keys(self, mesh: Mesh) -> list[bytes]:
        return [key for client in mesh.clients for key in client.keys] + SHARED_KEYS

    def test_the_replies_of_all_sessions_are_those_of_one_map(self):
        mesh = self.start()
        mesh.at_once(lambda client: client.use(GROUPS))
        self.assertEqual(mesh.end(), (0, ""))
        contents = self.check_one_map(mesh.clients)
        keys = self.all_keys(mesh)
        same = self.values(keys) == [contents.get(key) for key in keys]
        self.assertTrue(same, "opened again it has other values")

    def test_a_client_that_is_told_of_a_stamp_finds_what_was_put_there(self):
        mesh = self.start()
        teller, told, *others = mesh.clients

        def tell(rounds: int) -> None:
            for number in range(rounds):
                giver, taker = (teller, told) if number % 2 else (told, teller)
                key, value = b"told-%d" % (number % 7), b"%d" % number
                giver.ask([Request("put", key, value)])
                stamp = stamp_of(giver.replies[-1])
                taker.ask([Request("after", stamp=stamp)], [Request("get", key)])
                noted, found = taker.replies[-2:]
                self.assertEqual(noted, (NOTED, b""), f"of {stamp}, that a reply told")
                self.assertEqual((found[0], found[1][8:]), (FOUND, value), f"round {number}")
                self.assertGreater(stamp_of(found), stamp)

        def work(client: Client) -> None:
            if client in others:
                client.use(GROUPS // 4)
            elif client is teller:
                tell(GROUPS)

        mesh.at_once(work, [teller, *others])
        far = (1 << 64) - 1
        told.ask([Request("after", stamp=far)])
        kind, body = told.replies[-1]
        self.assertEqual(kind, AHEAD)
        # At rest the next stamp is this number, so the one before it is noted and it isn't.
        number = int.from_bytes(body, "little")
        told.ask([Request("after", stamp=number - 1)], [Request("after", stamp=number)])
        self.assertEqual(told.replies[-2:], [(NOTED, b""), (AHEAD, body)])
        told.ask([Request("get", b"told-0")])
        self.assertEqual(stamp_of(told.replies[-1]), number)
        self.assertEqual(mesh.end(), (0, ""))
        self.check_one_map(mesh.clients)

    # ---- Killed and opened again -----------------------------------------------------------------

    def kept_items(self) -> Kept:
        """What the disks keep."""
        status, report, said = kvell("dump", self.folder, str(WORKERS))
        self.assertEqual((status, said), (0, ""))
        kept = {}
        for line in report.splitlines():
            stamp, key, value = line.split(" ")
            kept[bytes.fromhex(key)] = (int(stamp), bytes.fromhex(value))
        return kept

    def check_kept(self, mesh: Mesh, before: Kept) -> Kept:
        """Each key has what its last acknowledged change gave it, or a later one would have."""
        floor = max((stamp for stamp, _ in before.values()), default=0)
        acknowledged: dict[bytes, tuple[int, bytes | None]] = dict(before)
        for stamp, request, (kind, _) in self.check_stamps(mesh.clients, floor):
            self.assertIn(kind, (STORED,) if request.what == "put" else (REMOVED, ABSENT))
            acknowledged[request.key] = (stamp, request.value)
        pending: dict[bytes, set[bytes | None]] = {}
        for client in mesh.clients:
            for request in client.unanswered():
                pending.setdefault(request.key, set()).add(request.value)
        kept = self.kept_items()
        keys = self.all_keys(mesh)
        self.assertLessEqual(set(kept), set(keys))
        for key in keys:
            last, value = acknowledged.get(key, (0, None))
            stamp, found = kept.get(key, (None, None))
            if found == value:
                self.assertIn(stamp, (last, None), f"{key}")
            else:
                self.assertTrue(found in pending.get(key, ()), f"{key} has {found and found[:20]}")
                if stamp is not None:
                    self.assertLess(last, stamp, f"{key}: an acknowledged change is lost")
        same = self.values(keys) == [kept.get(key, (0, None))[1] for key in keys]
        self.assertTrue(same, "opened again it has other values")
        return kept

    def kill_while_it_opens(self, seconds: float) -> None:
        words = [PROGRAM, "serve", self.folder, str(WORKERS), "-", "-"]
        with subprocess.Popen(words, stdin=subprocess.PIPE, stdout=subprocess.DEVNULL) as process:
            time.sleep(seconds)
            process.kill()

    def test_what_was_acknowledged_is_there_after_a_kill(self):
        draw = random.Random(11)
        kept: Kept = {}
        acknowledged = 0
        values = [0] * SESSIONS

        def write(client: Client) -> None:
            client.values = values[client.number]
            draws = random.Random(1_000_000 * client.number + client.values)
            while client.send([client.change(draws) for _ in range(draws.randint(1, 64))]):
                if draws.random() < 0.5:
                    time.sleep(0.002)
            client.drain()
            values[client.number] = client.values

        for _ in range(KILLS):
            mesh = self.start()
            killer = threading.Timer(draw.uniform(0.01, 0.4), mesh.process.kill)
            killer.start()
            mesh.at_once(write)
            killer.join()
            mesh.stop()
            self.kill_while_it_opens(draw.uniform(0, 0.1))
            kept = self.check_kept(mesh, kept)
            acknowledged += sum(len(client.replies) for client in mesh.clients)
        self.assertGreater(acknowledged, KILLS)

    # ---- Clients that hold their session up ------------------------------------------------------

    def go_on(self, mesh: Mesh, stuck: Client) -> None:
        """All clients but one use the store."""
        mesh.at_once(lambda client: client.use(8), mesh.others(stuck))

    def test_a_client_that_stops_reading_holds_up_its_own_session_alone(self):
        mesh = self.start()
        stuck, value = mesh.clients[0], b"v" * 60_000
        keys = [b"large-%d" % number for number in range(16)]
        stuck.ask([Request("put", key, value) for key in keys])
        stuck.send_unread(*[[Request("get", key) for key in keys]] * 4)
        self.go_on(mesh, stuck)
        stuck.wait()
        self.assertEqual({kind for kind, _ in stuck.replies[len(keys) :]}, {FOUND})
        self.assertEqual(mesh.end(), (0, ""))
        self.check_one_map(mesh.clients)

    def test_half_a_frame_holds_up_its_own_session_alone(self):
        mesh = self.start()
        stuck, request = mesh.clients[1], Request("put", b"half", b"v" * 100)
        frame = frames_of([request])
        stuck.move(frame[:50])
        self.go_on(mesh, stuck)
        self.assertEqual(stuck.replies, [])
        stuck.groups.append([request])
        stuck.move(frame[50:] + FLUSH)
        stuck.wait()
        self.assertEqual(mesh.end(), (0, ""))
        self.check_one_map(mesh.clients)

    # ---- Clients that leave early ----------------------------------------------------------------

    def leave(self, leave: Work, status: int, line: str) -> Client:
        """A client leaves behind a group; the others go on, and the program says so at the end."""
        mesh = self.start()
        client = mesh.clients[1]
        client.ask([Request("put", key, b"1") for key in client.keys])
        leave(client)
        self.go_on(mesh, client)
        client.close_source()
        self.assertEqual(mesh.end(), (status, line))
        self.check_one_map(mesh.others(client))
        return client

    def test_a_client_that_closes_its_output_ends_its_own_session_alone(self):
        def close_and_ask(client: Client) -> None:
            client.close_sink()
            client.send([Request("put", client.keys[0], b"2")], reading=False)

        self.leave(close_and_ask, 1, "kvell: session 1 ended: sink fault\n")

    def test_a_client_that_ends_inside_a_frame_ends_its_own_session_alone(self):
        at = len(frames_of(Request("put", b"1-00", b"1") for _ in range(40)) + FLUSH)

        def cut(client: Client) -> None:
            client.move(get(b"1-00")[:-1])
            client.close_source()

        client = self.leave(cut, 1, f"kvell: session 1 ended: malformed at {at}\n")
        self.assertEqual(client.replies[40:], [(MALFORMED, at.to_bytes(8, "little"))])

    def test_a_client_that_ends_behind_a_frame_is_answered_while_others_go_on(self):
        def ask_and_end(client: Client) -> None:
            group = [Request("get", key) for key in client.keys]
            client.groups.append(group)
            client.move(frames_of(group))
            client.close_source()
            client.wait()

        client = self.leave(ask_and_end, 0, "")
        found = [(kind, body[8:]) for kind, body in client.replies[40:]]
        self.assertEqual(found, [(FOUND, b"1")] * 40)

    # ---- At rest, and over files -----------------------------------------------------------------

    @unittest.skipUnless(os.path.exists("/proc/self/stat"), "no processor times in /proc here")
    def test_a_mesh_at_rest_takes_no_processor(self):
        mesh = self.start()
        unread, half = mesh.clients[:2]
        mesh.at_once(lambda client: client.ask([Request("put", client.keys[0], b"v" * 60_000)]))
        unread.send_unread([Request("get", unread.keys[0])] * 8)
        half.move(get(half.keys[0])[:-1])
        time.sleep(0.5)
        before = mesh.processor_seconds()
        time.sleep(IDLE_SECONDS)
        self.assertLess(mesh.processor_seconds() - before, 0.01 * IDLE_SECONDS)
        half.groups.append([Request("get", half.keys[0])])
        half.move(get(half.keys[0])[-1:] + FLUSH)
        mesh.at_once(Client.wait)
        self.assertEqual(mesh.end(), (0, ""))
        self.check_one_map(mesh.clients)

    def write(self, name: str, content: bytes) -> str:
        with open(self.path(name), "wb") as file:
            file.write(content)
        return self.path(name)

    def test_the_most_sessions_and_workers_over_files(self):
        workers, sessions = 16, 8
        clients = [Client(number) for number in range(sessions)]
        files = []
        for client in clients:
            group = [Request("put", b"%d" % key, b"%d" % client.number) for key in range(50)]
            client.groups.append(group)
            files.append(self.write(f"in-{client.number}", frames_of(group)))
            files.append(self.write(f"out-{client.number}", b"what stood there"))
        self.assertEqual(kvell("serve", self.folder, str(workers), *files), (0, "", ""))
        for client, path in zip(clients, files[1::2]):
            with open(path, "rb") as file:
                client.take(file.read())
            self.assertEqual((len(client.replies), client.tail), (50, b""))
        contents = self.check_one_map(clients)
        self.assertEqual(self.values(list(contents), workers), list(contents.values()))

    def test_a_pipe_that_cannot_be_opened_is_told(self):
        self.write("in-0", put(b"a", b"1"))
        files = [self.path(name) for name in ("in-0", "out-0", "none", "out-1")]
        refused = (3, "", "kvell: session 1: cannot be taken\n")
        self.assertEqual(kvell("serve", self.folder, str(WORKERS), *files), refused)
        self.assertEqual(self.values([b"a"]), [None])


if __name__ == "__main__":
    unittest.main()
