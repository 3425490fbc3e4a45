"""held_up.py LOG WAY [WORD..]: a commit that is held up on its way to a server, for so long that
the next server gets it.

A client reads a page, and its Commit goes out and doesn't come. The server is killed; over what is
on disk the next one begins, where another client writes that page. Then the former client's
greeting and its Commit come, and a last client reads the page. LOG has what the clients saw, as
scripts/serial.py reads it.

WAY is `none` or `life`: servers of the library in this process, opened in no life or in one; or
`pipes`, processes with all frames on their standard streams; or `socket`, hosts that listen at a
Unix socket. The words are what begins such a process.
"""
from __future__ import annotations

import json
import select
import socket
import struct
import subprocess
import sys
import tempfile
import time
from collections import defaultdict, deque
from pathlib import Path
from typing import Callable

from rughvadi import Client, Ended, Limits, Server, Status

LIMITS = Limits(clients=8, pages=16, page_size=64, slots=8, kin=2, kout=4)
CONFIG = "clients = 8\npages = 16\npage_size = 64\nslots = 8\nkin = 2\nkout = 4\n"
HEADER = struct.Struct(">BBHQI")
PAGE, SECONDS = 3, 60.0


class Own:
    """Servers of the library in this process, and their disk."""

    def __init__(self, keeps_lives: bool) -> None:
        self.keeps_lives, self.floor, self.below = keeps_lives, 0, 1
        self.rows, self.last = [(0, bytes(LIMITS.page_size))] * LIMITS.pages, 0
        self.said: dict[int, deque[bytes]] = defaultdict(deque)

    def begin(self) -> None:
        if self.keeps_lives:
            self.floor, self.below = self.below, self.below + (1 << 20)
        self.server = Server(LIMITS, self.last, self.rows, floor=self.floor)

    def end(self) -> None:
        self.server.close()
        self.said.clear()

    def incarnation(self, client: int) -> int:
        return self.server.next_incarnation(client)

    def hand(self, client: int, frame: bytes) -> None:
        self.server.take(frame)
        self.fetch()
        if batch := self.server.batch():
            for page in batch.pages:
                self.rows[page.page] = (page.version, page.data)
            self.last = batch.number
            self.server.flushed(batch.number)
            self.fetch()

    def fetch(self) -> None:
        for frame in self.server.frames():
            self.said[frame.client].append(frame.data)

    def hear(self, client: int) -> bytes:
        return self.said[client].popleft()

    def settle(self, client: int) -> list[bytes]:
        """All that it said to the client, once what was handed in is taken."""
        return [self.said[client].popleft() for _ in range(len(self.said[client]))]


class Pipes:
    """Processes that announce their lives, and serve on their standard streams."""

    def __init__(self, folder: Path, words: list[str]) -> None:
        (folder / "config").write_text(CONFIG)
        self.words = [*words, "--announce", str(folder / "config"), str(folder / "pages.db")]
        self.said: dict[int, deque[bytes]] = defaultdict(deque)

    def begin(self) -> None:
        pipes = {"stdin": subprocess.PIPE, "stdout": subprocess.PIPE}
        self.process = subprocess.Popen(self.words, bufsize=0, **pipes)
        self.floor = HEADER.unpack(self.exactly(HEADER.size))[3]

    def end(self) -> None:
        self.process.kill()
        self.process.wait()
        self.process.stdin.close()
        self.process.stdout.close()
        self.said.clear()

    def incarnation(self, client: int) -> int:
        return self.floor + 1  # each client comes once in a life

    def exactly(self, count: int) -> bytes:
        found = b""
        while len(found) < count:
            ready, _, _ = select.select([self.process.stdout], [], [], SECONDS)
            got = self.process.stdout.read(count - len(found)) if ready else b""
            if not got:
                raise EOFError("the server says nothing more")
            found += got
        return found

    def hand(self, client: int, frame: bytes) -> None:
        self.process.stdin.write(frame)

    def hear(self, client: int) -> bytes:
        while not self.said[client]:
            head = self.exactly(HEADER.size)
            _, _, to, _, size = HEADER.unpack(head)
            self.said[to].append(head + self.exactly(size))
        return self.said[client].popleft()

    def settle(self, client: int) -> list[bytes]:
        """What it said to the client before what others have heard: one stream has all in order."""
        return [self.said[client].popleft() for _ in range(len(self.said[client]))]


class Sockets:
    """Hosts that listen at a socket, with a connection for each client."""

    def __init__(self, folder: Path, words: list[str]) -> None:
        self.path = folder / "socket"
        limits = [LIMITS.clients, LIMITS.pages, LIMITS.page_size]
        self.words = [*words, self.path, folder / "pages.db", *limits]
        self.connections: dict[int, socket.socket] = {}

    def begin(self) -> None:
        self.path.unlink(missing_ok=True)
        self.process = subprocess.Popen(list(map(str, self.words)), stdout=subprocess.PIPE)
        self.process.stdout.readline()

    def end(self) -> None:
        self.process.kill()
        self.process.wait()
        self.process.stdout.close()
        for connection in self.connections.values():
            connection.close()
        self.connections.clear()

    def connection(self, client: int) -> socket.socket:
        if client not in self.connections:
            made = self.connections[client] = socket.socket(socket.AF_UNIX)
            made.settimeout(SECONDS)
            made.connect(str(self.path))
        return self.connections[client]

    def incarnation(self, client: int) -> int:
        self.hand(client, HEADER.pack(2, 0, client, 0, 0))
        return HEADER.unpack(self.hear(client))[3]

    def hand(self, client: int, frame: bytes) -> None:
        self.connection(client).sendall(frame)

    def hear(self, client: int) -> bytes:
        head = self.connection(client).recv(HEADER.size, socket.MSG_WAITALL)
        if len(head) < HEADER.size:
            raise EOFError("the host ended the connection")
        size = HEADER.unpack(head)[4]
        return head + (self.connection(client).recv(size, socket.MSG_WAITALL) if size else b"")

    def settle(self, client: int) -> list[bytes]:
        """What it says to the client until it tells an incarnation, which it was asked for last."""
        self.hand(client, HEADER.pack(2, 0, client, 0, 0))
        return list(iter(lambda: self.frame_before_answer(client), b""))

    def frame_before_answer(self, client: int) -> bytes:
        frame = self.hear(client)
        return b"" if frame[:2] == b"\2\0" else frame


class Party:
    """A client, and the log of what it does."""

    def __init__(self, way: Own | Pipes | Sockets, number: int, log: Path) -> None:
        self.way, self.number, self.log = way, number, log
        self.client = Client(LIMITS, number, way.incarnation(number))
        self.operations: list[tuple[int, str, str]] = []
        self.begun = time.monotonic_ns()

    def frames(self) -> list[bytes]:
        return [it.data for it in self.client.frames()]

    def exchange(self, is_over: Callable[[], bool]) -> None:
        while True:
            for frame in self.frames():
                self.way.hand(self.number, frame)
            if is_over():
                return
            self.client.take(self.way.hear(self.number))

    def greet(self) -> bytes:
        """Is welcome; its greeting."""
        self.client.hello()
        (greeting,) = self.frames()
        self.way.hand(self.number, greeting)
        self.exchange(lambda: self.client.status is Status.IDLE)
        return greeting

    def is_answered(self) -> bool:
        return self.client.status is not Status.WAITING

    def read(self) -> None:
        self.client.begin()
        while (body := self.client.read(PAGE)) is None:
            self.exchange(self.is_answered)
        self.operations.append((PAGE, "r", body[:8].hex()))

    def write(self) -> None:
        value = bytes([0, 0, 0, 0, 0, 0, 7, self.number])
        while not self.client.want(PAGE):
            self.exchange(self.is_answered)
        self.client.write(PAGE, value * (LIMITS.page_size // 8))
        self.operations.append((PAGE, "w", value.hex()))

    def finish(self) -> list[bytes]:
        """Commits; what is to be sent for it."""
        self.client.finish()
        self.tell(None, 0)
        return self.frames()

    def commit(self) -> None:
        for frame in self.finish():
            self.way.hand(self.number, frame)
        self.exchange(lambda: self.client.status is Status.IDLE)
        self.tell_ended()

    def tell_ended(self) -> None:
        how, number = self.client.last
        if how is Ended.COMMITTED:
            self.tell(time.monotonic_ns(), number)

    def tell(self, ended: int | None, number: int) -> None:
        with self.log.open("a") as log:
            log.write(json.dumps([self.begun, ended, number, self.operations]) + "\n")


def scene(way: Own | Pipes | Sockets, log: Path) -> None:
    way.begin()
    late = Party(way, 0, log)
    held = [late.greet()]
    late.read()
    held += late.finish()
    way.end()
    way.begin()
    other = Party(way, 1, log)
    other.greet()
    other.read()
    other.write()
    other.commit()
    for frame in held:
        way.hand(0, frame)
    heard = way.settle(0)
    reader = Party(way, 2, log)
    reader.greet()
    reader.read()
    reader.commit()
    for frame in [*heard, *way.settle(0)]:
        late.client.take(frame)
    late.tell_ended()
    way.end()


def main(log: Path, kind: str, words: list[str]) -> None:
    with tempfile.TemporaryDirectory() as name:
        folder = Path(name)
        ways = {"none": lambda: Own(False), "life": lambda: Own(True),
                "pipes": lambda: Pipes(folder, words), "socket": lambda: Sockets(folder, words)}
        scene(ways[kind](), log)


main(Path(sys.argv[1]), sys.argv[2], sys.argv[3:])
