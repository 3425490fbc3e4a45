"""A server in the process of its clients, for tests: what a client's socket sends is handed to it
at once, and what it says is in the sockets before the client looks. So no test rests on time, or on
a schedule."""

from __future__ import annotations

import asyncio
import signal
import socket
from types import FrameType
from typing import Callable, Optional

from rughvadi import Client, FrameShort, Limits, Link, Server, read_frame

ROOM = 1 << 20
GIVE_BACK = 4


class Host:
    """A server, its disk, and its ends of the connections."""

    def __init__(self, limits: Limits, server: Optional[Server] = None) -> None:
        self.limits = limits
        self.server = server or Server(limits)
        self.disk = [(0, bytes(limits.page_size)) for _ in range(limits.pages)]
        self.last_commit = 0
        self.ends: dict[int, socket.socket] = {}
        self.came: dict[int, bytes] = {}
        self.bare: dict[int, Client] = {}

    def socket(self, client: int, kind: type[Wire] | None = None) -> Wire:
        """A client's end of a connection, whose frames are taken at once."""
        ours, theirs = socket.socketpair()
        theirs.setblocking(False)
        self.ends[client], self.came[client] = theirs, b""
        return (kind or Wire)(self, ours)

    def link(self, client: int) -> Link:
        return Link(self.limits, client, 1, self.socket(client))

    def bare_client(self, client: int) -> Client:
        """A welcome client without a socket, to which frames are handed at once."""
        self.bare[client] = Client(self.limits, client, 1)
        self.bare[client].hello()
        self.carry(client)
        return self.bare[client]

    def carry(self, client: int) -> None:
        """Takes what a client without a socket said."""
        for frame in list(self.bare[client].frames()):
            self.server.take(frame.data)
            self.deliver()
        self.flush()

    def want_bare(self, client: int, page: int) -> None:
        """A client without a socket reads a page, and wants to write it."""
        other = self.bare_client(client)
        other.begin()
        other.read(page)
        self.carry(client)
        other.want(page)
        self.carry(client)

    def pump(self) -> None:
        """Takes all whole frames that came, and writes what was committed."""
        for client, end in self.ends.items():
            try:
                while got := end.recv(ROOM):
                    self.came[client] += got
            except BlockingIOError:
                pass
            try:
                self.take_frames(client)
            finally:  # what came before a frame that is none counts
                self.flush()

    def take_frames(self, client: int) -> None:
        while self.came[client]:
            try:
                length = read_frame(self.limits, self.came[client]).length
            except FrameShort:
                return
            self.server.take(self.came[client][:length])
            self.came[client] = self.came[client][length:]
            self.deliver()

    def deliver(self) -> None:
        for frame in list(self.server.frames()):
            if frame.client in self.bare:
                self.bare[frame.client].take(frame.data)
                self.carry(frame.client)
            elif frame.client in self.ends:
                self.ends[frame.client].sendall(frame.data)

    def flush(self) -> None:
        batch = self.server.batch()
        if batch is None:
            return
        for page in batch.pages:
            self.disk[page.page] = (page.version, page.data)
        self.last_commit = batch.number
        assert self.server.can_flush(batch.number)
        self.server.flushed(batch.number)
        self.server.forget(batch.number)
        self.deliver()

    def watch(self) -> None:
        """Serves from the loop that runs."""
        for end in self.ends.values():
            asyncio.get_running_loop().add_reader(end, self.pump)

    def close(self) -> None:
        for end in self.ends.values():
            end.close()


class Wire(socket.socket):
    """A client's end: the host takes what it sends before `send` returns."""

    def __init__(self, host: Host, end: socket.socket) -> None:
        super().__init__(socket.AF_UNIX, socket.SOCK_STREAM, fileno=end.detach())
        self.host = host

    def send(self, data, *flags: int) -> int:  # type: ignore[override]
        sent = super().send(data, *flags)
        self.host.pump()
        return sent


def until_given_back(send: Callable[[bytes], None]) -> Callable[[bytes], None]:
    """Sends frames, up to the first that gives a page back: then the connection has ended."""

    def send_next(data: bytes) -> None:
        if data[1] == GIVE_BACK:
            raise BrokenPipeError
        send(data)

    return send_next


class Interrupted(BaseException):
    """What a signal's handler raises."""


def interrupt(_number: int, _frame: Optional[FrameType]) -> None:
    signal.setitimer(signal.ITIMER_REAL, 0)  # it comes once
    raise Interrupted


class Cut(Wire):
    """An end that is interrupted by a signal as it sends a frame of one kind, behind so many bytes
    of it. Once that was, it sends as before."""

    kind, count = 0, 0
    lengths: list[int] = []
    """How long the frames were that it was interrupted in."""

    def send(self, data, *flags: int) -> int:  # type: ignore[override]
        if not self.kind or bytes(data[:2])[1] != self.kind:
            return super().send(data, *flags)
        self.kind = 0
        self.lengths.append(len(data))
        if self.count:
            super().send(data[: self.count], *flags)
        signal.raise_signal(signal.SIGALRM)
        raise AssertionError("the signal had no handler")


def with_handler(call: Callable[[], None]) -> None:
    """Makes the call while the signal's handler raises `Interrupted`."""
    before = signal.signal(signal.SIGALRM, interrupt)
    try:
        call()
    finally:
        signal.signal(signal.SIGALRM, before)
