"""A link at a gateway: the greeting, and what is left of a client whose connection ended."""

from __future__ import annotations

import asyncio
import socket
import struct
import tempfile
import threading
import unittest
from pathlib import Path

from rughvadi import Closed, Error, Limits, Link, Refused, Server, aio, connect, read_token
from rughvadi._greeting import host_and_port

LIMITS = Limits(clients=2, pages=4, page_size=64, slots=4, kin=1, kout=4)
NUMBERS = (2, 4, 64, 4, 1, 4, 0)


def serve(connection: socket.socket) -> None:
    """A server for one connection, until that ends."""
    server = Server(LIMITS)
    came = b""
    while got := connection.recv(1 << 16):
        came += got
        while len(came) >= 16 and len(came) >= 16 + int.from_bytes(came[12:16], "big"):
            came = came[server.take(came) :]
            for frame in server.frames():
                connection.sendall(frame.data)


WELCOME = struct.pack(">BBHQ7I", 1, 0, 1, 5, *NUMBERS)


def begun(connection: socket.socket) -> threading.Thread:
    thread = threading.Thread(target=serve, args=(connection,))
    thread.start()
    return thread


class Greeting(unittest.TestCase):
    def setUp(self) -> None:
        self.folder = tempfile.TemporaryDirectory()
        self.addCleanup(self.folder.cleanup)
        self.path = str(Path(self.folder.name) / "socket")
        self.listener = socket.socket(socket.AF_UNIX)
        self.addCleanup(self.listener.close)
        self.listener.bind(self.path)
        self.listener.listen()

    def answered(self, answer: bytes) -> threading.Thread:
        """A gateway that answers so, and serves who is welcome."""

        def run() -> None:
            connection, _ = self.listener.accept()
            with connection:
                self.greeting = connection.recv(100)
                connection.sendall(answer)
                if answer[1] == 0:
                    serve(connection)

        thread = threading.Thread(target=run)
        thread.start()
        return thread

    def test_welcome(self) -> None:
        token = bytes(range(32))
        thread = self.answered(WELCOME)
        with connect(self.path, token, "s") as link:
            self.assertEqual(link.client.limits, LIMITS)
            with self.assertRaises(KeyError):
                with link.transaction() as transaction:
                    self.assertEqual(transaction.read(3), bytes(64))
                    raise KeyError  # nothing is committed: this server has no disk
        thread.join()
        self.assertEqual(self.greeting, b"rughvadi\x01\x01" + token + b"s")

    def test_no_time_out(self) -> None:
        thread = self.answered(WELCOME)
        with connect(self.path, bytes(32), time_out=None) as link:
            self.assertIsNone(link._socket.gettimeout())
            with link.transaction() as transaction:
                self.assertEqual(transaction.read(3), bytes(64))
                transaction.drop()
        thread.join()

    def test_welcome_on_a_loop(self) -> None:
        async def look(time_out: float | None) -> None:
            async with await aio.connect(self.path, bytes(32), "s", time_out) as link:
                async with link.transaction() as transaction:
                    self.assertEqual(await transaction.read(3), bytes(64))
                    transaction.drop()

        for time_out in (1.0, None):
            thread = self.answered(WELCOME)
            asyncio.run(look(time_out))
            thread.join()
            self.assertEqual(self.greeting, b"rughvadi\x01\x01" + bytes(32) + b"s")

    def test_refused_on_a_loop(self) -> None:
        thread = self.answered(bytes([1, 5]) + bytes(38))
        with self.assertRaises(Refused):
            asyncio.run(aio.connect(self.path, bytes(32)))
        thread.join()

    def test_nobody_listens(self) -> None:
        for path in (f"{self.path}_none", "127.0.0.1:1", "[::1]:1"):
            self.assertRaises(OSError, connect, path, bytes(32))
            with self.assertRaises(OSError):
                asyncio.run(aio.connect(path, bytes(32)))

    def test_addresses(self) -> None:
        self.assertEqual(host_and_port("[::1]:7400"), ("::1", 7400))
        self.assertEqual(host_and_port("server.example:7400"), ("server.example", 7400))
        for address in ("socket", "server.example", ":7400", "[::1]:", "server.example:http"):
            with self.assertRaisesRegex(ValueError, "HOST:PORT"):
                connect(address, bytes(32))

    def test_refused(self) -> None:
        for answer, is_down in ((2, False), (3, False), (4, False), (5, True), (9, False)):
            thread = self.answered(bytes([1, answer]) + bytes(38))
            with self.assertRaises(Refused) as caught:
                connect(self.path, bytes(32))
            self.assertEqual(caught.exception.is_down, is_down)
            thread.join()

    def test_token(self) -> None:
        path = Path(self.folder.name) / "tokens"
        path.write_text(f"# of two clients\n\n0 {'00' * 32}\n1 {'ab' * 32}\n")
        self.assertEqual(read_token(path, 1), b"\xab" * 32)
        self.assertRaises(LookupError, read_token, path, 2)


class Gone(unittest.TestCase):
    def test_a_held_page_is_gone_with_the_connection(self) -> None:
        ours, theirs = socket.socketpair()
        with ours, theirs:
            thread = begun(theirs)
            link = Link(LIMITS, 0, 1, ours)
            with self.assertRaises(Closed):
                with link.transaction() as transaction:
                    transaction.read(2)
                    theirs.shutdown(socket.SHUT_RDWR)
                    self.assertRaises(Closed, link.serve)
                    self.assertRaises(Closed, transaction.read, 2)
            with self.assertRaises(Closed):
                link.transaction().__enter__()
            self.assertRaises(Closed, link.serve)
            self.assertRaises(Error, link.serve)
            link.close()
            thread.join()


if __name__ == "__main__":
    unittest.main()
