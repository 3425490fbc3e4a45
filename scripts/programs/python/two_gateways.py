"""two_gateways.py SERVED ONE TWO BYTES LIMITS..: a store that two gateways serve by turns.

Clients connect to the sockets ONE and TWO, and greet. The gateway whose turn it is gives a client
its seat and relays its frames to the server `served`, at the socket SERVED; the other answers that
the store isn't served. After so many bytes all connections end, and it is the other's turn. For
each turn that has ended a line is written. The seven LIMITS are those of a seat. A token's first
byte is its client's number.
"""

from __future__ import annotations

import contextlib
import socket
import struct
import sys
import threading
import time

from relay import exactly

GREETING, NAME_AT, TOKEN_AT = 42, 9, 10
SEAT = struct.Struct(">BBHQ7I")
NOT_SERVED = 5


def connected(path: str) -> socket.socket:
    stream = socket.socket(socket.AF_UNIX)
    stream.connect(path)
    return stream


class Store:
    """Whose turn it is, and what is connected."""

    def __init__(self, served: str, most: int, limits: list[int]) -> None:
        self.served, self.most, self.limits = served, most, limits
        self.lock = threading.Lock()
        self.turn = self.left = 0
        self.incarnation = time.time_ns()
        self.streams: list[socket.socket] = []

    def seat(self, place: int, client: int) -> tuple[bytes, socket.socket | None]:
        """The answer to a greeting, and a connection to the server for who has the turn."""
        with self.lock:
            if place != self.turn % 2:
                return SEAT.pack(1, NOT_SERVED, 0, 0, *[0] * 7), None
            self.incarnation += 1
            stream = connected(self.served)
            self.streams.append(stream)
            return SEAT.pack(1, 0, client, self.incarnation, *self.limits), stream

    def moved(self, count: int) -> None:
        """So many bytes were relayed; whose turn it is may change."""
        with self.lock:
            self.left += count
            if self.left < self.most:
                return
            self.left = 0
            self.turn += 1
            for stream in self.streams:
                end(stream)
            self.streams.clear()
        print("turn", self.turn, flush=True)


def end(stream: socket.socket) -> None:
    with contextlib.suppress(OSError):
        stream.shutdown(socket.SHUT_RDWR)


def relay(store: Store, source: socket.socket, to: socket.socket) -> None:
    """Hands on what comes until one of the two ends, and ends the other."""
    with contextlib.suppress(OSError):
        while got := source.recv(1 << 16):
            to.sendall(got)
            store.moved(len(got))
    end(source)
    end(to)


def serve(store: Store, place: int, client: socket.socket) -> None:
    with client, contextlib.suppress(OSError, EOFError):
        greeting = exactly(client, GREETING)
        exactly(client, greeting[NAME_AT])
        answer, server = store.seat(place, greeting[TOKEN_AT])
        client.sendall(answer)
        if server:
            with server:
                back = threading.Thread(target=relay, args=(store, server, client), daemon=True)
                back.start()
                relay(store, client, server)
                back.join()


def listen(store: Store, place: int, path: str) -> None:
    with socket.socket(socket.AF_UNIX) as listener:
        listener.bind(path)
        listener.listen(64)
        print("listens", flush=True)
        while True:
            client = listener.accept()[0]
            threading.Thread(target=serve, args=(store, place, client), daemon=True).start()


def main(served: str, one: str, two: str, most: str, *limits: str) -> None:
    store = Store(served, int(most), [int(limit) for limit in limits])
    for place, path in enumerate((one, two)):
        threading.Thread(target=listen, args=(store, place, path), daemon=True).start()
    threading.Event().wait()


if __name__ == "__main__":
    main(*sys.argv[1:])
