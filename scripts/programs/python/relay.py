"""relay.py SOCKET GATEWAY SEED: clients connect to SOCKET, and their frames go over datagrams.

Greetings go through as they are. Then each frame is a datagram, of which a tenth is lost, a tenth
is sent twice and a tenth comes late, behind some that follow it; at the other end they are put on
the connection to GATEWAY, or back to the client.
"""

from __future__ import annotations

import contextlib
import random
import socket
import sys
import threading

HEADER, ANSWER = 16, 40


def exactly(stream: socket.socket, count: int) -> bytes:
    """So many bytes; fewer where the stream ends before."""
    found = b""
    while len(found) < count:
        got = stream.recv(count - len(found))
        if not got:
            raise EOFError
        found += got
    return found


class Datagrams:
    """A pair of sockets on the loopback, and how badly they carry."""

    def __init__(self, seed: int) -> None:
        self.drawn = random.Random(seed)
        self.taker = socket.socket(socket.AF_INET, socket.SOCK_DGRAM)
        self.taker.setsockopt(socket.SOL_SOCKET, socket.SO_RCVBUF, 1 << 22)
        self.taker.bind(("127.0.0.1", 0))
        self.giver = socket.socket(socket.AF_INET, socket.SOCK_DGRAM)
        self.giver.connect(self.taker.getsockname())
        self.late: list[tuple[int, bytes]] = []

    def send(self, frame: bytes) -> None:
        fate = self.drawn.randrange(10)
        if fate == 2:
            self.late.append((self.drawn.randint(1, 5), frame))
        elif fate != 0:
            for _ in range(2 if fate == 1 else 1):
                self.giver.send(frame)
        self.late = [(count - 1, each) for count, each in self.late]
        for _, each in [it for it in self.late if it[0] < 0]:
            self.giver.send(each)
        self.late = [it for it in self.late if it[0] >= 0]

    def end(self) -> None:
        # An empty datagram is no frame. Whoever takes may have ended before.
        with contextlib.suppress(OSError):
            self.giver.send(b"")


def give(stream: socket.socket, datagrams: Datagrams) -> None:
    """Cuts what comes into frames, and sends each as a datagram."""
    try:
        while True:
            header = exactly(stream, HEADER)
            datagrams.send(header + exactly(stream, int.from_bytes(header[12:], "big")))
    except (EOFError, OSError):
        datagrams.end()


def take(datagrams: Datagrams, stream: socket.socket) -> None:
    """Puts what comes in datagrams on a stream, and ends it with them."""
    try:
        while frame := datagrams.taker.recv(1 << 16):
            stream.sendall(frame)
    except OSError:
        pass
    for close in (lambda: stream.shutdown(socket.SHUT_RDWR), datagrams.giver.close):
        try:
            close()
        except OSError:
            pass


def carry(client: socket.socket, gateway: str, seed: int) -> None:
    upstream = socket.socket(socket.AF_UNIX)
    try:
        upstream.connect(gateway)
        head = exactly(client, 42)
        upstream.sendall(head + exactly(client, head[9]))
        client.sendall(exactly(upstream, ANSWER))
    except (EOFError, OSError):
        client.close()
        upstream.close()
        return
    there, back = Datagrams(2 * seed), Datagrams(2 * seed + 1)
    ways = [(give, client, there), (take, there, upstream)]
    ways += [(give, upstream, back), (take, back, client)]
    threads = [threading.Thread(target=how, args=(one, other)) for how, one, other in ways]
    for each in threads:
        each.start()
    for each in threads:
        each.join()
    client.close()
    upstream.close()


def main(path: str, gateway: str, seed: int) -> None:
    listener = socket.socket(socket.AF_UNIX)
    listener.bind(path)
    listener.listen(64)
    print("ready", flush=True)
    while True:
        client, _ = listener.accept()
        seed += 1
        threading.Thread(target=carry, args=(client, gateway, seed), daemon=True).start()


if __name__ == "__main__":
    main(sys.argv[1], sys.argv[2], int(sys.argv[3]))
