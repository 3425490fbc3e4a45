"""held_reads.py FOLDER SIZE [REDIS]: times reads of what a process has at hand, in Python.

For values of so many bytes: the package's link over a Unix socket, whose client holds the pages,
at a server in a process of its own; `sqlite3` over files in FOLDER, one as it is opened and one
with a write-ahead log; LMDB, where its module is there; and a GET of the Redis server at the socket
REDIS. All have 512 values, drawn evenly. They take forty short turns, so that all meet the same
machine; each begins with reads that aren't counted, and the fastest counts.

A line for each: nanoseconds of a read within a transaction, of a transaction of one, and of one of
eight; then each by the package's. The package's transactions drop, as reads may that need no place
among the commits. Of `sqlite3` a read is a `select` by itself, which is a transaction of one too;
of Redis a transaction of eight is an MGET.
"""

from __future__ import annotations

import multiprocessing
import random
import socket
import sqlite3
import sys
import time
from pathlib import Path
from typing import Callable

from rughvadi import FrameShort, Limits, Link, Server, read_frame

COUNT = 512
TURNS = 40
READ, ONE, EIGHT = "read", "transaction of 1", "transaction of 8"
Timed = dict[str, Callable[[list[int]], None]]


def serve(client: socket.socket, end: socket.socket, limits: Limits) -> None:
    """A server of one client, in a process of its own, until the client's end is closed."""
    client.close()
    server, came = Server(limits), b""
    while got := end.recv(1 << 16):
        came += got
        while came:
            try:
                length = read_frame(limits, came).length
            except FrameShort:
                break
            server.take(came[:length])
            came = came[length:]
            for frame in server.frames():
                end.sendall(frame.data)


def of_link(link: Link) -> Timed:
    def read(pages: list[int]) -> None:
        with link.transaction() as transaction:
            for page in pages:
                transaction.read(page)
            transaction.drop()

    def one(pages: list[int]) -> None:
        for page in pages:
            with link.transaction() as transaction:
                transaction.read(page)
                transaction.drop()

    def eight(pages: list[int]) -> None:
        for page in pages:
            with link.transaction() as transaction:
                for at in range(8):
                    transaction.read(page ^ at)
                transaction.drop()

    return {READ: read, ONE: one, EIGHT: eight}


def of_sqlite(path: Path, size: int, journal: str) -> Timed:
    database = sqlite3.connect(path, isolation_level=None)
    database.execute(f"PRAGMA journal_mode = {journal}")
    database.execute("CREATE TABLE pages(page INTEGER PRIMARY KEY, data)")
    database.execute("BEGIN")
    rows = [(page, bytes(size)) for page in range(COUNT)]
    database.executemany("INSERT INTO pages VALUES (?, ?)", rows)
    database.execute("COMMIT")
    text, execute = "SELECT data FROM pages WHERE page = ?", database.execute

    def one(pages: list[int]) -> None:
        for page in pages:
            execute(text, (page,)).fetchone()

    def eight(pages: list[int]) -> None:
        for page in pages:
            execute("BEGIN")
            for at in range(8):
                execute(text, (page ^ at,)).fetchone()
            execute("COMMIT")

    return {READ: one, ONE: one, EIGHT: eight}


def of_lmdb(folder: Path, size: int) -> Timed:
    import lmdb

    store = lmdb.open(str(folder), map_size=1 << 26)
    keys = [page.to_bytes(4, "big") for page in range(COUNT)]
    with store.begin(write=True) as filling:
        for key in keys:
            filling.put(key, bytes(size))

    def read(pages: list[int]) -> None:
        with store.begin() as transaction:
            for page in pages:
                transaction.get(keys[page])

    def one(pages: list[int]) -> None:
        for page in pages:
            with store.begin() as transaction:
                transaction.get(keys[page])

    def eight(pages: list[int]) -> None:
        for page in pages:
            with store.begin() as transaction:
                for at in range(8):
                    transaction.get(keys[page ^ at])

    return {READ: read, ONE: one, EIGHT: eight}


def of_redis(path: str, size: int) -> Timed:
    """By the protocol itself, over a plain socket: a client's package costs more."""
    connected = socket.socket(socket.AF_UNIX)
    connected.connect(path)
    answer_size = len(f"${size}\r\n") + size + 2

    def ask(words: list[bytes], awaited: int) -> bytes:
        parts = [b"*%d\r\n" % len(words), *(b"$%d\r\n%b\r\n" % (len(it), it) for it in words)]
        connected.sendall(b"".join(parts))
        came = connected.recv(1 << 17)
        while len(came) < awaited:
            came += connected.recv(1 << 17)
        return came

    keys = [b"%d:%d" % (size, page) for page in range(COUNT)]
    for key in keys:
        ask([b"SET", key, bytes(size)], len("+OK\r\n"))

    def one(pages: list[int]) -> None:
        for page in pages:
            ask([b"GET", keys[page]], answer_size)

    def eight(pages: list[int]) -> None:
        for page in pages:
            words = [b"MGET", *(keys[page ^ at] for at in range(8))]
            ask(words, len("*8\r\n") + 8 * answer_size)

    return {READ: one, ONE: one, EIGHT: eight}


def timed(call: Callable[[list[int]], None], pages: list[int]) -> float:
    call(pages)
    begun = time.perf_counter()
    call(pages)
    return (time.perf_counter() - begun) / len(pages) * 1e9


def best_of(parties: dict[str, Timed]) -> dict[tuple[str, str], float]:
    """The fastest turn of each, of parties that take turns."""
    best: dict[tuple[str, str], float] = {}
    for _ in range(TURNS):
        for what in (READ, ONE, EIGHT):
            for name, party in parties.items():
                pages = random.choices(range(COUNT), k=50 if what == EIGHT else 400)
                took = timed(party[what], pages)
                best[name, what] = min(took, best.get((name, what), took))
    return best


def linked(size: int) -> tuple[Link, multiprocessing.Process]:
    """A link that holds all pages, and its server."""
    limits = Limits(clients=1, pages=COUNT, page_size=size, slots=COUNT)
    ours, theirs = socket.socketpair()
    server = multiprocessing.Process(target=serve, args=(ours, theirs, limits))
    server.start()
    theirs.close()
    link = Link(limits, 0, 1, ours, owns=True)
    with link.transaction() as transaction:
        for page in range(COUNT):
            transaction.read(page)
        transaction.drop()
    return link, server


def main(folder: Path, size: int, redis: str) -> None:
    link, server = linked(size)
    parties = {"the package": of_link(link)}
    parties["sqlite3"] = of_sqlite(folder / f"{size}.db", size, "DELETE")
    parties["sqlite3 with WAL"] = of_sqlite(folder / f"{size}_wal.db", size, "WAL")
    try:
        parties["lmdb"] = of_lmdb(folder / f"{size}.lmdb", size)
    except ImportError:
        print(f"Python, {size} bytes: lmdb isn't installed", flush=True)
    if redis:
        parties["a Redis GET"] = of_redis(redis, size)
    best = best_of(parties)
    for name in parties:
        read, one, eight = (best[name, what] for what in (READ, ONE, EIGHT))
        said = f"read {read:.0f} ns, transaction of 1 {one:.0f} ns, of 8 {eight:.0f} ns"
        ratios = (best[name, what] / best["the package", what] for what in (READ, ONE, EIGHT))
        said += "".join(f", {ratio:.2f}" for ratio in ratios)
        print(f"Python, {size} bytes, {name}: {said} times the package", flush=True)
    link.close()
    server.join()


if __name__ == "__main__":
    main(Path(sys.argv[1]), int(sys.argv[2]), sys.argv[3] if len(sys.argv) > 3 else "")
