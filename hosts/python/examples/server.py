"""server.py SOCKET DATABASE: serves the pages of an SQLite database on a Unix socket."""

import selectors
import socket
import sqlite3
import struct
import sys
from contextlib import suppress

from rughvadi import Fault, FrameShort, Limits, Server, read_frame

LIMITS = Limits(clients=8, pages=16, page_size=64, slots=8, kin=2, kout=4)
HEADER = struct.Struct(">BBHQI")  # of frames; alone and with kind 0 it asks for an incarnation
ROOM, MOST = 1 << 20, 3 << 60  # of incarnations: above a bound, and for all lives


class Store:
    """Pages with their versions, and the number of the last commit: written together or not."""

    def __init__(self, path: str) -> None:
        self.db = sqlite3.connect(path, isolation_level=None)
        self.db.execute("PRAGMA synchronous = FULL")
        self.db.execute("CREATE TABLE IF NOT EXISTS pages(page INTEGER PRIMARY KEY, version, data)")
        self.db.execute("CREATE TABLE IF NOT EXISTS mark(id INTEGER PRIMARY KEY, number)")
        self.db.execute("CREATE TABLE IF NOT EXISTS life(id INTEGER PRIMARY KEY, floor, below)")
        self.db.execute("INSERT OR IGNORE INTO life VALUES (1, 0, 1)")
        # Each incarnation of the former lives is below the floor of this one.
        self.db.execute("UPDATE life SET floor = below, below = below + ?", (ROOM,))
        self.floor, self.below = self.db.execute("SELECT floor, below FROM life").fetchone()

    def server(self) -> Server:
        mark = self.db.execute("SELECT number FROM mark").fetchone()
        rows = {page: row for page, *row in self.db.execute("SELECT * FROM pages")}
        zeros = [0, bytes(LIMITS.page_size)]
        rows = [rows.get(page, zeros) for page in range(LIMITS.pages)]
        # It takes no frame of an incarnation below the floor.
        return Server(LIMITS, mark[0] if mark else 0, rows, floor=self.floor)

    def raise_above(self, incarnation: int) -> None:
        """The bound is above an incarnation before the server hears of it."""
        if incarnation >= self.below:
            self.below = incarnation + ROOM
            self.db.execute("UPDATE life SET below = ?", (self.below,))  # synced, as a batch is

    def write(self, batch) -> None:
        self.db.execute("BEGIN")
        for page in batch.pages:
            row = (page.page, page.version, page.data)
            self.db.execute("REPLACE INTO pages VALUES (?, ?, ?)", row)
        self.db.execute("REPLACE INTO mark VALUES (0, ?)", (batch.number,))
        self.db.execute("COMMIT")  # it is synced when this returns


class Host:
    """A server, and the connection of each client."""

    def __init__(self, path: str, store: Store) -> None:
        self.store, self.server = store, store.server()
        self.connections: dict[int, socket.socket] = {}
        self.came: dict[socket.socket, bytes] = {}
        self.selector = selectors.DefaultSelector()
        self.listener = socket.socket(socket.AF_UNIX)
        self.listener.bind(path)
        self.listener.listen()
        self.selector.register(self.listener, selectors.EVENT_READ)

    def run(self) -> None:
        while True:
            for key, _ in self.selector.select():
                if key.fileobj is self.listener:
                    connection, _address = self.listener.accept()
                    self.came[connection] = b""
                    self.selector.register(connection, selectors.EVENT_READ)
                else:
                    self.receive(key.fileobj)
            # What was committed meanwhile shares one sync.
            batch = self.server.batch()
            if batch:
                self.store.write(batch)
                self.server.flushed(batch.number)
                self.server.forget(batch.number)  # else memory grows with each commit
                self.send_said()

    def receive(self, connection: socket.socket) -> None:
        try:
            got = connection.recv(1 << 16)
            self.came[connection] += got
            self.take_frames(connection)
        except (OSError, Fault):  # broken, or no frame of ours: nothing more is read from it
            got = b""
        if not got:
            self.lose(connection)

    def take_frames(self, connection: socket.socket) -> None:
        while len(self.came[connection]) >= HEADER.size:
            came = self.came[connection]
            if came[:2] == b"\2\0":
                self.came[connection] = came[HEADER.size :]
                self.tell_incarnation(connection, HEADER.unpack(came[: HEADER.size])[2])
                continue
            try:
                head = read_frame(LIMITS, came)
            except FrameShort:
                return
            self.check_owner(connection, head.client)
            self.came[connection] = came[head.length :]
            if self.has_room(head):
                self.server.take(came[: head.length])
                self.send_said()

    def check_owner(self, connection: socket.socket, client: int) -> None:
        """A connection speaks for one client, and alone."""
        if self.connections.setdefault(client, connection) is not connection:
            raise ConnectionError

    def tell_incarnation(self, connection: socket.socket, client: int) -> None:
        """Which one the client may have next: one that it had in no life."""
        incarnation = self.server.next_incarnation(client)
        self.check_owner(connection, client)
        connection.sendall(HEADER.pack(2, 0, client, incarnation, 0))

    def has_room(self, head) -> bool:
        """Whether the server is to hear of a frame: of a Hello (kind 1) once the bound is above."""
        if head.incarnation >= MOST:  # it would leave none for later lives
            return False
        if head.kind == 1:
            self.store.raise_above(head.incarnation)
        return True

    def send_said(self) -> None:
        for frame in self.server.frames():
            connection = self.connections.get(frame.client)
            if connection:
                try:
                    connection.sendall(frame.data)
                except OSError:  # nothing follows half a frame; it is read to its end, and lost
                    with suppress(OSError):
                        connection.shutdown(socket.SHUT_RDWR)

    def lose(self, connection: socket.socket) -> None:
        self.selector.unregister(connection)
        connection.close()
        del self.came[connection]
        for client in [c for c, its in self.connections.items() if its is connection]:
            del self.connections[client]
            self.store.raise_above(self.server.next_incarnation(client))
            self.server.leave(client)  # else the others wait for what it holds
            self.send_said()


if __name__ == "__main__":
    host = Host(sys.argv[1], Store(sys.argv[2]))
    print("ready", flush=True)
    host.run()
