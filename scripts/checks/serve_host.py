"""The host in C, `hosts/served.c`, for `scripts/check serve`: copies of its store while it serves,
a kill, wrong frames, and its end in order. It is built with ASan and UBSan.

Each commit of its clients adds one to one page's counter. So in the store, and in each copy of it,
the number of the last commit is the sum of all counters.
"""
from __future__ import annotations

import os
import select
import signal
import socket
import stat
import subprocess
from pathlib import Path

import building
import serving
from checks.bad_input import Peer
from checks.frames import (
    ASK_READ, COMMIT, DONE, GRANTED, HEADER, HELLO, frame, of_commit, of_read,
)
from checks.trying import file_faults, opened, ran, rows_of, said
from serving import wait_for

CLIENTS, PAGES, SIZE = 8, 16, 4096
COPIES = 5


class Host:
    """The host, in a folder of its own."""

    def __init__(self, room: Path, library: Path) -> None:
        self.room = room
        flags = [*serving.SANITIZERS.split(), "-lsqlite3"]
        self.program = serving.in_c(building.TOP / "hosts/served.c", room, library, *flags)
        self.client = serving.in_c(building.PROGRAMS / "c/serve_client.c", room, library)
        self.store, self.socket = room / "pages.db", room / "socket"

    def start(self, **env: str) -> subprocess.Popen:
        words = [self.program, self.socket, self.store, CLIENTS, PAGES, SIZE, 0]
        with (self.room / "log").open("ab") as log:
            both = {"stdout": subprocess.PIPE, "stderr": log, "env": {**os.environ, **env}}
            begun = subprocess.Popen(list(map(str, words)), umask=0, **both)
        if not begun.stdout or begun.stdout.readline() != b"ready\n":
            raise building.NotBuilt("served didn't start: " + self.log())
        return begun

    def log(self) -> str:
        return (self.room / "log").read_text()

    def clients(self, processes: int, seconds: int) -> subprocess.Popen:
        """Processes that commit for some seconds."""
        words = [self.client, "served", self.socket, CLIENTS, PAGES, SIZE, 0, processes, seconds]
        pipes = {"stdout": subprocess.PIPE, "stderr": subprocess.DEVNULL, "text": True}
        return subprocess.Popen(list(map(str, words)), **pipes)

    def copy(self, how: str, to: Path) -> str:
        """A copy by sqlite3; what it said."""
        return said("sqlite3", self.store, how.format(to))[1]


def counted(store: Path) -> int:
    """How many commits a store has; -1 where it isn't so that each counted one."""
    with opened(store) as tables:
        tables.execute("BEGIN")  # all of it is of one moment
        (number,) = tables.execute("SELECT commits FROM mark2").fetchone()
        bodies = tables.execute("SELECT body FROM part WHERE place = 0").fetchall()
    total = sum(int.from_bytes(body[:8], "little") for (body,) in bodies)
    whole = not file_faults(store)
    return number if whole and total == number and len(bodies) == PAGES else -1


def ended(host: subprocess.Popen, how: signal.Signals) -> int:
    host.send_signal(how)
    host.communicate(timeout=60)
    return host.returncode


def copies(it: Host) -> str:
    """Copies of each kind while clients commit: what is wrong."""
    server, found = it.start(), []
    clients = it.clients(4, 6)
    for place in range(COPIES):
        for name, how in (("backup", ".backup '{}'"), ("vacuum", "VACUUM INTO '{}'")):
            to = it.room / f"{name}_{place}.db"
            fault = it.copy(how, to)
            found.append(counted(to) if to.exists() and not fault else -2)
    clients.communicate(timeout=120)
    right = ended(server, signal.SIGTERM) == 0 and clients.returncode == 0
    last = counted(it.store)
    in_order = found == sorted(found) and found[0] >= 0 and found[-1] <= last
    return "" if right and in_order and not it.socket.exists() else f"{found}, {last}: {it.log()}"


def killed(it: Host) -> str:
    """It is killed while clients commit, and begun again where its socket was left."""
    before = counted(it.store)
    server = it.start()
    clients = it.clients(4, 60)
    wait_for(lambda: counted(it.store) > before + 20, 60)
    ended(server, signal.SIGKILL)
    clients.communicate(timeout=120)
    between = counted(it.store)
    server = it.start()
    clients = it.clients(2, 1)
    clients.communicate(timeout=120)
    right = ended(server, signal.SIGTERM) == 0 and clients.returncode == 0
    last = counted(it.store)
    return "" if right and before + 20 < between < last else f"{before}, {between}, {last}"


class Silent(Peer):
    """A raw connection to the host, which has no greeting; it says nothing by itself."""

    def __init__(self, it: Host, client: int) -> None:
        self.socket = socket.socket(socket.AF_UNIX)
        self.socket.connect(str(it.socket))
        self.socket.settimeout(20)
        self.client, self.incarnation = client, 0


class Caller(Silent):
    """A raw connection that asks for its incarnation as it begins."""

    def __init__(self, it: Host, client: int) -> None:
        super().__init__(it, client)
        self.say(0)
        self.incarnation = HEADER.unpack(self.exactly(HEADER.size))[3]

    def welcomed(self, *incarnations: int) -> int:
        """Greets by each of these, in order; the incarnation that is welcome first."""
        for incarnation in incarnations:
            self.say(HELLO, incarnation=incarnation)
        return HEADER.unpack(self.exactly(HEADER.size))[3]


def wrong_frames(it: Host) -> str:
    """Frames that are none, or another's, end a connection; half a frame holds up nobody."""
    server, closed = it.start(), []
    with Caller(it, 1) as holder, Caller(it, 2) as half:
        holder.welcome()
        half.socket.sendall(frame(HELLO, 2, 1)[:9])
        for wrong in (frame(HELLO, 1, 1 << 61), frame(HELLO, CLIENTS, 1),
                      b"GET / HTTP/1.1\r\n\r\n", frame(ASK_READ, 3, 1, of_read(1, PAGES))):
            with Caller(it, 3) as peer:
                peer.socket.sendall(wrong)
                closed.append(peer.is_closed())
        right = holder.welcome() is holder
    status = ended(server, signal.SIGTERM)
    return "" if right and all(closed) and status == 0 else f"{closed}, {status}: {it.log()}"


def bound(it: Host) -> int:
    """What incarnations are below in the life that the store has."""
    return rows_of(it.store, "SELECT below FROM life")[0][0]


def lives(it: Host) -> str:
    """Whatever a client's clock was, it is given an incarnation that is welcome; one of a life
    before isn't any more; and the bound is on disk before anybody is welcome."""
    server, found, ahead = it.start(), [], 0
    with Caller(it, 1) as peer:
        ahead = peer.incarnation + (1 << 50)
        found += [peer.welcomed(ahead), bound(it) > ahead]
    with Caller(it, 1) as peer:
        found += [peer.welcomed(ahead - 1, peer.incarnation) == peer.incarnation > ahead]
    last = bound(it) - 1
    with Caller(it, 1) as peer:
        found += [peer.welcomed(last) == last]
    # As it leaves, the server hears of its next incarnation.
    found += [wait_for(lambda: bound(it) > last + 1)]
    ended(server, signal.SIGKILL)
    server = it.start()
    with Caller(it, 1) as peer:
        # Of a former life; so great that later lives would have none; and what was given.
        asked = peer.incarnation
        found += [peer.welcomed(ahead + 1, 3 << 60, asked) == asked > ahead, bound(it) > asked]
    status = ended(server, signal.SIGTERM)
    right = found == [ahead, *6 * [True]]
    return "" if right and status == 0 else f"{found}, {status}: {it.log()}"


def answers_after_a_sync(it: Host) -> str:
    """While the sync of a commit is held it isn't answered."""
    syncs = serving.HeldSyncs(it.room)
    server = it.start(**syncs.env)
    with Caller(it, 1) as peer:
        peer.welcome().say(ASK_READ, of_read(1, 0))
        heard = [peer.hear()[0]]
        syncs.begin()
        peer.say(COMMIT, of_commit(1))
        syncs.wait()
        is_early = bool(select.select([peer.socket], [], [], 0)[0])
        syncs.end()
        heard.append(peer.hear()[0])
    status = ended(server, signal.SIGTERM)
    right = heard == [GRANTED, DONE] and not is_early and status == 0
    return "" if right else f"{heard}, {is_early}, {status}: {it.log()}"


def no_socket(it: Host) -> str:
    """Where its socket would be is a file of another kind: it doesn't begin, and the file stays."""
    other = it.room / "other"
    other.write_text("kept")
    words = [it.program, other, it.store, CLIENTS, PAGES, SIZE, 0]
    done = ran(*words, text=True, timeout=60)
    right = done.returncode == 1 and "cannot listen" in done.stderr
    return "" if right and other.read_text() == "kept" else f"{done.returncode}, {done.stderr}"


def strangers(it: Host) -> str:
    """Connections that say nothing take no place of a client, and are closed after a while."""
    server = it.start()
    silent = [Silent(it, 1) for _ in range(100)]
    with Caller(it, 2) as caller:
        served = caller.welcome() is caller
        closed = silent[-1].is_closed() and caller.welcome() is caller
    for each in silent:
        each.socket.close()
    status = ended(server, signal.SIGTERM)
    return "" if served and closed and status == 0 else f"{served}, {closed}, {status}: {it.log()}"


def owned_files(it: Host) -> str:
    """What it makes is its owner's alone, whoever's umask it was begun with."""
    server = it.start()
    made = [it.store, Path(f"{it.store}.lock"), it.socket]
    modes = [stat.S_IMODE(path.stat().st_mode) for path in made]
    status = ended(server, signal.SIGTERM)
    return "" if status == 0 and not any(mode & 0o077 for mode in modes) else f"{modes}, {status}"


def tried(tries, it) -> None:
    """Tries the host."""
    room = it.room / "serve_host"
    room.mkdir()
    host = Host(room, it.library)
    scenes = (copies, killed, wrong_frames, lives, answers_after_a_sync, no_socket, strangers,
              owned_files)
    for scene in scenes:
        tries.scene("the host in C", scene, host, log=host.log)
