"""Lives of a store, for `scripts/check serve`: at `cb_play serve`, and at `rughvadi-serve` over a
file and over PostgreSQL.

A life begins above each incarnation of those before, and is on disk before anybody is answered. Who
serves in a former life answers nothing any more.
"""
from __future__ import annotations

import contextlib
import os
import random
import select
import signal
import subprocess
import time
from pathlib import Path
from typing import Iterator

import building
import postgres
from checks.frames import (
    ASK_READ, COMMIT, DONE, GRANTED, HEADER, HELLO, WELCOME, frame, of_commit, of_read,
)
from checks.serve_input import CLIENTS, PAGES, Scene
from checks.trying import PIPES, opened, rows_of
from serving import HeldSyncs, wait_for

KILLS = 30
FLOOD = 1 << 24  # bytes that come while a sync is held
CLOCK = 1 << 50  # as microseconds since 1970 are


class Store:
    """A file, or a store of a cluster; and the words that serve it."""

    def __init__(self, room: Path, serve: tuple, play: tuple,
                 cluster: postgres.Cluster | None) -> None:
        self.scene, self.serve, self.play, self.cluster = Scene(room, ()), serve, play, cluster

    def words(self) -> list[str]:
        database = str(self.scene.store)
        if self.cluster:
            database = f"{self.cluster.address} application_name={self.scene.room.name}"
        return [str(it) for it in (*self.serve, "--announce", self.scene.config, database)]

    def row(self, *columns: str) -> list[int]:
        """What the store says of its life."""
        names = ", ".join(columns)
        if self.cluster:
            where = f"store = '{self.scene.room.name}'"
            found = self.cluster.sql(f"SELECT {names} FROM mark WHERE {where}")
            return [int(it) for it in found.split("|")]
        return list(rows_of(self.scene.store, f"SELECT {names} FROM life, mark2")[0])

    @contextlib.contextmanager
    def served(self) -> Iterator[Server]:
        server = Server(self.words())
        try:
            yield server
        finally:
            server.end()


class Server:
    """A server with pipes, which has announced its life."""

    def __init__(self, words: list[str], **how: object) -> None:
        self.process = subprocess.Popen(words, **PIPES, **how)
        self.version, self.kind, self.client, self.floor, self.size = self.header()

    def exactly(self, count: int, seconds: float = 60.0) -> bytes:
        found, output = b"", self.process.stdout.fileno()
        while len(found) < count and select.select([output], [], [], seconds)[0]:
            got = os.read(output, count - len(found))
            if not got:
                break
            found += got
        return found

    def header(self) -> tuple[int, ...]:
        came = self.exactly(HEADER.size)
        return HEADER.unpack(came) if len(came) == HEADER.size else (0, 0, 0, 0, 0)

    def say(self, *frames: bytes) -> None:
        self.process.stdin.write(b"".join(frames))
        self.process.stdin.flush()

    def hear(self) -> tuple[int, int, int]:
        """The kind, client and incarnation of the next frame; zeros where the output ended."""
        _, kind, client, incarnation, size = self.header()
        self.exactly(size)
        return kind, client, incarnation

    def commit_of_reads(self, client: int, incarnation: int) -> None:
        read = frame(ASK_READ, client, incarnation, of_read(1, PAGES - 1))
        self.say(read, frame(COMMIT, client, incarnation, of_commit(1)))

    def kill(self, how: signal.Signals = signal.SIGKILL) -> None:
        self.process.send_signal(how)
        self.process.wait(60)

    def ended(self) -> tuple[int, list[str]]:
        """Its status and what it said, once it ended by itself."""
        status = self.process.wait(60)
        return status, self.process.stderr.read().decode().splitlines()

    def end(self) -> None:
        if self.process.poll() is None:
            self.kill()
        for stream in (self.process.stdin, self.process.stdout, self.process.stderr):
            with contextlib.suppress(BrokenPipeError):
                stream.close()


def announced(it: Store) -> str:
    """The announcement is a header of kind 0 with the floor; the first frames come behind it."""
    with it.served() as server:
        floor, below = server.floor, server.floor + (1 << 20)
        head = (server.version, server.kind, server.client, server.size)
        server.say(frame(HELLO, 0, floor), frame(HELLO, 1, below - 1))
        heard = [server.hear(), server.hear()]
        server.kill()
    kept = it.row("floor", "below")
    wanted = [(WELCOME, 0, floor), (WELCOME, 1, below - 1)]
    right = head == (2, 0, 0, 0) and kept == [floor, below] and heard == wanted
    return "" if right else f"{head}, {kept}, {heard}"


def rising(it: Store) -> str:
    """Servers are killed at drawn moments: each life begins above all that was welcome before."""
    drawn, greatest, clock = random.Random(1), 0, CLOCK
    for kill in range(KILLS):
        with it.served() as server:
            if server.floor <= greatest:
                return f"kill {kill}: floor {server.floor}, welcome was {greatest}"
            clock += drawn.choice([-1, 1]) * drawn.randrange(1 << 40)  # as of two machines
            incarnation = 1 + max(clock, server.floor, greatest)
            server.say(frame(HELLO, 0, incarnation))
            if drawn.random() < 0.5:
                kind, _, welcome = server.hear()
                if (kind, welcome) != (WELCOME, incarnation):
                    return f"kill {kill}: {kind} of {welcome} in place of {incarnation}"
                greatest = incarnation
            server.kill()
        if it.row("below")[0] <= greatest:
            return f"kill {kill}: the bound isn't above {greatest}"
    return ""


def strangers_of_lives(it: Store) -> str:
    """Frames of former lives, and Hellos that would leave no number, are let go."""
    with it.served() as server:
        server.say(frame(HELLO, 0, server.floor + 5))
        before = server.hear()[2]
        server.kill()
    with it.served() as server:
        server.say(frame(HELLO, 0, before), frame(HELLO, 0, server.floor - 1),
                   frame(HELLO, 0, 3 << 60), frame(HELLO, 0, (1 << 62) - 1),
                   frame(HELLO, 0, server.floor), frame(HELLO, 1, (3 << 60) - 1))
        heard = [server.hear(), server.hear()]
        wanted = [(WELCOME, 0, server.floor), (WELCOME, 1, (3 << 60) - 1)]
        server.kill()
    with it.served() as server:
        goes_on = server.floor >= 3 << 60
    return "" if heard == wanted and goes_on else f"{heard}, {goes_on}"


def fenced(it: Store) -> str:
    """A second server over the store: the first answers no commit any more, not one of reads."""
    with it.served() as first:
        first.say(frame(HELLO, 0, first.floor))
        heard = [first.hear()[0]]
        if it.cluster:
            # Its session ends, so that the other one gets the lock; and it isn't to find another.
            os.kill(first.process.pid, signal.SIGSTOP)
        with it.served() as second:
            if it.cluster:
                os.kill(first.process.pid, signal.SIGCONT)
            first.commit_of_reads(0, first.floor)
            kinds = []
            while kind := first.hear()[0]:
                kinds.append(kind)
            status, said = first.ended()
            second.say(frame(HELLO, 0, second.floor))
            heard.append(second.hear()[0])
    right = DONE not in kinds and (status, said[-1:]) == (3, ["store: Fenced"])
    return "" if right and heard == [WELCOME, WELCOME] else f"{heard}, {kinds}, {status}, {said}"


def below_what_waits(it: Store) -> str:
    """Frames behind a Hello that waits for its bound keep their order, and none is lost; and so
    again, as the bound is raised once more."""
    heard, wanted = [], []
    with it.served() as server:
        for clock in (CLOCK, 2 * CLOCK):
            at = [(client, clock + (client << 30)) for client in range(CLIENTS)]
            asks = [frame(HELLO, *each) for each in at]
            reads = [frame(ASK_READ, *each, of_read(1, each[0])) for each in at]
            server.say(*asks, *reads)
            heard += [server.hear() for _ in range(2 * CLIENTS)]
            wanted += [(kind, *each) for kind in (WELCOME, GRANTED) for each in at]
        server.process.stdin.close()
        status, said = server.ended()
    return "" if heard == wanted and (status, said) == (0, []) else f"{heard}, {status}, {said}"


def beside_what_waits(it: Store) -> str:
    """While a Hello waits for its bound, other clients' frames are taken, and its own aren't."""
    with it.served() as server:
        server.say(frame(HELLO, 1, server.floor))
        heard = [server.hear()[:2]]
        server.say(frame(HELLO, 0, CLOCK), frame(ASK_READ, 1, server.floor, of_read(1, 1)),
                   frame(ASK_READ, 0, CLOCK, of_read(1, 0)))
        heard += [server.hear()[:2] for _ in range(3)]
    right = heard == [(WELCOME, 1), (GRANTED, 1), (WELCOME, 0), (GRANTED, 0)]
    return "" if right else f"{heard}"


def processor_seconds(of: int) -> float:
    """What a process has taken so far."""
    fields = Path(f"/proc/{of}/stat").read_text().rpartition(")")[2].split()
    return sum(map(int, fields[11:13])) / os.sysconf("SC_CLK_TCK")


def idle(it: Store) -> str:
    """While nobody says anything, it takes no time of a processor."""
    with it.served() as server:
        server.say(frame(HELLO, 0, server.floor))
        heard, before = server.hear()[0], processor_seconds(server.process.pid)
        time.sleep(1)
        taken = processor_seconds(server.process.pid) - before
    return "" if heard == WELCOME and taken <= 0.1 else f"{heard}, {taken} s"


def beats(it: Store) -> str:
    """A server to which nobody speaks goes on to write its beat, and nothing else."""
    with it.served() as server:
        beat, *rest = it.row("beat", "floor", "below", "commits")
        goes_on = wait_for(lambda: it.row("beat")[0] > beat + 1, 60)
        same = it.row("floor", "below", "commits") == rest and server.process.poll() is None
    return "" if goes_on and same else f"{goes_on}, {same}"


def in_turn(it: Store) -> str:
    """Both servers in turn over one file: each life begins above those of the other."""
    floors, kinds = [], [it.serve, it.play]
    for life in range(6):
        it.serve = kinds[life % 2]
        with it.served() as server:
            floors.append(server.floor)
            server.say(frame(HELLO, 0, server.floor + (life << 21)))
            if server.hear()[0] != WELCOME:
                return f"life {life} welcomes nobody: {floors}"
            floors.append(server.floor + (life << 21))
            server.kill()
    rise = all(first < second for first, second in zip(floors[1::2], floors[2::2]))
    return "" if rise else f"{floors}"


def commit_under_a_sync(room: Path, words: tuple, reads: bool, flood: int = 0) -> str:
    """While the sync of a commit is held it isn't answered; others' reads are, where they may. So
    many bytes of frames come before, which are passed over."""
    store, syncs = Store(room, words, (), None), HeldSyncs(room)
    server = Server(store.words(), env={**os.environ, **syncs.env})
    asks = [frame(ASK_READ, it, server.floor, of_read(1, it)) for it in range(2)]
    unread = frame(ASK_READ, 0, server.floor, of_read(1, PAGES))
    try:
        server.say(unread * (flood // len(unread)))
        server.say(*(frame(HELLO, it, server.floor) for it in range(2)), asks[0])
        heard = [server.hear()[0] for _ in range(3)]
        syncs.begin()
        server.say(frame(COMMIT, 0, server.floor, of_commit(1)))
        syncs.wait()
        server.say(asks[1])
        heard += [server.hear()[0]] if reads else []
        is_early = bool(select.select([server.process.stdout], [], [], 0)[0])
        syncs.end()
        heard += [server.hear()[0] for _ in range(1 if reads else 2)]
    finally:
        server.end()
    wanted = [WELCOME, WELCOME, GRANTED, *([GRANTED, DONE] if reads else [DONE, GRANTED])]
    return "" if heard == wanted and not is_early else f"{heard}, {is_early}"


def read_beside_a_sync(room: Path, serve: Path) -> str:
    """`rughvadi-serve` answers reads while the sync of a commit is held, whatever it has read."""
    return commit_under_a_sync(room, (serve,), True, FLOOD // 2)


def end_beside_a_sync(room: Path, serve: Path) -> str:
    """Once nobody reads its output it ends at its next answer, though the sync of a commit is
    held."""
    store, syncs = Store(room, (serve,), (), None), HeldSyncs(room)
    server = Server(store.words(), env={**os.environ, **syncs.env})
    try:
        server.say(frame(HELLO, 0, server.floor), frame(ASK_READ, 0, server.floor, of_read(1, 0)))
        heard = [server.hear()[0] for _ in range(2)]
        syncs.begin()
        server.say(frame(COMMIT, 0, server.floor, of_commit(1)))
        syncs.wait()
        server.process.stdout.close()
        server.say(frame(HELLO, 1, server.floor))
        ended = server.ended()
        syncs.end()
    finally:
        server.end()
    return "" if heard == [WELCOME, GRANTED] and ended == (5, []) else f"{heard}, {ended}"


def flood_beside_a_sync(room: Path, serve: Path) -> str:
    """What comes while a sync is held is read up to some megabytes, and the rest once it ended."""
    store, syncs = Store(room, (serve,), (), None), HeldSyncs(room)
    server = Server(store.words(), env={**os.environ, **syncs.env})
    unread = frame(ASK_READ, 0, server.floor, of_read(1, PAGES))
    flood, sent = unread * (FLOOD // len(unread)), 0
    try:
        server.say(frame(HELLO, 0, server.floor), frame(ASK_READ, 0, server.floor, of_read(1, 0)))
        heard = [server.hear()[0] for _ in range(2)]
        syncs.begin()
        server.say(frame(COMMIT, 0, server.floor, of_commit(1)))
        syncs.wait()
        os.set_blocking(server.process.stdin.fileno(), False)
        while sent < len(flood) and select.select([], [server.process.stdin], [], 2)[1]:
            sent += os.write(server.process.stdin.fileno(), flood[sent : sent + 65536])
        syncs.end()
        heard.append(server.hear()[0])
        os.set_blocking(server.process.stdin.fileno(), True)
        server.say(flood[sent:])
        server.process.stdin.close()
        ended = server.ended()
    finally:
        server.end()
    passed = (0, [f"passed over {len(flood) // len(unread)}"])
    right = heard == [WELCOME, GRANTED, DONE] and ended == passed and sent < FLOOD // 2
    return "" if right else f"{heard}, {ended}, {sent} of {len(flood)} bytes"


def answers_after_a_sync(room: Path, play: tuple) -> str:
    """`cb_play serve` answers a commit once it is synced, and then goes on."""
    return commit_under_a_sync(room, play, False)


def older_tables(it: Store) -> str:
    """Tables of a server that kept no lives: the first one begins above what clocks gave."""
    with it.served() as server:
        server.kill()
    with opened(it.scene.store) as tables:
        tables.execute("DROP TABLE life")
    floors = []
    for _ in range(2):
        with it.served() as server:
            floors.append(server.floor)
            server.kill()
    return "" if floors == [1 << 61, (1 << 61) + (1 << 20)] else f"{floors}"


def wrong_rows(it: Store) -> str:
    """A row that tells no life, or none that is left, is refused as of another shape."""
    with it.served() as server:
        server.kill()
    for change in ("DELETE FROM life", "INSERT INTO life VALUES (1, 0, 0)",
                   f"UPDATE life SET below = {(1 << 62) - (1 << 20)}"):
        with opened(it.scene.store) as tables:
            tables.execute(change)
        with it.served() as server:
            ended = server.ended()
        if server.version != 0 or ended != (3, ["store: Shape"]):
            return f"{change}: {ended}"
    return ""


OF_ALL = [announced, rising, strangers_of_lives, below_what_waits, idle]
OF_FILES = [older_tables, wrong_rows]


def tried(tries, room: Path, serve: Path, play: tuple) -> None:
    """Plays each scene over stores of its own."""
    room.mkdir(mode=0o755)
    with contextlib.ExitStack() as stack:
        engines: dict[str, tuple] = {
            "cb_play": (play, None, [*OF_ALL, *OF_FILES]),
            "SQLite": ((serve,), None, [*OF_ALL, *OF_FILES, beside_what_waits, fenced, in_turn]),
        }
        if postgres.is_there():
            cluster = postgres.Cluster(room / "cluster").start()
            of_cluster = [*OF_ALL, beside_what_waits, fenced, beats]
            engines["PostgreSQL"] = ((serve,), cluster, of_cluster)
            stack.callback(cluster.stop)
        for name, (words, cluster, scenes) in engines.items():
            for scene in scenes:
                tries.scene(f"lives, {name}", scene, Store(room, words, play, cluster))
    for folder in ("beside", "end", "flood", "after"):
        (room / folder).mkdir()
    tries.scene("SQLite", read_beside_a_sync, room / "beside", serve)
    tries.scene("SQLite", end_beside_a_sync, room / "end", serve)
    tries.scene("SQLite", flood_beside_a_sync, room / "flood", serve)
    tries.scene("cb_play", answers_after_a_sync, room / "after", play)
