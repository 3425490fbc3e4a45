"""The same streams at each server of frames, for `scripts/check serve`: `cb_play serve`, and
`rughvadi-serve` over SQLite and over PostgreSQL. They have to put out the same bytes, end alike,
and leave the same store, which each of those with a file goes on with.

A stream is read at once, so what is said to it has one order. PostgreSQL is left out where it isn't
there. The gate's stored runs of `serve` are served by both engines as well, and say what is stored.
"""
from __future__ import annotations

import contextlib
import random
import shutil
import struct
from dataclasses import dataclass, field
from pathlib import Path
from typing import Callable, Iterator

import building
import postgres
from checks.engine_faults import SIZE, commit, greet, is_done
from checks.frames import (
    AGAIN, ASK_READ, ASK_WRITE, COMMIT, DOWNGRADED, DROP, GIVE_BACK, HEADER, HELLO, IN_USE, frame,
    of_commit, of_page, of_read, of_write,
)
from checks.serve_input import CLIENTS, CONFIG, LIFE, PAGES, Scene
from checks.serve_lives import Server
from checks.trying import ran, rows_of
from serving import wait_for

PLAY = "cb_play"
# Frames of a drawn stream, and how many such streams are tried.
DRAWN_FRAMES, DRAWN_STREAMS = 60, 60
# The pages of a large store, of two rows each, and how many batches are written to one of them.
MANY, BATCHES = 256, 20


@dataclass
class Stream:
    """What is served, one input after another over one store."""

    name: str
    inputs: list[Callable[[Scene], bytes]]
    size: int = 64
    more: str = ""


@dataclass
class Result:
    """How each input ended, and the store at the end."""

    ended: list[tuple[int, bytes, bytes]] = field(default_factory=list)
    store: object = None


# ---- streams ----


def whole(last: int) -> Callable[[Scene], bytes]:
    return lambda it: it.given(last)


def then(last: int, *more: bytes) -> Callable[[Scene], bytes]:
    """Commits, and bytes behind them, and commits that come too late."""
    return lambda it: it.given(last) + b"".join(more) + b"".join(it.commits(last + 1, last + 1))


def in_version_1(it: Scene) -> bytes:
    """The same in the older version, whose size fields are shorter."""
    pages = it.size.to_bytes(2, "big") + (1).to_bytes(it.size, "big")
    body = of_commit(1, struct.pack(">IQ", 0, 1) + pages)
    said = [frame(HELLO, 0, it.incarnation, version=1),
            frame(ASK_READ, 0, it.incarnation, of_read(1, 0), version=1),
            frame(ASK_WRITE, 0, it.incarnation, of_write(1, 0, 1), version=1),
            frame(COMMIT, 0, it.incarnation, body, version=1)]
    return b"".join(said)


def deadlock(it: Scene) -> bytes:
    """Two clients want to write what the other one has read: one is the victim."""
    reads = [it.say(ASK_READ, client, of_read(1, page))
             for client in range(2) for page in range(2)]
    wants = [it.say(ASK_WRITE, 0, of_write(1, 0, 1)), it.say(ASK_WRITE, 1, of_write(1, 1, 4)),
             it.say(IN_USE, 0, of_write(1, 1, 2)), it.say(IN_USE, 1, of_write(1, 0, 3))]
    hellos = [it.say(HELLO, client) for client in range(2)]
    return b"".join([*hellos, *reads, *wants, AGAIN])


def about_the_floor(it: Scene) -> bytes:
    """Frames of the floor itself need no Hello; those below it are let go, a Hello, too."""
    floor, reads = it.incarnation - 1, of_commit(1)
    of = {0: floor, 1: floor - 1, 2: floor + 1}
    asks = [frame(ASK_READ, client, number, of_read(1, client)) for client, number in of.items()]
    hellos = [frame(HELLO, client, number) for client, number in of.items()]
    commits = [frame(COMMIT, client, number, reads) for client, number in of.items()]
    return b"".join([*asks, hellos[1], *commits, *hellos, *asks, *commits])


def no_pages(it: Scene) -> bytes:
    """Commits of reads alone."""
    commits = [it.say(COMMIT, client, of_commit(1)) for client in range(CLIENTS)]
    return it.begins() + b"".join(commits)


def drawn(seed: int) -> Callable[[Scene], bytes]:
    """Frames of any kind, with numbers that are mostly small; some are no frames."""

    def give(it: Scene) -> bytes:
        drawing, said = random.Random(seed), [it.begins()]
        for _ in range(DRAWN_FRAMES):
            said.append(drawn_frame(it, drawing))
        return b"".join(said)

    return give


def drawn_frame(it: Scene, drawing: random.Random) -> bytes:
    client = drawing.randrange(CLIENTS + (drawing.random() < 0.03))
    kind = drawing.choice([1, 2, 2, 3, 3, 4, 5, 6, 6, 6, 7, 8])
    incarnation = it.incarnation + (drawing.random() < 0.05)
    transaction, grant = drawing.randint(1, 4), drawing.randint(0, 8)
    page = drawing.randrange(PAGES + (drawing.random() < 0.03))
    bodies = {
        HELLO: b"", ASK_READ: of_read(transaction, page), DROP: struct.pack(">Q", transaction),
        ASK_WRITE: of_write(transaction, page, grant), GIVE_BACK: struct.pack(">IQ", page, grant),
        IN_USE: of_write(transaction, page, grant), COMMIT: drawn_commit(it, drawing),
        DOWNGRADED: struct.pack(">IQQ", page, grant, transaction),
    }
    if drawing.random() < 0.03:
        return AGAIN
    return frame(kind, client, incarnation, bodies[kind])


def drawn_commit(it: Scene, drawing: random.Random) -> bytes:
    numbers = sorted(drawing.sample(range(PAGES), drawing.randint(0, 2)))
    pages = [of_page(page, drawing.randint(1, 8), drawing.randbytes(it.size)) for page in numbers]
    return of_commit(drawing.randint(1, 4), *pages)


def streams() -> Iterator[Stream]:
    yield Stream("nothing", [lambda it: b""])
    yield Stream("commits, twice", [whole(20), whole(21)])
    yield Stream("pages of 4,112 bytes", [whole(5), whole(5)], 4112)
    yield Stream("pages of 65,536 bytes", [whole(2)], 65536)
    yield Stream("write permissions that are kept", [
        lambda it: it.given(1) + b"".join(it.commit(client, 2, client + 1) for client in range(3))
    ], more="keep_write = 1\n")
    yield Stream("the older version", [in_version_1])
    yield Stream("a deadlock", [deadlock])
    yield Stream("commits of reads", [no_pages, no_pages])
    yield Stream("frames about the floor", [about_the_floor, about_the_floor])
    yield Stream("a header of kind 0", [lambda it: AGAIN + it.begins() + 3 * AGAIN])
    for name, end in {
        "version 3": HEADER.pack(3, HELLO, 0, 1, 0), "kind 9": HEADER.pack(2, 9, 0, 1, 0),
        "kind 0 of an incarnation": HEADER.pack(2, 0, 0, 1, 0),
        "a Hello with a body": HEADER.pack(2, HELLO, 0, 1, 1), "text": b"GET / HTTP/1.1\r\n\r\n",
    }.items():
        yield Stream(f"no frame: {name}", [then(2, end)])
    for count in (1, 15, 16, 17):
        cut = lambda it, count=count: it.given(2) + it.commit(0, 3, 1)[:count]  # noqa: E731
        yield Stream(f"{count} bytes of a frame", [cut])
    yield Stream("a wrong configuration", [whole(1)], more="kin = 4\n")
    for seed in range(DRAWN_STREAMS):
        yield Stream(f"drawn {seed}", [drawn(seed), drawn(seed + DRAWN_STREAMS)])


# ---- servers ----


def rows_of_file(store: Path) -> object:
    """The last commit, and each page's version and bytes, as the tables of a file have them."""
    if not store.exists():
        return None
    (mark,) = rows_of(store, "SELECT commits FROM mark2")
    pages = rows_of(store, "SELECT no, version FROM page2 ORDER BY no")
    parts = rows_of(store, "SELECT no, body FROM part ORDER BY no, place")
    bodies = [b"".join(body for of, body in parts if of == no) for no, _ in pages]
    return mark[0], [version for _, version in pages], bodies


def schema_of(store: Path) -> list[str]:
    """The texts that made the tables of a store, without the table of lives."""
    texts = rows_of(store, "SELECT sql FROM sqlite_schema WHERE type = 'table'")
    return [text for (text,) in texts if "life" not in text]


class InFile:
    """A server over a file."""

    def __init__(self, name: str, *words: object) -> None:
        self.name, self.words = name, words

    def database(self, scene: Scene) -> str:
        return str(scene.store)

    def rows(self, scene: Scene) -> object:
        return rows_of_file(scene.store)


class InCluster:
    """A server over PostgreSQL, with a store of its own for each stream."""

    name = "PostgreSQL"

    def __init__(self, cluster: postgres.Cluster, *words: object) -> None:
        self.cluster, self.words = cluster, words

    def database(self, scene: Scene) -> str:
        return f"{self.cluster.address} application_name={scene.room.name}"

    def rows(self, scene: Scene) -> object:
        store = f"store = '{scene.room.name}'"
        if self.cluster.sql("SELECT to_regclass('mark') IS NULL") == "t":
            return None
        mark = self.cluster.sql(f"SELECT commits FROM mark WHERE {store}")
        if not mark:
            return None
        body = "encode(string_agg(body, '' ORDER BY part), 'hex')"
        rows = self.cluster.sql(f"SELECT no, max(version), {body} FROM page WHERE {store}"
                                " GROUP BY no ORDER BY no")
        pages = [row.split("|") for row in rows.replace("\n", " ").split()]
        return (int(mark), [int(version) for _, version, _ in pages],
                [bytes.fromhex(body) for *_, body in pages])


def serve_one(scene: Scene, server, given: bytes) -> tuple[int, bytes, bytes]:
    """How a server ends that is given these bytes at once."""
    (scene.room / "given").write_bytes(given)
    words = [*server.words, scene.config, server.database(scene)]
    with (scene.room / "given").open("rb") as opened:
        done = ran(*words, stdin=opened, timeout=120)
    return done.returncode, done.stdout, done.stderr


def served(room: Path, servers: list, stream: Stream) -> Result:
    """What comes of a stream whose inputs these servers take, in turn, over one store."""
    scene, result = Scene(room, (), stream.size, stream.more), Result()
    for place, give in enumerate(stream.inputs):
        result.ended.append(serve_one(scene, servers[place % len(servers)], give(scene)))
        scene.incarnation += LIFE
    result.store = servers[0].rows(scene)
    return result


def differs(wanted: Result, found: Result) -> str:
    """What differs, in short."""
    for place, (one, other) in enumerate(zip(wanted.ended, found.ended)):
        if one != other:
            return f"input {place}: {said(one)}; {said(other)}"
    same = wanted.store == found.store
    return "" if same else f"{str(wanted.store)[:80]}; {str(found.store)[:80]}"


def said(ended: tuple[int, bytes, bytes]) -> str:
    status, out, line = ended
    return f"{status}, {len(out)} bytes up to {out[-40:].hex()}, {line!r}"


def compared(tries, room: Path, first: InFile, ways: dict[str, list]) -> None:
    """Each stream at the first server, and by each of the ways."""
    wrong: dict[str, list[str]] = {name: [] for name in ways}
    count = 0
    for stream in streams():
        wanted = served(room, [first], stream)
        count += 1
        for name, servers in ways.items():
            if why := differs(wanted, served(room, servers, stream)):
                wrong[name].append(f"{stream.name}: {why}")
    for name, found in wrong.items():
        tries.told(f"{count} streams: {name}", not found, "\n".join(found[:5]))


# ---- stored runs ----


def stored_runs() -> Iterator[tuple[list[str], bytes]]:
    """The words behind `serve` of each run over a store that the gate has stored, and what it says,
    with its status. What is said of wrong words is clap's own."""
    crate = building.TOP / "crates/cb_play"
    stored, at = (crate / "stdout").read_bytes(), 0
    for line in (crate / "data/examples.txt").read_text().splitlines():
        words = line.split()
        if words[:1] != ["serve"] or len(words) != 3:
            continue
        begin = stored.index(f"\n{line}\n".encode(), at) + len(line) + 2
        at = stored.index(b"\n", stored.index(b"status ", begin))
        yield words[1:], stored[begin : at + 1]


def stored_run_differs(room: Path, serve: Path, cluster: postgres.Cluster | None) -> str:
    """Serves the stored runs in turn, which share one input; the first that says something else.
    What is no database has no place in a cluster."""
    crate = building.TOP / "crates/cb_play"
    shutil.copytree(crate / "data", room)
    with (crate / "stdin").open("rb") as given:
        for words, wanted in stored_runs():
            config, database = words
            if cluster and database == "text.db":
                continue
            if cluster and database.endswith(".db"):
                database = f"{cluster.address} application_name={database}"
            done = ran(serve, config, database, cwd=room, stdin=given, timeout=120)
            said = done.stdout + done.stderr + f"status {done.returncode}\n".encode()
            if said != wanted:
                return f"{words}: {said!r} in place of {wanted!r}"
    return ""


# ---- rows ----


def rows_read(cluster: postgres.Cluster) -> int:
    """How many rows of pages were fetched by an index, of the sessions that have ended."""
    return int(cluster.sql("SELECT idx_tup_fetch FROM pg_stat_user_tables WHERE relname = 'page'"))


def too_many_rows(room: Path, serve: Path, cluster: postgres.Cluster) -> str:
    """What is wrong with the rows that batches of one page read: no more than they write, once the
    store's are loaded, though the planner knows of the table that it is small, and no more."""
    config = room / "config_of_many"
    config.write_text(CONFIG.format(CLIENTS, MANY, SIZE, ""))
    server = Server([serve, "--announce", config, f"{cluster.address} application_name=many"])
    try:
        greet(server)
        cluster.sql("ALTER TABLE page SET (autovacuum_enabled = off)")
        cluster.sql("VACUUM page")
        before = rows_read(cluster)
        for number in range(1, BATCHES + 1):
            commit(server, number)
            if not is_done(server):
                return "no answer"
    finally:
        server.end()
    session = "SELECT count(*) FROM pg_stat_activity WHERE application_name = 'many'"
    wait_for(lambda: cluster.sql(session) == "0")
    found = rows_read(cluster) - before
    return "" if found <= 2 * (MANY + BATCHES) else f"{found} rows in {BATCHES} batches"


def tried(tries, room: Path, play: Path, serve: Path) -> None:
    """Compares the servers."""
    room.mkdir(mode=0o755)
    play_server, file_server = InFile(PLAY, play, "serve"), InFile("SQLite", serve)
    ways: dict[str, list] = {
        "SQLite": [file_server], "cb_play, then SQLite": [play_server, file_server],
        "SQLite, then cb_play": [file_server, play_server],
    }
    with contextlib.ExitStack() as stack:
        if postgres.is_there():
            cluster = postgres.Cluster(room / "cluster").start()
            stack.callback(cluster.stop)
            ways["PostgreSQL"] = [InCluster(cluster, serve)]
            why = stored_run_differs(room / "stored_in_cluster", serve, cluster)
            tries.told("the stored runs: PostgreSQL", not why, why)
            why = too_many_rows(room, serve, cluster)
            tries.told("rows that batches read: PostgreSQL", not why, why)
        compared(tries, room, play_server, ways)
    why = stored_run_differs(room / "stored", serve, None)
    tries.told("the stored runs: SQLite", not why, why)
    one, other = Scene(room, (play, "serve")), Scene(room, (serve,))
    for scene in (one, other):
        scene.serve(scene.given(1))
    texts = schema_of(one.store), schema_of(other.store)
    tries.told("SQLite: the tables' own texts", texts[0] == texts[1], f"{texts}")
