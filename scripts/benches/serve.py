"""Times commits at a served store, beside a server with no protocol and PostgreSQL.

    scripts/bench serve [SECONDS [TURNS]]      four seconds each, two turns

Client processes (1, 4, 16, 32) add one to a counter on a page of 4,096 bytes of their own, in a
transaction each, and wait until it is on disk. In turn, on one disk, behind the gateway: `cb_play
serve`; `rughvadi-serve` over SQLite; over PostgreSQL; and over PostgreSQL with a synchronous
standby on the same disk. Beside them: `hosts/served.c`, the host in C; a plain server in C, where a
page goes in, all that came in a round are written in one SQLite transaction, and 8 bytes go out;
and pgbench, without the standby and with it, where a connection updates a row with such a page. It
prints commits a second, and at the end each as a share of its peers: the median of the turns, and
the range. Then, with each sync five milliseconds longer: eight clients at one store, and at four
stores eight each. Last, clients that fight for two pages (serve_fights.py). With
SYNC=MICROSECONDS each sync of all takes so much longer. With POSTGRES=1 what has no part in
PostgreSQL is left out. With AHEAD=1 all that is timed goes before the machine's other work, which
needs root: so ratios say something where there is such work, but for what that does to caches.

It needs the library (that of LIBRARY, else installed by scripts/library, with what stands in
crates/rughvadi/out if `--built` is said first), `cb_play` (that of PLAY, else built), libuv,
SQLite's and PostgreSQL's C libraries, and PostgreSQL 15 with pgbench; what needs the latter is left
out where it isn't there. ROOM is the folder of the stores (the system's temporary one if it isn't
set).
"""
from __future__ import annotations

import os
import shutil
import signal
import statistics
import subprocess
from collections.abc import Callable
from dataclasses import dataclass
from pathlib import Path

import building
import postgres
import serving
from benches import serve_fights
from checks.bad_input import Peer, token_of

CLIENTS = [1, 4, 16, 32]
SIZE, PAGES = 4096, 64
UPDATE = (
    "UPDATE page SET version = version + 1,"
    " body = overlay(body placing int8send(version + 1) from 1 for 8) WHERE no = :client_id;\n"
)
PLAY, FILE, DATABASE, STANDBY = "cb_play serve", "over SQLite", "over PostgreSQL", "with a standby"
HOST, PLAIN = "the host in C", "a plain server"
BENCH, BENCH_STANDBY = "pgbench", "pgbench with a standby"
# Who is compared with whom.
PEERS = {PLAY: [PLAIN, HOST, BENCH], FILE: [PLAIN, HOST], DATABASE: [BENCH],
         STANDBY: [BENCH_STANDBY], HOST: [PLAIN]}


@dataclass
class Programs:
    """What runs."""

    gateway: Path
    play: Path
    serve: Path
    served: Path
    plain: Path
    client: Path
    fighters: Path
    slow_sync: Path


def commits(it: Programs, *words: object) -> str:
    """What the client processes say."""
    done = subprocess.run(
        [str(it.client), *map(str, words)], capture_output=True, text=True, check=False
    )
    return done.stdout.strip() if done.returncode == 0 else f"FAILED: {done.stderr.strip()}"


def by_gateway(it: Programs, room: Path, clients: int, seconds: float, stores=("main",), env=None):
    limits = (32, PAGES, SIZE, 16, 1)
    gateway = serving.Gateway(room, it.gateway, it.play, stores, limits=limits, env=env or {})
    gateway.start()
    words = ["gateway", gateway.socket, gateway.tokens, ",".join(stores), clients, seconds]
    said = commits(it, *words)
    gateway.stop()
    return said


def by_engine(it: Programs, room: Path, clients: int, seconds: float, database="", *words) -> str:
    """By `rughvadi-serve`, over a file if no database is named. The first clients come once it has
    announced its life."""
    command = (it.serve, "--announce", *words)
    word = database and f"'{database}'"
    limits = (32, PAGES, SIZE, 16, 1)
    gateway = serving.Gateway(room, it.gateway, it.play, limits=limits, words=("--announced",),
                              command=command, database_word=word)
    gateway.start()
    serving.wait_for(lambda: is_served(gateway), 60)
    said = commits(it, "gateway", gateway.socket, gateway.tokens, "main", clients, seconds)
    gateway.stop()
    return said


def is_served(gateway: serving.Gateway) -> bool:
    with Peer(gateway) as peer:
        return peer.greeted(token_of(gateway, 31))[1] == 0


def by_one(it: Programs, server: list, words: list) -> str:
    """By a server that says when it is ready."""
    process = subprocess.Popen(list(map(str, server)), stdout=subprocess.PIPE)
    process.stdout.readline()
    said = commits(it, *words)
    process.send_signal(signal.SIGTERM)
    process.wait()
    process.stdout.close()
    return said


def by_served(it: Programs, room: Path, clients: int, seconds: float) -> str:
    socket, limits = room / "socket", [32, PAGES, SIZE]
    server = [it.served, socket, room / "pages.db", *limits, 1]
    return by_one(it, server, ["served", socket, *limits, 1, clients, seconds])


def by_plain(it: Programs, room: Path, clients: int, seconds: float) -> str:
    socket = room / "socket"
    server = [it.plain, socket, room / "pages.db", PAGES, SIZE]
    return by_one(it, server, ["plain", socket, SIZE, clients, seconds])


class Postgres:
    """A cluster with a table of such pages, and with a synchronous standby or not."""

    def __init__(self, room: Path, has_standby: bool) -> None:
        room.mkdir(mode=0o755)
        own = {"unix_socket_directories": str(room / "first"), "shared_buffers": "256MB"}
        self.cluster, self.standby = postgres.Cluster(room / "first", **own).start(), None
        self.cluster.sql(
            "CREATE TABLE page(no int PRIMARY KEY, version bigint, body bytea)"
            " WITH (fillfactor = 50); ALTER TABLE page ALTER body SET STORAGE PLAIN;"
            f"INSERT INTO page SELECT n, 0, decode(repeat('00', {SIZE}), 'hex')"
            f" FROM generate_series(0, {PAGES - 1}) n"
        )
        self.cluster.sql("CREATE DATABASE stores")
        self.cluster.sql("VACUUM page")
        if has_standby:
            self.standby = postgres.Cluster(room / "second", of=self.cluster).start()
            self.cluster.set("synchronous_standby_names", "*")
        self.script = room / "update.sql"
        self.script.write_text(UPDATE)
        self.script.chmod(0o644)
        self.count = 0

    def database(self) -> str:
        """A new store's."""
        self.count += 1
        host = f"host={self.cluster.room} port={self.cluster.port} user=postgres"
        return f"{host} dbname=stores application_name=store_{self.count}"

    def commits(self, clients: int, seconds: float) -> str:
        words = ["-h", self.cluster.room, "-p", self.cluster.port, "-U", "postgres", "-n"]
        words += ["-M", "prepared", "-f", self.script, "-c", clients, "-j", min(clients, 4)]
        said = self.cluster.run("pgbench", *words, "-T", max(1, int(seconds)), "postgres")
        line = next(it for it in said.splitlines() if it.startswith("tps"))
        return f"{float(line.split()[2]):.0f}"

    def stop(self) -> None:
        for cluster in (self.cluster, self.standby):
            if cluster:
                cluster.stop()


Way = Callable[[Programs, Path, int, float], str]


def ways_of(alone: Postgres | None, pair: Postgres | None) -> dict[str, Way]:
    """All that is timed, in turn."""
    ways: dict[str, Way] = {PLAY: by_gateway, FILE: by_engine, HOST: by_served, PLAIN: by_plain}
    if os.environ.get("POSTGRES"):
        ways.clear()
    if alone and pair:
        ways[DATABASE] = lambda *given: by_engine(*given, alone.database())
        ways[BENCH] = lambda it, room, *given: alone.commits(*given)
        ways[STANDBY] = lambda *given: by_engine(*given, pair.database(), "--standby", "required")
        ways[BENCH_STANDBY] = lambda it, room, *given: pair.commits(*given)
    return ways


Figures = dict[tuple[int, str], list[float]]


def turn(number: int, it: Programs, room: Path, seconds: float, figures: Figures) -> None:
    """One turn of each, with each count of clients."""
    alone = pair = None
    if postgres.is_there():
        alone = Postgres(room / f"alone_{number}", False)
        pair = Postgres(room / f"pair_{number}", True)
    try:
        for clients in CLIENTS:
            for place, (name, way) in enumerate(ways_of(alone, pair).items()):
                own = room / f"{number}_{clients}_{place}"
                own.mkdir()
                said = way(it, own, clients, seconds)
                print(f"{name}, {clients} clients, turn {number}: {said}", flush=True)
                if said.isdecimal():
                    figures.setdefault((clients, name), []).append(float(said))
                shutil.rmtree(own)
    finally:
        for cluster in (alone, pair):
            if cluster:
                cluster.stop()


def compare(figures: Figures) -> None:
    """Each as a share of its peers: the median of the turns, and the range."""
    for clients in CLIENTS:
        for name, peers in PEERS.items():
            for peer in peers:
                pairs = zip(figures.get((clients, name), []), figures.get((clients, peer), []))
                if shares := sorted(own / other for own, other in pairs):
                    middle = statistics.median(shares)
                    print(f"{clients} clients, {name} / {peer}: {middle:.2f}"
                          f" ({shares[0]:.2f} to {shares[-1]:.2f})")


def several(number: int, it: Programs, room: Path, seconds: float) -> None:
    """One store and four, where each sync takes five milliseconds longer."""
    env = {"LD_PRELOAD": str(it.slow_sync), "SYNC_MICROSECONDS": "5000"}
    for stores in (("a",), ("a", "b", "c", "d")):
        own = room / f"several_{number}_{len(stores)}"
        own.mkdir()
        said = by_gateway(it, own, 8 * len(stores), seconds, stores, env)
        name = f"{len(stores)} stores of eight clients, syncs of 5 ms more"
        print(f"{name}, turn {number}: {said}", flush=True)
        shutil.rmtree(own)


def main(words: list[str]) -> int:
    built = [word for word in words if word == "--built"]
    numbers = [word for word in words if word != "--built"]
    seconds, turns = (numbers + ["4", "2"][len(numbers) :])[:2]
    with building.a_room() as room:
        room.chmod(0o755)
        lib = serving.library(room, built)
        it = Programs(
            serving.made(Path("hosts/gateway"), room) / "gateway",
            building.play("PLAY"),
            serving.made(Path("hosts/serve"), room, f"LIBRARY={lib}") / "rughvadi-serve",
            serving.in_c(building.TOP / "hosts/served.c", room, lib, "-lsqlite3"),
            building.in_c("plain_server", room, "-lsqlite3"),
            serving.in_c(building.PROGRAMS / "c/serve_client.c", room, lib),
            serving.in_c(building.PROGRAMS / "c/fighters.c", room, lib),
            building.library_in_c("sync", room, "-ldl"),
        )
        if slower := os.environ.get("SYNC"):
            os.environ.update(LD_PRELOAD=str(it.slow_sync), SYNC_MICROSECONDS=slower)
        if os.environ.get("AHEAD"):
            os.sched_setscheduler(0, os.SCHED_RR, os.sched_param(1))
        figures: Figures = {}
        for number in range(1, int(turns) + 1):
            turn(number, it, room, float(seconds), figures)
        compare(figures)
        if os.environ.get("POSTGRES"):
            return 0
        for number in range(1, int(turns) + 1):
            several(number, it, room, float(seconds))
            serve_fights.turn(number, it, room, float(seconds))
            serve_fights.beside_strangers(number, it, room, float(seconds))
    return 0
