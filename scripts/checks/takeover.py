"""Tries a store that outlives its machine: PostgreSQL, two gateways, kills under load.

    scripts/check takeover [--built] [KILLS]      50 kills without a number

- What must not be answered: commits that a standby may not have, and those of an old primary; nor
  may a password be seen (scripts/checks/engine_faults.py).
- Two clusters of PostgreSQL on loopback, the second a synchronous standby of the first; two
  gateways with a server each, whose clocks are five minutes apart; six clients with both addresses.
  While they commit, KILLS times each, the server that serves is killed, its gateway, the primary
  (the standby is promoted, and the lost one follows it then); a fifth as often all three at once;
  and as often the server stands still for some seconds. After each the work goes on.
- Then the logs of all clients are judged (scripts/serial.py): commits are strictly serial, and what
  was answered is there.
- At last the gateways are stopped in order, and no sanitizer may have found anything.

Server and gateway are built with ASan and UBSan. KEEP names a folder that gets the clients' logs.
It needs the library (that of LIBRARY, else installed by scripts/library, with what stands in
crates/rughvadi/out after --built), a C compiler, libuv, SQLite and libpq with their headers, and
PostgreSQL 15. With 50 kills it takes some fifteen minutes. The status is 1 where something failed.
"""
from __future__ import annotations

import os
import shutil
import signal
import time
from collections.abc import Callable
from dataclasses import dataclass, field
from pathlib import Path

import building
import postgres
import serving
from checks import engine_faults
from checks.bad_input import Peer, token_of
from checks.built import Built
from checks.killing import Workers, in_series
from checks.trying import Tries, numbers, sanitizer_fault
from postgres import Cluster
from serving import Gateway, wait_for

CLIENTS, WATCHER, PAGES, SIZE = 6, 7, 6, 4096
LIMITS = (8, PAGES, SIZE, 8, 1)
# A server stands still for so long: more than another one waits for a sign of it.
STILL = 6.0


@dataclass
class Site:
    """The clusters, the gateways and the clients of a store."""

    clusters: list[Cluster]
    gateways: list[Gateway] = field(default_factory=list)
    workers: Workers | None = None
    turn: int = 0
    primary: int = 0

    def addresses(self, client: int) -> str:
        """Each client tries the gateways in its own order."""
        sockets = [str(it.socket) for it in self.gateways]
        return ",".join(sockets if client % 2 else sockets[::-1])

    def begin(self) -> None:
        """New clients, with new logs."""
        self.turn += 1
        self.workers.name = f"log_{self.turn}"
        self.workers.begin()

    def goes_on(self) -> bool:
        """Whether each client commits again."""
        return self.workers.all_go_on(2000)

    def active(self) -> int | None:
        """The gateway whose server serves the store."""
        for place, gateway in enumerate(self.gateways):
            try:
                with Peer(gateway) as peer:
                    if peer.greeted(token_of(gateway, WATCHER))[1] == 0:
                        return place
            except (OSError, EOFError):
                continue
        return None

    def serving(self) -> Gateway:
        """That gateway, once there is one."""
        if not wait_for(lambda: self.active() is not None, 60):
            raise building.NotBuilt("no gateway serves")
        place = self.active()
        return self.gateways[place or 0]


def opened(room: Path, it: Built) -> Site:
    """Clusters and gateways, at work."""
    site = Site([Cluster(room / "cluster_0").start()])
    site.clusters.append(Cluster(room / "cluster_1", of=site.clusters[0]))
    site.clusters[1].options["synchronous_standby_names"] = "*"
    site.clusters[1].start()
    site.clusters[0].set("synchronous_standby_names", "*")
    words = ("--announced", "--silence", "5")
    command = (it.checked_serve, "--announce", "--standby", "required")
    database = f"'{postgres.conninfo(*site.clusters)}'"
    ahead = serving.set_clock(room)
    ahead["ASAN_OPTIONS"] += ":" + os.environ["ASAN_OPTIONS"]
    serving.put_clock(room, 300)
    for place in range(2):
        own = room / f"gateway_{place}"
        own.mkdir()
        site.gateways.append(Gateway(own, it.gateway, it.checked_serve, words=words, limits=LIMITS,
                                     command=command, database_word=database,
                                     env={} if place else ahead))
        site.gateways[place].make_files()
        shutil.copy(site.gateways[0].tokens, own / "copied")
        (own / "copied").replace(site.gateways[place].tokens)
        site.gateways[place].start()
    starts = in_series(site.addresses, site.gateways[0].tokens, PAGES)
    site.workers = Workers(room, it.env, CLIENTS, starts)
    return site


def closed(site: Site) -> list[int]:
    """Ends all of it, the gateways in order, and first the one whose server waits; how these
    ended."""
    site.workers.end()
    serves = site.active() or 0
    statuses = [site.gateways[place].stop() for place in (1 - serves, serves)]
    for cluster in site.clusters:
        cluster.stop()
    return statuses


def keep_logs(site: Site) -> None:
    if folder := os.environ.get("KEEP"):
        for path in site.workers.logs():
            shutil.copy(path, folder)


# ---- sanitizers ----


def note_findings(room: Path) -> None:
    """Has ASan write what it finds to files of this folder; UBSan's lines stand in the logs."""
    room.mkdir(mode=0o777)
    os.environ["ASAN_OPTIONS"] = f"log_path={room}/found"


def findings(room: Path, site: Site) -> str:
    found = [path.read_text()[:2000] for path in sorted(room.iterdir())]
    found += [sanitizer_fault(gateway.log()) for gateway in site.gateways]
    return "\n".join(filter(None, found))


# ---- what is lost ----


def kill_server(site: Site) -> None:
    site.serving().kill_servers()


def kill_gateway(site: Site) -> None:
    gateway = site.serving()
    gateway.stop(signal.SIGKILL)
    gateway.start()


def kill_primary(site: Site) -> None:
    """The standby is promoted; the lost one is made anew, and follows it."""
    lost, other = site.clusters[site.primary], site.clusters[1 - site.primary]
    lost.kill()
    other.promote()
    site.primary = 1 - site.primary
    lost.options["synchronous_standby_names"] = "*"
    lost.follow(other)
    lost.start()


def kill_all(site: Site) -> None:
    gateway = site.serving()
    gateway.kill_servers()
    gateway.stop(signal.SIGKILL)
    kill_primary(site)
    gateway.start()


def stand_still(site: Site) -> None:
    """The server stands still until another has the store, and goes on then."""
    numbers = site.serving().servers()
    for number in numbers:
        os.kill(number, signal.SIGSTOP)
    time.sleep(STILL)
    for number in numbers:
        try:
            os.kill(number, signal.SIGCONT)
        except ProcessLookupError:
            pass


def tried_kind(
    tries: Tries, site: Site, name: str, lose: Callable[[Site], None], times: int
) -> None:
    """Loses something that often; after each the work goes on, and at the end all is serial."""
    done, slowest = 0, 0.0
    site.begin()
    while done < times and site.goes_on():
        lose(site)
        begun = time.monotonic()
        if not site.goes_on():
            break
        slowest = max(slowest, time.monotonic() - begun)
        done += 1
    site.workers.end()
    verdict = site.workers.judged(WATCHER - 1)
    said = f"{done} of {times}, goes on after {slowest:.1f} s at most; {verdict}"
    tries.told(name, done == times and not verdict.faults, said)


def tried(tries: Tries, site: Site, kills: int) -> None:
    few = max(1, kills // 5)
    for name, lose, times in (
        ("the server is killed", kill_server, kills),
        ("its gateway is killed", kill_gateway, kills),
        ("the primary is killed", kill_primary, kills),
        ("all three are killed", kill_all, few),
        ("the server stands still", stand_still, few),
    ):
        tried_kind(tries, site, name, lose, times)


def main(words: list[str]) -> int:
    built, (kills,) = numbers(words, "takeover [--built] [KILLS]", 50)
    if not postgres.is_there():
        raise building.NotBuilt("takeover: it needs PostgreSQL 15")
    tries = Tries()
    with building.a_room() as room:
        it = Built(room, built)
        note_findings(room / "sanitizers")
        engine_faults.tried(tries, room / "faults", it.checked_serve)
        own = room / "takeover"
        own.mkdir()
        site = opened(own, it)
        try:
            tried(tries, site, kills)
            keep_logs(site)
        finally:
            statuses = closed(site)
        tries.told("the gateways are stopped", statuses == [0, 0], f"{statuses}")
        found = findings(room / "sanitizers", site)
        tries.told("sanitizers found nothing", not found, found)
    return tries.status("takeover")
