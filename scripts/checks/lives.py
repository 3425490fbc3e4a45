"""Kills the server and its gateway under load, while the gateway's clock is set back and forth.

    scripts/check lives [--built] [KILLS [SEED]]      200 kills without a number

- Six clients commit through a gateway to `cb_play serve`. KILLS times both processes are killed, in
  a drawn order, and started again with the gateway's clock set by an hour, back and forth in turn.
  A quarter of the kills comes within 20 milliseconds of a start of the server, while its life
  begins; the others come at a drawn moment of the work, which has to go on after each start.
- Then a last client reads all pages, and the logs of all clients are judged (scripts/serial.py):
  commits are strictly serial, and what was answered is there.
- A commit that is held up on its way: it was sent to a former life of the server, and comes to the
  next one once its page has changed (scripts/programs/python/held_up.py). At `cb_play serve`, at
  `rughvadi-serve` and at the hosts in C and Python nothing comes of it. A server of the library
  that is opened in no life takes it, and the judge has to find that.

How many kills came within the 20 milliseconds is said. One that came later is made once more; on a
machine that is too busy for that they are fewer, and nothing fails for it. The gateway is built
with ASan and UBSan. It needs the library (that of LIBRARY, else installed by scripts/library, with
what stands in crates/rughvadi/out after --built), `cb_play` (that of PLAY, else built), a C
compiler, libuv, SQLite and libpq with their headers. KEEP names a folder that gets the logs. With
200 kills it takes one to three minutes. The status is 1 where something failed.
"""
from __future__ import annotations

import os
import random
import shutil
import signal
import sys
import time
from collections import Counter
from contextlib import suppress
from dataclasses import dataclass
from pathlib import Path

import building
import serial
import serving
from checks.built import Built
from checks.killing import Workers, in_series
from checks.trying import Tries, file_faults, numbers, ran
from serving import Gateway

HELD_UP = building.PROGRAMS / "python/held_up.py"
CLIENTS, READER, PAGES = 6, 6, 6
LIMITS = (8, PAGES, 4096, 8, 1)
HOUR = 3600
EARLY = 0.02  # seconds after a start
AT_WORK, AT_START, LATER = "at work", "within 20 ms of a start", "soon after a start"


@dataclass
class Service:
    """A gateway whose clock can be set, its server, and clients that log what they do."""

    gateway: Gateway
    workers: Workers
    hours: int = 0

    def set_clock(self) -> None:
        """By an hour: back where it is right, else forth."""
        self.hours = -1 - self.hours
        serving.put_clock(self.gateway.room, self.hours * HOUR)

    def kill(self, drawn: random.Random) -> None:
        """Kills server and gateway, in a drawn order."""
        process = self.gateway.process
        processes = [*self.gateway.servers(), process.pid if process else 0]
        drawn.shuffle(processes)
        for number in filter(None, processes):
            with suppress(ProcessLookupError):
                os.kill(number, signal.SIGKILL)
        self.gateway.stop(signal.SIGKILL)

    def killed_at_start(self, drawn: random.Random) -> str:
        """Starts both, and kills them a drawn time after the server was begun: how soon it was."""
        self.gateway.spawn()
        before = time.monotonic()
        while not self.gateway.servers():
            before = time.monotonic()
            if self.gateway.process.poll() is not None:
                return ""
        time.sleep(drawn.uniform(0.0, 0.9 * EARLY))
        self.kill(drawn)
        return AT_START if time.monotonic() - before <= EARLY else LATER

    def killed_at_work(self, drawn: random.Random) -> str:
        """Starts both, and kills them while clients commit."""
        self.gateway.start()
        if not self.workers.all_go_on(1000):
            return ""
        time.sleep(drawn.uniform(0.0, 0.2))
        self.kill(drawn)
        return AT_WORK


def kills_of(service: Service, count: int, drawn: random.Random) -> Counter:
    """Kills both so often; how often when. It stops where the work doesn't go on."""
    early = count // 4
    kinds = [True] * early + [False] * (count - early)
    drawn.shuffle(kinds)
    came: Counter = Counter()
    while kinds:
        at_start = kinds.pop()
        service.set_clock()
        when = service.killed_at_start(drawn) if at_start else service.killed_at_work(drawn)
        came[when] += 1
        if not when:
            return came
        if when == LATER and came[LATER] <= count:
            kinds.insert(0, True)  # it wasn't soon enough: once more
    return came


def run_kills(tries: Tries, service: Service, count: int, seed: int) -> None:
    gateway, workers = service.gateway, service.workers
    workers.begin()
    try:
        came = kills_of(service, count, random.Random(seed))
        gateway.start()
        wrong = [] if workers.all_go_on(1000) else ["the work doesn't go on"]
        workers.end()
        verdict = workers.judged(READER)
        wrong += [] if gateway.stop() == 0 else ["the gateway didn't end in order"]
    finally:
        workers.end()
        gateway.stop(signal.SIGKILL)
    for log in workers.logs() if "KEEP" in os.environ else []:
        shutil.copy(log, os.environ["KEEP"])
    wrong += verdict.faults[:10] + file_faults(gateway.database())
    kills = ", ".join(f"{number} {when}" for when, number in sorted(came.items()) if when)
    said = f"{sum(came.values())} kills ({kills}); {str(verdict).splitlines()[0]}"
    tries.told("kills under clocks", not wrong and "" not in came, "\n".join([*wrong, said]))


# ---- a commit that is held up ----


def run_held_up(tries: Tries, room: Path, env: dict[str, str], ways: dict[str, list]) -> None:
    """At each server: the commit of a former life comes to nothing, and all is serial."""
    for name, words in ways.items():
        log = room / f"held_up_{len(list(room.glob('held_up_*')))}"
        done = ran(sys.executable, HELD_UP, log, *words, env=env, text=True)
        verdict = serial.judge([log]) if done.returncode == 0 else serial.Verdict()
        found = verdict.faults[0] if verdict.faults else "strictly serial"
        is_lifeless = words == ["none"]
        right = done.returncode == 0 and bool(verdict.faults) == is_lifeless
        right = right and verdict.commits == (3 if is_lifeless else 2)
        tries.told(f"a commit held up: {name}", right, done.stderr + found)


def main(words: list[str]) -> int:
    built, (kills, seed) = numbers(words, "lives [--built] [KILLS [SEED]]", 200, 1)
    tries = Tries()
    with building.a_room() as room:
        it = Built(room, built)
        host = serving.in_c(building.TOP / "hosts/served.c", room, it.library, "-lsqlite3")
        run_held_up(tries, room, it.env, {
            "no life": ["none"],
            "a life": ["life"],
            "cb_play": ["pipes", it.play, "serve"],
            "rughvadi-serve": ["pipes", it.serve],
            "the host in C": ["socket", host],
            "the host in Python": ["socket", sys.executable,
                                   building.TOP / "hosts/python/examples/server.py"],
        })
        own = room / "kills"
        own.mkdir()
        gateway = Gateway(own, it.gateway, it.play, words=("--silence", "5"), limits=LIMITS,
                          env=serving.set_clock(own))
        gateway.make_files()
        starts = in_series(lambda _: gateway.socket, gateway.tokens, PAGES)
        run_kills(tries, Service(gateway, Workers(own, it.env, CLIENTS, starts)), kills, seed)
    return tries.status("lives")
