"""Clients that work at a served store while programs are killed, and what their logs are judged."""
from __future__ import annotations

import random
import signal
import subprocess
import sys
import time
from collections import Counter
from collections.abc import Callable
from dataclasses import dataclass, field
from pathlib import Path

import building
import serial
from serving import Gateway, wait_for

SERIAL_WORKER = building.PROGRAMS / "python/serial_worker.py"
KINDS = ("server", "gateway", "client", "all")


def in_series(addresses: Callable[[int], object], tokens: Path, pages: int) -> Callable:
    """What begins a client of random transactions, whose log scripts/serial.py reads."""
    return lambda client, log: [SERIAL_WORKER, addresses(client), tokens, client, pages, log]


@dataclass
class Workers:
    """Clients, each a process with a log of its own."""

    room: Path
    env: dict[str, str]
    count: int
    words: Callable[[int, Path], list]  # what begins a client that has this log
    name: str = "log"
    running: dict[int, subprocess.Popen] = field(default_factory=dict)

    def log(self, client: int) -> Path:
        return self.room / f"{self.name}_{client}"

    def logs(self) -> list[Path]:
        """All that there are, of clients that have ended too."""
        return sorted(self.room.glob("log_*"))

    def begin(self) -> None:
        for client in range(self.count):
            self.running[client] = self.started(client)

    def started(self, client: int, *more: str) -> subprocess.Popen:
        words = [sys.executable, *self.words(client, self.log(client)), *more]
        return subprocess.Popen(list(map(str, words)), env=self.env)

    def sizes(self) -> list[int]:
        """How much each has noted."""
        logs = map(self.log, range(self.count))
        return [it.stat().st_size if it.exists() else 0 for it in logs]

    def ended(self) -> list[int]:
        """The statuses of those that ended by themselves."""
        return [it.poll() for it in self.running.values() if it.poll() is not None]

    def one_goes_on(self, seconds: float) -> bool:
        """Whether one of them notes more, and none has ended."""
        before = sum(self.sizes())
        more = wait_for(lambda: sum(self.sizes()) > before or self.ended(), seconds)
        return more and not self.ended()

    def all_go_on(self, more: int, seconds: float = 120.0) -> bool:
        """Whether each notes so many bytes more, and none has ended."""
        before = self.sizes()

        def all_more() -> bool:
            return all(new > old + more for old, new in zip(before, self.sizes()))

        return wait_for(all_more, seconds) and not self.ended()

    def kill(self, client: int) -> None:
        self.running[client].kill()
        self.running[client].wait()

    def end(self) -> None:
        for client in self.running:
            self.kill(client)
        self.running.clear()

    def judged(self, reader: int) -> serial.Verdict:
        """Whether all that was noted is strictly serial, once a last client has read all pages."""
        last = self.started(reader, "all")
        try:
            status = last.wait(120)
        except subprocess.TimeoutExpired:
            last.kill()
            status = last.wait()
        verdict = serial.judge(self.logs())
        verdict.faults += ["no client could read all pages"] if status else []
        return verdict


def kill_one(gateway: Gateway, workers: Workers, drawn: random.Random) -> str:
    """Kills something, and begins it again; what it was."""
    what = drawn.choice(KINDS)
    if what == "client":
        client = drawn.randrange(workers.count)
        workers.kill(client)
        workers.running[client] = workers.started(client)
    if what in ("server", "all"):
        gateway.kill_servers()
    if what in ("gateway", "all"):
        gateway.stop(signal.SIGKILL)
        gateway.start()
    return what


def kill_often(
    gateway: Gateway, workers: Workers, drawn: random.Random, kills: int, pause: float
) -> tuple[str, list[str]]:
    """Kills so often, at a drawn moment once the work goes on; what was killed, and what is
    wrong."""
    counts, wrong = Counter(), []
    while not wrong and sum(counts.values()) < kills:
        if workers.one_goes_on(120.0):
            time.sleep(drawn.uniform(0.0, pause))
            counts[kill_one(gateway, workers, drawn)] += 1
        else:
            wrong = [f"nothing went on, or clients ended with {workers.ended()}"]
    each = ", ".join(f"{count} of {what}" for what, count in sorted(counts.items()))
    return f"{sum(counts.values())} kills ({each})", wrong
