"""Clusters of PostgreSQL for checks and benches: on loopback, in folders of their own.

Where this user is root they run as `postgres`.
"""
from __future__ import annotations

import os
import shutil
import signal
import socket
import subprocess
from pathlib import Path

import building

FOLDER = Path("/usr/lib/postgresql/15/bin")
OPTIONS = {
    "listen_addresses": "127.0.0.1",
    "fsync": "on",
    "synchronous_commit": "on",
    "wal_level": "replica",
    "max_wal_senders": "8",
    "wal_keep_size": "256MB",
    "hot_standby": "on",
    "shared_buffers": "64MB",
    "autovacuum_naptime": "10s",
    "wal_retrieve_retry_interval": "100ms",
}


def is_there() -> bool:
    return FOLDER.exists()


def free_port() -> int:
    """A port of loopback that nobody has at the moment."""
    with socket.socket() as probe:
        probe.bind(("127.0.0.1", 0))
        return probe.getsockname()[1]


def conninfo(*clusters: Cluster) -> str:
    """What finds the first of these that serves."""
    hosts = ",".join("127.0.0.1" for _ in clusters)
    ports = ",".join(str(it.port) for it in clusters)
    return f"host={hosts} port={ports} user=postgres dbname=postgres"


class Cluster:
    """A cluster in a folder that is made for it: a new one, or a copy that follows another."""

    def __init__(self, room: Path, of: Cluster | None = None, **options: str) -> None:
        self.room, self.data, self.port = room, room / "data", free_port()
        self.options = {**OPTIONS, "unix_socket_directories": "", "port": str(self.port)}
        self.options |= options
        self.user = "postgres" if os.getuid() == 0 else None
        room.mkdir()
        if self.user:
            shutil.chown(room, self.user)
        if of is None:
            self.run("initdb", "-D", self.data, "-A", "trust", "-U", "postgres", "--no-sync")
        else:
            self.follow(of)

    @property
    def address(self) -> str:
        return conninfo(self)

    def run(self, name: str, *words: object, is_checked: bool = True) -> str:
        done = subprocess.run([str(FOLDER / name), *map(str, words)], user=self.user, cwd=self.room,
                              stdin=subprocess.DEVNULL, stdout=subprocess.PIPE,
                              stderr=subprocess.STDOUT, text=True, check=False)
        if done.returncode and is_checked:
            raise building.NotBuilt(f"{name}: {done.stdout}")
        return done.stdout

    def follow(self, other: Cluster) -> None:
        """Becomes a copy of another, which it follows once it is started."""
        shutil.rmtree(self.data, ignore_errors=True)
        self.run("pg_basebackup", "-D", self.data, "-d", other.address, "-R", "-X", "stream",
                 "-c", "fast", "--no-sync")

    def start(self) -> Cluster:
        words = " ".join(f"-c {name}='{value}'" for name, value in self.options.items())
        self.run("pg_ctl", "-D", self.data, "-w", "-l", self.room / "log", "-o", words, "start")
        return self

    def stop(self) -> None:
        self.run("pg_ctl", "-D", self.data, "-m", "immediate", "stop", is_checked=False)

    def promote(self) -> None:
        self.run("pg_ctl", "-D", self.data, "-w", "promote")

    def processes(self) -> list[int]:
        """The postmaster and its children."""
        try:
            number = int((self.data / "postmaster.pid").read_text().split()[0])
            children = Path(f"/proc/{number}/task/{number}/children").read_text().split()
        except (OSError, ValueError, IndexError):
            return []
        return [number, *map(int, children)]

    def send(self, how: signal.Signals) -> None:
        """A signal to all of its processes, as if the machine did it."""
        for number in self.processes():
            try:
                os.kill(number, how)
            except ProcessLookupError:
                pass

    def kill(self) -> None:
        """All of it is gone at once, as with its machine."""
        self.send(signal.SIGSTOP)
        self.send(signal.SIGKILL)
        (self.data / "postmaster.pid").unlink(missing_ok=True)

    def sql(self, text: str, is_checked: bool = True) -> str:
        """What a statement answers, without decoration."""
        words = ["-X", "-q", "-A", "-t", "-v", "ON_ERROR_STOP=1", "-d", self.address, "-c", text]
        return self.run("psql", *words, is_checked=is_checked).strip()

    def set(self, name: str, value: str) -> None:
        """Sets an option while it runs; the words of its start would go before."""
        self.sql(f"ALTER SYSTEM SET {name} = '{value}'")
        self.sql("SELECT pg_reload_conf()")
