"""What check and bench of a served store share: the programs, and a gateway with its files."""
import contextlib
import os
import resource
import signal
import socket
import struct
import subprocess
import time
from dataclasses import dataclass, field
from pathlib import Path
from typing import Optional

import building

SANITIZERS = "-g -O1 -fsanitize=address,undefined -fno-sanitize-recover=all"
# The seconds in which something comes that is to come, on a busy machine too.
LONG = 60.0
CONFIG = "clients = {}\npages = {}\npage_size = {}\nslots = {}\nkeep_write = {}\n"


def made(folder: Path, room: Path, *settings: str) -> Path:
    """Runs `make` in a folder of the repository; where it put what it made."""
    out = room / folder.name
    words = ["make", "-s", "-C", building.TOP / folder, f"OUT={out}", *settings]
    if subprocess.run(words, check=False).returncode:
        raise building.NotBuilt(f"{folder} isn't built")
    return out


def library(room: Path, words: list[str]) -> Path:
    """The library: that of LIBRARY, else installed by `scripts/library`."""
    if given := building.named("LIBRARY"):
        return given
    to = room / "library"
    if subprocess.run([building.TOP / "scripts/library", *words, to], check=False).returncode:
        raise building.NotBuilt("the library isn't built")
    return to


def in_c(source: Path, room: Path, lib: Path, *flags: str) -> Path:
    """A program in C over the library."""
    out = room / source.stem
    compiler = os.environ.get("CC", "cc")
    words = [compiler, "-std=c11", "-D_GNU_SOURCE", "-O2", "-Wall", "-Wextra", "-Werror"]
    words += [f"-I{lib}/include", source, f"{lib}/lib/librughvadi.a", *flags, "-o", out]
    if subprocess.run(words, check=False).returncode:
        raise building.NotBuilt(f"{source.name} isn't compiled")
    return out


@dataclass
class Gateway:
    """A gateway that serves some stores, in a folder of its own."""

    room: Path
    program: Path
    play: Path
    stores: tuple[str, ...] = ("main",)
    words: tuple[str, ...] = ()
    limits: tuple[int, ...] = (32, 64, 4096, 32, 1)
    env: dict[str, str] = field(default_factory=dict)
    command: tuple[object, ...] = ()  # what starts a server, if not `cb_play serve --announce`
    database_word: str = ""  # what stands in the file of stores, if not a path
    files: Optional[tuple[int, int]] = None  # how many it may have open: softly, and at most
    has_port: bool = False  # it listens at a port of this machine, too
    port: int = 0
    process: Optional[subprocess.Popen] = None

    @property
    def socket(self) -> Path:
        return self.room / "socket"

    @property
    def tokens(self) -> Path:
        return self.room / "tokens"

    def database(self, store: str = "main") -> Path:
        return self.room / f"{store}.db"

    def start(self) -> None:
        """Starts it, and waits until it listens; at another port where somebody took that one."""
        if not self.tokens.exists():
            self.make_files()
        for _ in range(20 if self.has_port else 1):
            self.port = free_port() if self.has_port else 0
            if self.begins():
                return
        raise building.NotBuilt("the gateway didn't start: " + self.log()[-1000:])

    def make_files(self) -> None:
        make = [self.program, "--make-tokens", "32", "--tokens", self.tokens]
        subprocess.run(make, check=True)
        (self.room / "config").write_text(CONFIG.format(*self.limits))
        word = self.database_word
        lines = [f"{it} {self.room}/config {word or self.database(it)}\n" for it in self.stores]
        (self.room / "stores").write_text("".join(lines))

    def begins(self) -> bool:
        """Begins it; whether it listens."""
        self.spawn()
        if self.process.stdout.readline() == b"ready\n":
            return True
        self.stop(signal.SIGKILL)
        return False

    def spawn(self) -> None:
        """Begins it, and doesn't wait until it listens."""
        words = [self.program, "--unix", self.socket, "--tokens", self.tokens]
        words += ["--tcp", self.port] if self.port else []
        words += ["--stores", self.room / "stores", *self.words, "--"]
        words += self.command or (self.play, "serve", "--announce")
        with (self.room / "log").open("ab") as log:
            env = {**os.environ, **self.env}
            both = {"stdout": subprocess.PIPE, "stderr": log, "preexec_fn": self.limit}
            # What it makes isn't to rest on who starts it.
            self.process = subprocess.Popen(list(map(str, words)), env=env, umask=0, **both)

    def limit(self) -> None:
        """Before the program: its limit of open files."""
        if self.files:
            resource.setrlimit(resource.RLIMIT_NOFILE, self.files)

    def log(self) -> str:
        return (self.room / "log").read_text()

    def servers(self) -> list[int]:
        """The processes of the servers."""
        if self.process is None:
            return []
        number = self.process.pid
        try:
            text = Path(f"/proc/{number}/task/{number}/children").read_text()
        except OSError:
            return []
        return [int(it) for it in text.split()]

    def kill_servers(self) -> None:
        for number in self.servers():
            with contextlib.suppress(ProcessLookupError):
                os.kill(number, signal.SIGKILL)

    def stop(self, how: signal.Signals = signal.SIGTERM) -> int:
        """Ends it; its status."""
        if self.process is None:
            return 0
        self.process.send_signal(how)
        status = self.process.wait(60)
        if self.process.stdout:
            self.process.stdout.close()
        self.process = None
        return status

    def size(self) -> int:
        """How much memory it has, in KB."""
        if self.process is None:
            return 0
        status = Path(f"/proc/{self.process.pid}/status").read_text()
        line = next(it for it in status.splitlines() if it.startswith("VmRSS"))
        return int(line.split()[1])


def set_clock(room: Path) -> dict[str, str]:
    """The environment of a program whose time of day is set by `put_clock` of the same folder."""
    put_clock(room, 0)
    return {"LD_PRELOAD": str(building.library_in_c("set_clock", room)),
            "SET_CLOCK": str(room / "clock"), "ASAN_OPTIONS": "verify_asan_link_order=0"}


def put_clock(room: Path, seconds: int) -> None:
    """Sets that clock so many seconds ahead of the right one, or back, also while programs run."""
    file = os.open(room / "clock", os.O_WRONLY | os.O_CREAT, 0o644)  # its length stays
    os.pwrite(file, struct.pack("q", seconds), 0)
    os.close(file)


class HeldSyncs:
    """Syncs of files that are held, for a while, in a program that begins with this environment."""

    def __init__(self, room: Path) -> None:
        self.fifo, self.file = room / "held_syncs", -1
        self.env = {"LD_PRELOAD": str(building.library_in_c("sync", room, "-ldl")),
                    "HELD_SYNC": str(self.fifo), "ASAN_OPTIONS": "verify_asan_link_order=0"}

    def begin(self) -> None:
        """From now on each sync is held."""
        os.mkfifo(self.fifo)

    def wait(self) -> None:
        """Waits until one is."""
        if not wait_for(self.is_one_held):
            raise ValueError("nobody waits for a sync")

    def is_one_held(self) -> bool:
        with contextlib.suppress(OSError):
            self.file = os.open(self.fifo, os.O_WRONLY | os.O_NONBLOCK)
        return self.file >= 0

    def end(self) -> None:
        """None is from now on, and the one that is goes on."""
        self.fifo.unlink()
        os.close(self.file)


def free_port() -> int:
    """A port that nobody listens at now."""
    with socket.socket() as free:
        free.bind(("127.0.0.1", 0))
        return free.getsockname()[1]


def wait_for(what, seconds: float = LONG) -> bool:
    """Waits until it is so; whether it came to be."""
    end = time.monotonic() + seconds
    while time.monotonic() < end:
        if what():
            return True
        time.sleep(0.02)
    return bool(what())
