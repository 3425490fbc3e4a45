"""The part of `scripts/bench library` that sets held reads beside what else a process may read
from: a link in C beside SQLite, LMDB and a GET of Redis, and one in Python beside the same. A link
in Rust is timed alone, since its peers would be those of C."""
import os
import shutil
import subprocess
import sys
from collections.abc import Iterator
from contextlib import contextmanager
from pathlib import Path

import building
import serving
from checks.library_hosts import of_rust

SIZES = ("64", "4096")
PROGRAMS = building.PROGRAMS
# Debian's Python, which has LMDB's module if python3-lmdb is installed.
DEBIANS = "/usr/bin/python3"
HAS_LMDB = "import sys, lmdb; sys.exit(sys.version_info < (3, 11))"


@contextmanager
def redis(room: Path) -> Iterator[str]:
    """The socket of a Redis server that runs meanwhile; nothing where none is installed."""
    if not (program := shutil.which("redis-server")):
        print("redis-server isn't installed", flush=True)
        yield ""
        return
    path = room / "redis"
    words = [program, "--port", "0", "--unixsocket", path, "--save", "", "--dir", room]
    with subprocess.Popen(list(map(str, words)), stdout=subprocess.DEVNULL) as server:
        try:
            if not serving.wait_for(path.exists):
                raise building.NotBuilt("redis-server doesn't start")
            yield str(path)
        finally:
            server.terminate()


def in_c(room: Path, top: Path) -> Path | None:
    """The program in C; none where a header isn't installed."""
    made = room / "held_reads"
    words = [os.environ.get("CC", "cc"), "-std=c11", "-D_GNU_SOURCE", "-O2", f"-I{top}/include"]
    words += [PROGRAMS / "c/held_reads.c", top / "lib/librughvadi.a", "-o", made]
    words += ["-lsqlite3", "-llmdb"]
    done = subprocess.run(words, capture_output=True, text=True, check=False)
    if done.returncode and "No such file" in done.stderr:
        print("sqlite3.h or lmdb.h isn't installed: no peers in C", flush=True)
        return None
    if done.returncode:
        raise building.NotBuilt(f"held_reads.c isn't compiled\n{done.stderr}")
    return made


def in_rust(room: Path, top: Path) -> Path | None:
    """The program in Rust; none where there is no rustc."""
    if not shutil.which(rustc := of_rust("rustc")):
        print("rustc isn't installed: nothing in Rust", flush=True)
        return None
    out = room / "rust"
    crate, made = out / "librughvadi.rlib", out / "held_reads"
    make = ["make", "-s", "-C", building.TOP / "examples", f"LIBRARY={top}", f"OUT={out}"]
    words = [rustc, "--edition", "2021", "-O", "--extern", f"rughvadi={crate}"]
    words += [PROGRAMS / "rust/held_reads.rs", "-o", made]
    for each in [*make, f"RUSTC={rustc}", crate], words:
        done = subprocess.run(each, capture_output=True, text=True, check=False)
        if done.returncode:
            raise building.NotBuilt(f"held_reads.rs isn't compiled\n{done.stderr}")
    return made


def python() -> str:
    """Debian's where it has LMDB's module, else the one that runs this."""
    there = os.path.exists(DEBIANS)
    done = there and subprocess.run([DEBIANS, "-c", HAS_LMDB], capture_output=True, check=False)
    return DEBIANS if done and done.returncode == 0 else sys.executable


def measured(room: Path, top: Path) -> int:
    """Runs all for each size; the highest status."""
    status, in_c_made, in_rust_made = 0, in_c(room, top), in_rust(room, top)
    env = {**os.environ, "PYTHONPATH": f"{top}/share/rughvadi/python"}
    with redis(room) as path:
        for size in SIZES:
            commands = [[python(), PROGRAMS / "python/held_reads.py", room, size, path]]
            commands += [[in_c_made, room, size, path]] if in_c_made else []
            commands += [[in_rust_made, size]] if in_rust_made else []
            for words in commands:
                status = max(status, subprocess.run(words, env=env, check=False).returncode)
    return status
