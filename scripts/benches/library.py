"""Times the library through C, Rust and Python: reads of held pages, and commits in one process.

    scripts/bench library

A line for pages of 64 bytes and one for 4,096: a read of a held page beside a look-up in a hash
table and a copy of as many bytes, and a commit of one client at one server with no disk. The table
is uthash's where its header is installed (Debian's uthash-dev), else a chained one of the program's
own.

Then for each size, of values that a process has at hand: a read, a transaction of one and one of
eight, through a link in C, in Rust and in Python; that in C and that in Python beside SQLite's
library (Python's `sqlite3`), LMDB and a GET of a Redis server on a Unix socket, by the same
language. On Debian that takes libsqlite3-dev, liblmdb-dev, python3-lmdb, redis-server and rustc;
what isn't there is left out.

It takes the archive in crates/rughvadi/out, which `scripts/library` builds; CC and RUSTC name other
compilers. It takes a minute. The status is 2 where the archive isn't there.
"""
import os
import subprocess

import building
from benches import held_reads


def main(_words):
    flags = ["-std=c11", "-D_GNU_SOURCE", "-O2"]
    tests = building.TOP / "hosts/c/tests"
    with building.a_room() as room:
        top, made = room / "installed", room / "speed"
        install = [building.TOP / "scripts/library", "--built", top]
        if subprocess.run(install, stdout=subprocess.DEVNULL, check=False).returncode:
            raise building.NotBuilt("the library isn't built: scripts/library DIR")
        words = [os.environ.get("CC", "cc"), *flags, f"-I{top}/include", f"-I{tests}"]
        words += [tests / "speed.c", top / "lib/librughvadi.a", "-o", made]
        if subprocess.run(words, check=False).returncode:
            raise building.NotBuilt("speed.c isn't compiled")
        sizes = held_reads.SIZES
        status = max(subprocess.run([made, size], check=False).returncode for size in sizes)
        return max(status, held_reads.measured(room, top))
