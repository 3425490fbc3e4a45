"""What scripts/check library tries in C and Rust beside the programs of hosts/c/tests.

- Analysers are silent about the sources in C: `gcc -fanalyzer -Wconversion` and the checks of
  clang-tidy whose names begin with bugprone. The headers are C++ as well.
- The shared object has its version in its name, and a program over it names that.
- The installed folder is moved, and programs in C and Rust are built over it in a folder of their
  own, without a variable but PATH, as docs/EMBEDDING.md says. The crate also finds the library by
  pkg-config; where there is none, it says in one line what to do.
- Eight of these programs count at the same time at the server over threads, in Rust. It tells
  incarnations that rise over its lives.
- The examples `counter` and `kv` go on at the next of two addresses, each time that their
  connection ends there: scripts/programs/python/two_gateways.py serves a store at both, by turns.
"""
import os
import shutil
import socket
import struct
import subprocess
import sys
from contextlib import contextmanager

import building
import serving
from checks.frames import HEADER
from checks.trying import said

C = building.TOP / "hosts/c"
FLAGS = ["-std=c11", "-D_GNU_SOURCE", "-O2", "-Wall", "-Wextra", "-Wpedantic"]
SOURCES = [
    *(C / f"{name}.c" for name in ("heap", "rughvadi_link", "rughvadi_connect")),
    C / "examples/counter.c",
    building.TOP / "examples/counter.c",
]
HEADERS = ["rughvadi", "rughvadi_link", "rughvadi_connect"]
WANTED = "set RUGHVADI_LIB_DIR to the folder of librughvadi.a, or PKG_CONFIG_PATH to that of"
EACH = 50
# Clients, pages, bytes of a page, slots, kin, kout and whether write permissions are kept.
LIMITS = ["8", "64", "1024", "16", "4", "8", "0"]
# After so many bytes the store is served at the other address, so often at least.
TURN, TURNS = "60000", 3


def analyse(tries, it):
    """The analysers, file by file."""
    for source in SOURCES:
        name = source.relative_to(building.TOP)
        flags = [*FLAGS, f"-I{C}"]
        words = ["gcc", *flags, "-Wconversion", "-fanalyzer", "-Werror", "-c", source]
        tries.command(f"gcc on {name}", *words, "-o", it.room / "analysed.o")
        words = ["clang-tidy", "--quiet", "--checks=-*,bugprone-*", "--warnings-as-errors=*"]
        right, text = said(*words, source, "--", *flags)
        tries.told(f"clang-tidy on {name}", right, "" if right else text)
    text = "".join(f'#include "{name}.h"\n' for name in HEADERS)
    (it.room / "headers.cc").write_text(text)
    words = ["c++", "-std=c++11", *FLAGS[2:], "-Werror", f"-I{it.top}/include"]
    tries.command("headers in C++", *words, "-c", it.room / "headers.cc", "-o", it.room / "headers")


def of_rust(name):
    """The command: the one that its variable names, else Debian's, else the one in the path."""
    debians = f"/usr/bin/{name}"
    return os.environ.get(name.upper()) or (debians if os.path.exists(debians) else name)


class Fresh:
    """A folder where programs are built over a library that was moved, with PATH alone."""

    def __init__(self, it):
        self.room = it.room / "fresh"
        self.top = self.room / "moved"
        self.env = {"PATH": os.environ["PATH"]}
        self.room.mkdir()
        shutil.copytree(it.top, self.top, symlinks=True)

    def in_c(self, name, *words):
        """Builds the counter in C; how it went."""
        compiler = os.environ.get("CC", "cc")
        source = C / "examples/counter.c"
        return said(compiler, source, *words, "-o", self.room / name, env=self.env, cwd=self.room)

    def package(self, name, crate):
        """A new package, whose program is the counter in Rust, over the crate in that folder."""
        folder = self.room / name
        (folder / "src").mkdir(parents=True)
        shutil.copy(crate / "examples/counter.rs", folder / "src/main.rs")
        (folder / "Cargo.toml").write_text(
            f"[package]\nname = '{name}'\nversion = '0.1.0'\nedition = '2021'\n"
            f"[dependencies]\nrughvadi = {{ path = '{crate}' }}\n"
        )
        return folder

    def build(self, folder, *words, **variables):
        """Builds a package; how it went."""
        rust = {"RUSTC": of_rust("rustc")}
        env = {**self.env, **rust, **{key: str(value) for key, value in variables.items()}}
        words = [of_rust("cargo"), "build", "--offline", "--quiet", *words]
        return said(*words, env=env, cwd=folder)


def build_in_c(tries, fresh):
    """The shared object by pkg-config, and the archive."""
    pc = fresh.top / "lib/pkgconfig/rughvadi.pc"
    right, flags = said("pkg-config", "--cflags", "--libs", pc, env=fresh.env)
    if right:
        words = flags.split()
        right, flags = fresh.in_c("shared", *words, f"-Wl,-rpath,{fresh.top}/lib")
    tries.told("moved: C over the shared object", right, flags)
    _, needs = said("readelf", "-d", fresh.room / "shared")
    _, named = said("readelf", "-d", fresh.top / "lib/librughvadi.so")
    right = "NEEDED" in needs and "[librughvadi.so.1]" in needs and "[librughvadi.so.1]" in named
    right = right and os.readlink(fresh.top / "lib/librughvadi.so") == "librughvadi.so.1"
    text = "librughvadi.so.1" if right else needs + named
    tries.told("moved: the shared object has its version", right, text)
    words = [f"-I{fresh.top}/include", fresh.top / "lib/librughvadi.a"]
    tries.told("moved: C over the archive", *fresh.in_c("alone", *words))


def build_in_rust(tries, fresh):
    """The crate beside the library; elsewhere, by pkg-config; and where there is no library."""
    beside = fresh.top / "share/rughvadi/rust"
    tries.told("moved: Rust", *fresh.build(fresh.package("in_rust", beside)))
    elsewhere = fresh.room / "elsewhere"
    shutil.copytree(beside, elsewhere)
    found = fresh.package("by_pkg_config", elsewhere)
    pc = fresh.top / "lib/pkgconfig"
    right, text = fresh.build(found, PKG_CONFIG_PATH=pc)
    tries.told("moved: Rust by pkg-config", right, text)
    lost = fresh.package("without", elsewhere)
    built, text = fresh.build(lost)
    lines = [line for line in text.splitlines() if WANTED in line]
    tries.told("Rust without the library", not built and len(lines) == 1, text)
    right, text = fresh.build(lost, RUGHVADI_LIB_DIR=fresh.top / "lib")
    tries.told("moved: Rust by the variable", right, text)


def counted(fresh, server):
    """Eight programs in C and Rust count at the server; what failed."""
    path, clients = fresh.room / "socket", []
    programs = ["shared", "alone", "in_rust/target/debug/in_rust"]
    if server.stdout.readline() != "ready\n":
        return "the server ended"
    for client in range(8):
        words = [fresh.room / programs[client % 3], path, str(client), str(EACH)]
        clients.append(subprocess.Popen(words, env=fresh.env, stdout=subprocess.DEVNULL))
    ended = [each.wait() for each in clients]
    if any(ended) or server.poll() is not None:
        return f"the clients ended with {ended}, the server with {server.poll()}"
    stored = (fresh.room / "pages").read_bytes()
    number, page = stored[:8], stored[16 + 5 * 72 + 8 :]
    found = [int.from_bytes(it[:8], "little") for it in (number, page)]
    return "" if found == [8 * EACH, 8 * EACH] else f"last commit and counter: {found}"


def asked_once(path):
    """The incarnation that the server tells client 7, who asks by a header alone; else 0."""
    try:
        with socket.socket(socket.AF_UNIX) as stream:
            stream.connect(str(path))
            stream.sendall(HEADER.pack(2, 0, 7, 0, 0))
            *begins, incarnation, length = HEADER.unpack(stream.recv(16, socket.MSG_WAITALL))
    except (OSError, struct.error):
        return 0
    return incarnation if [*begins, length] == [2, 0, 7, 0] else 0


def asked(path):
    """The same, once the server knows that the client's former connection ended: until then it
    takes no other one for it."""
    told = []
    serving.wait_for(lambda: told.append(asked_once(path)) or told[-1], 60)
    return told[-1]


@contextmanager
def running(*words, **others):
    """A program that runs meanwhile, and what it writes."""
    words = list(map(str, words))
    with subprocess.Popen(words, stdout=subprocess.PIPE, text=True, **others) as process:
        try:
            yield process
        finally:
            process.kill()


def served_twice(tries, fresh, server):
    """Counts at the server, and looks at what it tells then, and in another life of its store."""
    path, told = fresh.room / "socket", []
    words = [server, path, fresh.room / "pages"]
    with running(*words, env=fresh.env) as process:
        text = counted(fresh, process)
        told.append(asked(path))
    path.unlink()
    with running(*words, env=fresh.env) as process:
        process.stdout.readline()
        told.append(asked(path))
    tries.told("eight clients at a server over threads", not text, text)
    tries.told("its incarnations", 0 < told[0] <= told[1], str(told))


def count_by_eight(tries, fresh):
    """The server over threads, and its clients."""
    target = fresh.room / "examples"
    words = ["--examples", "--target-dir", target]
    right, text = fresh.build(fresh.top / "share/rughvadi/rust", *words)
    if right:
        served_twice(tries, fresh, target / "debug/examples/server")
    else:
        tries.told("build the server over threads", right, text)


def by_turns(room, clients):
    """Runs clients, as words behind which their addresses come, at a store that two gateways serve
    by turns: whether they ended well, what they wrote, and how often the turn changed."""
    room.mkdir()
    sockets = [room / name for name in ("served", "one", "two")]
    relay = building.PROGRAMS / "python/two_gateways.py"
    with running(room.parent / "served", sockets[0], room / "db", *LIMITS[:3]) as served:
        served.stdout.readline()
        words = [sys.executable, relay, *sockets, TURN, *LIMITS]
        with running(*words) as gateways:
            gateways.stdout.readline()
            gateways.stdout.readline()
            addresses = f"{sockets[1]},{sockets[2]}"
            both = {"stdout": subprocess.PIPE, "stderr": subprocess.STDOUT, "text": True}
            begun = [subprocess.Popen([it[0], addresses, *it[1:]], **both) for it in clients]
            text = "".join(each.communicate()[0] for each in begun)
            gateways.kill()
            turns = gateways.stdout.read().count("turn")
    return not any(each.returncode for each in begun), text, turns


def go_on(tries, it):
    """The examples at two addresses."""
    room = it.room / "turns"
    room.mkdir()
    words = ["make", "-s", "-C", building.TOP / "examples", f"LIBRARY={it.top}", f"OUT={room}"]
    tries.command("build the examples", *words, f"RUSTC={of_rust('rustc')}")
    flags = ["-O2", f"-I{it.top}/include", it.archive, "-lsqlite3", "-o", room / "served"]
    tries.command("build served", os.environ.get("CC", "cc"), C.parent / "served.c", *flags)
    tokens = room / "tokens"
    tokens.write_text("".join(f"{client} {client:02x}{'00' * 31}\n" for client in range(8)))
    counters = [[str(room / "counter"), str(tokens), str(client), "100"] for client in range(4)]
    right, text, turns = by_turns(room / "counters", counters)
    right = right and "the counter is 400" in text and turns >= TURNS
    tries.told("counter goes on at the next address", right, f"{text}{turns} turns")
    keys = ["main", "fill", "60"]
    fills = [[str(room / "kv"), str(tokens), str(client), *keys] for client in range(2)]
    right, text, turns = by_turns(room / "keys", fills)
    tries.told("kv goes on at the next address", right and turns >= TURNS, f"{text}{turns} turns")


def tried(tries, it):
    """All of it."""
    analyse(tries, it)
    fresh = Fresh(it)
    build_in_c(tries, fresh)
    build_in_rust(tries, fresh)
    count_by_eight(tries, fresh)
    go_on(tries, it)
