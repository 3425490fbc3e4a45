"""Builds the library for other languages, and tries it.

    scripts/check library [--built] [SEEDS]

It installs the library in a folder of its own, by `scripts/library`, and runs, each to its end:

- the sweeps of refused growths, from the first to the last: of calls, and of a link's
- a million random calls, with damaged frames, by a program that is built with ASan and UBSan; after
  each that is refused all is as it was
- a link in C: greetings that are answered and refused, signals, and that it is gone with its
  connection, and wherever the sending of a frame ends early; frames that go and come in pieces,
  and bytes that are none; aborts, silence, and pages that left a small pool; several addresses, and
  limits of time; the tries of a job, and Drops that wait
- a server and two clients in one process, over frames of which a tenth is lost, repeated or late,
  for so many seeds (10 if not said; an odd one keeps write permissions): each transaction checks
  a sum over all pages
- the same where the server ends at drawn moments and another begins, whose frames meet those of
  former lives, and where clients go by clocks that are set back and forth; and that of such servers
  without lives the sums tell a commit of pages that had changed since
- the tests of the Rust crate and of the Python package; the package's wheel is installed in an
  environment of its own (scripts/checks/library_python.py)
- the examples in C, Rust and Python, at the same time at one server over SQLite
- what analysers say of the sources in C, and programs that are built in a fresh folder over the
  library after it was moved (scripts/checks/library_hosts.py)
- that each program in docs/EMBEDDING.md is the file that was run

A line for each, with the last line that it wrote; of one that failed, its last lines. It needs a C
compiler with the sanitizers, gcc, clang-tidy, pkg-config, `cargo` and Python; CC, CARGO, RUSTC and
RUSTDOC name others. Debian's cargo, /usr/bin/cargo, is taken where it is there: the crate is
written for its rustc, 1.63. Which one was tried has a line of its own. The library is proved first
(scripts/library); with --built the archive that stands in crates/rughvadi/out is taken. Once that
is there it takes some minutes. The status is 1 where one failed.
"""
import os
import subprocess
import sys
import time
from dataclasses import dataclass
from pathlib import Path
from subprocess import DEVNULL

import building
from checks import docs, library_hosts, library_python
from checks.library_hosts import of_rust
from checks.trying import FAULTS, Tries, numbers, ran, rows_of

FLAGS = ["-std=c11", "-D_GNU_SOURCE", "-g", "-O1", "-Wall", "-Wextra", "-Wpedantic", "-Werror"]
SANITIZERS = ["-fsanitize=address,undefined", "-fno-sanitize-recover=all"]
HOSTS = building.TOP / "hosts"
# The programs in C that call the library in one process, with the name of each one's run.
SOAKS = {
    "refused_growths": "refused growths", "refused_links": "refused growths of a link",
    "random_calls": "random calls", "link": "links at their end",
    "sending": "sendings, whole and ended early", "coming": "what comes to a link",
    "outcomes": "what calls of a link tell", "tries": "tries of a job", "drops": "drops that wait",
    "addresses": "several addresses",
}
EACH = 100


@dataclass
class Installed:
    """Where things are: the folder of the check, and in it what was installed."""

    room: Path

    @property
    def top(self):
        return self.room / "installed"

    @property
    def archive(self):
        return self.top / "lib/librughvadi.a"

    @property
    def rust(self):
        return self.top / "share/rughvadi/rust"

    @property
    def python(self):
        return self.top / "share/rughvadi/python"


def compile_all(tries, it):
    """Compiles the programs in C."""
    compiler = os.environ.get("CC", "cc")
    words = [compiler, *FLAGS, f"-I{it.top}/include", f"-I{HOSTS}/c/tests"]
    for name in [*SOAKS, "lossy"]:
        source = HOSTS / f"c/tests/{name}.c"
        made = [*SANITIZERS, source, it.archive, "-o", it.room / name]
        tries.command(f"build {name}", *words, *made)
    source = HOSTS / "c/examples/counter.c"
    tries.command("build counter", *words, source, it.archive, "-o", it.room / "counter")


def run_soaks(tries, it, seeds):
    """The programs in C that call the library in one process."""
    for name, told in SOAKS.items():
        tries.command(told, it.room / name, *([1, 1_000_000] if name == "random_calls" else []))
    for seed in range(1, seeds + 1):
        tries.command(f"lossy frames, seed {seed}", it.room / "lossy", seed, 2000)
        tries.command(f"and lives, seed {seed}", it.room / "lossy", seed, 2000, "lives")
    run_without_lives(tries, it, seeds)


def run_without_lives(tries, it, seeds):
    """Of servers that know no client of a former one's, some seed is to show what is stale."""
    said = []
    for seed in range(1, seeds + 1):
        done = ran(it.room / "lossy", seed, 2000, "new", text=True)
        said.append("stale" if ": not so: " in done.stderr else done.stdout + done.stderr)
    right, stale = "stale" in said, said.count("stale")
    tries.told("without lives", right, f"{stale} of {seeds} seeds show it" if right else said[0])


def run_wrappers(tries, it):
    """The tests of the crate and of the package; the crate's example is built."""
    cargo, rustc, lib = of_rust("cargo"), of_rust("rustc"), it.top / "lib"
    words = ["--offline", "--quiet", "--manifest-path", it.rust / "Cargo.toml"]
    words += ["--target-dir", it.room / "target"]
    built = {"RUSTC": rustc, "RUSTDOC": of_rust("rustdoc"), "RUGHVADI_LIB_DIR": lib}
    tries.command("crate's compiler", rustc, "--version")
    tries.command("crate's tests", cargo, "test", *words, **built)
    tries.command("crate's example", cargo, "build", "--examples", *words, **built)
    library_python.tried(tries, it)


def is_ready(server, ready):
    """Waits until the server says that it is; false where it ended before."""
    while server.poll() is None:
        if "ready" in ready.read_text():
            return True
        time.sleep(0.1)
    return False


def count_together(it):
    """A client in each language at one server, at the same time; the text is of one that failed."""
    socket, examples = it.room / "socket", it.python / "examples"
    env = {**os.environ, "PYTHONPATH": str(it.python)}
    clients = [
        [it.room / "counter"],
        [it.room / "target/debug/examples/counter"],
        [sys.executable, examples / "counter.py"],
    ]
    ready = it.room / "ready"
    with ready.open("w") as out:
        words = [sys.executable, examples / "server.py", socket, it.room / "pages.db"]
        server = subprocess.Popen(words, env=env, stdout=out)
    try:
        if not is_ready(server, ready):
            return "the server ended"
        begun = [
            subprocess.Popen([*words, socket, str(client), str(EACH)], env=env, stdout=DEVNULL)
            for client, words in enumerate(clients)
        ]
        ended = [each.wait() for each in begun]
        return "" if not any(ended) else f"the clients ended with {ended}"
    finally:
        server.terminate()
        server.wait()


def run_examples(tries, it):
    """The counters in three languages, and what the database has of them afterwards."""
    name = "counters in three languages"
    try:
        if failed := count_together(it):
            tries.told(name, False, failed)
            return
        ((page,),) = rows_of(it.room / "pages.db", "SELECT data FROM pages WHERE page = 5")
        ((number,),) = rows_of(it.room / "pages.db", "SELECT number FROM mark")
    except FAULTS as why:
        tries.told(name, False, str(why))
        return
    counter, wanted = int.from_bytes(page[:8], "little"), 3 * EACH
    said = f"counter {counter} last commit {number}"
    tries.told(name, (counter, number) == (wanted, wanted), said)


def tried(room, built, seeds):
    """Installs the library and tries it; how it ended."""
    tries, it = Tries(), Installed(room)
    tries.command("library", building.TOP / "scripts/library", *built, it.top)
    if it.archive.exists():
        compile_all(tries, it)
        run_soaks(tries, it, seeds)
        run_wrappers(tries, it)
        run_examples(tries, it)
        library_hosts.tried(tries, it)
        other = docs.other_programs(building.TOP / "docs/EMBEDDING.md")
        tries.told("programs in docs/EMBEDDING.md", not other, "\n".join(other) or "none differs")
    return tries


def main(words):
    built, (seeds,) = numbers(words, "library [--built] [SEEDS]", 10)
    with building.a_room() as room:
        return tried(room, built, seeds).status("library")
