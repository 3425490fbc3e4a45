"""Times the database's library alone beside SQLite's in C, by the updates of a served store.

    scripts/bench database [SECONDS [TURNS]]      two seconds each, three turns

A transaction sets 1, 4, 16 or 32 pages of 4,096 bytes, their versions and the number of the last
commit, by the statements of a shelf, in a store of 64 pages. Of each page the first 8 bytes are
others than before, as a counter's are, or all 4,096. In turn, on one disk: the program of
scripts/programs/database_commits over the database's library, with no shelf, no server and no
client; and the same in C. It prints how many pages were set a second, which are as many commits of
clients, and by how much processor time each; then the library's by those of C, from the least turn
to the greatest. So much of a commit at a served store is the library's, whatever is above it.

It needs SQLite's C library with its header. The program is built first, unless DATABASE names a
built one. ROOM is the folder of the stores (the system's temporary one if it isn't set).
"""
import os
import sqlite3
import subprocess
from contextlib import closing
from pathlib import Path

import building

PAGES, CHANGED = [1, 4, 16, 32], [8, 4096]
LIBRARY, IN_C = "the database's library", "SQLite in C"


def program(room: Path) -> Path:
    """The program over the database's library: that of DATABASE, else built."""
    words = ["none", "1", "8", "0"]
    return building.program("database_commits", ["sqlite", "anyhow"], words, room, "DATABASE")


def transactions(path: Path) -> int:
    """The number of the last transaction that a store holds."""
    with closing(sqlite3.connect(path)) as store:
        return store.execute("SELECT commits FROM mark2").fetchone()[0]


def ran(it: Path, path: Path, pages: int, changed: int, seconds: int) -> tuple[float, float]:
    """How many pages a run set a second, and its microseconds of a processor for each."""
    for each in path.parent.glob(f"{path.name}*"):
        each.unlink()
    words = [str(it), str(path), str(pages), str(changed), str(seconds)]
    with subprocess.Popen(words, stdout=subprocess.PIPE, text=True) as process:
        said = process.stdout.read() if process.stdout else ""
        _, status, used = os.wait4(process.pid, 0)
        process.returncode = os.waitstatus_to_exitcode(status)
    held = transactions(path) * pages
    if process.returncode or int(said) != held // seconds:
        raise building.NotBuilt(f"{it.name}: status {process.returncode}, {held} pages are set")
    return held / seconds, (used.ru_utime + used.ru_stime) * 1e6 / held


def between(ratios: list[float]) -> str:
    """The least and the greatest."""
    return f"{min(ratios):.2f} to {max(ratios):.2f}"


def compared(ways: dict[str, Path], room: Path, what: tuple[int, int], turns: tuple[int, int]):
    """Runs both in turn, and prints what each did and how they compare."""
    (pages, changed), (seconds, count) = what, turns
    more, longer = [], []
    for turn in range(1, count + 1):
        did = {it: ran(ways[it], room / "a.db", pages, changed, seconds) for it in ways}
        for name, (each, took) in did.items():
            print(f"{name}, turn {turn}: {each:.0f} pages a second, {took:.1f} us each", flush=True)
        more.append(did[LIBRARY][0] / did[IN_C][0])
        longer.append(did[LIBRARY][1] / did[IN_C][1])
    print(f"  {between(more)} times as many, in {between(longer)} times the processor time each")


def main(words: list[str]) -> int:
    seconds, turns = map(int, (words + ["2", "3"][len(words) :])[:2])
    with building.a_room() as room:
        in_c = building.in_c("database_commits", room, "-lsqlite3")
        ways = {LIBRARY: program(room / "built"), IN_C: in_c}
        for changed in CHANGED:
            for pages in PAGES:
                print(f"{pages} pages a transaction, {changed} bytes of each changed", flush=True)
                compared(ways, room, (pages, changed), (seconds, turns))
    return 0
