"""Times runs of workers on one disk, beside short programs that do as many such jobs.

    scripts/bench run [JOBS [TURNS]]      40,000 jobs in all, three turns

Each job is a transaction of its own (WAL, synchronous FULL). In turn: `run`, whose clients all
fight for pages 0 and 1; the program own_pages, whose clients have two pages each that no other
uses, or all the same two; and jobs.c over SQLite's own library, that also with 32 jobs in a
transaction. What the database library takes by itself `scripts/bench database` says. It prints
durable jobs a second of each, and how many batches carried the commits of own_pages, with the
number of aborted tries. Last come the rows of a table, of each program: its least, its median and
its greatest rate; the ratio of its median to that of SQLite alone, and to that of its own runs of
one client; and, as the medians of the turns, how many tries were aborted a job and how many commits
a batch had.

It needs SQLite's C library with its header, and the programs, which are built first unless PLAY and
OWN name built ones. ROOM is the folder of the stores (the system's temporary one if it isn't set).
SYNC makes each sync of a file take so many microseconds longer, in all programs alike, as on a
slower disk. A turn of 40,000 jobs takes some minutes.
"""
import os
import re
import statistics
import subprocess
import time

import building

OWN = [
    "cb_page", "cb_twoq", "cb_commit", "cb_admission", "cb_station", "cb_shelf", "cb_worker",
    "cb_office", "sqlite", "anyhow",
]
CONFIG = "clients = {}\npages = 2\npage_size = 16\nslots = 2\njobs = {}\n"


class Rates:
    """What each program did in a second, turn for turn, and what it told of its batches."""

    def __init__(self):
        self.jobs, self.aborted, self.in_batch = {}, {}, {}

    def note(self, name, count, took, said):
        """Keeps what one run did, and what it said."""
        self.jobs.setdefault(name, []).append(count / took)
        if told := re.search(r"(\d+) commits in (\d+) batches, (\d+) tries aborted", said):
            commits, batches, aborted = map(int, told.groups())
            self.aborted.setdefault(name, []).append(aborted / count)
            self.in_batch.setdefault(name, []).append(commits / max(batches, 1))

    def ratio(self, name, other):
        """How many times the other's jobs this one does."""
        if other not in self.jobs:
            return ""
        return f"{statistics.median(self.jobs[name]) / statistics.median(self.jobs[other]):.2f}"

    def row(self, name):
        """The row of a program in the table."""
        rates = self.jobs[name]
        told = [min(rates), statistics.median(rates), max(rates)]
        cells = [name, *(f"{it:,.0f}" for it in told), self.ratio(name, "SQLite alone")]
        cells.append(self.ratio(name, f"{name.partition(',')[0]}, 1 client"))
        for found in (self.aborted, self.in_batch):
            cells.append(f"{statistics.median(found[name]):.2f}" if name in found else "")
        return f"| {' | '.join(cells)} |"


def timed(rates, name, count, words, slow_sync):
    """Says how many of the jobs there are a second."""
    slower = {"LD_PRELOAD": str(slow_sync), "SYNC_MICROSECONDS": os.environ.get("SYNC", "0")}
    both = {"stdout": subprocess.PIPE, "stderr": subprocess.STDOUT}
    words, env = list(map(str, words)), {**os.environ, **slower}
    start = time.monotonic()
    done = subprocess.run(words, env=env, **both, text=True, check=False)
    took = time.monotonic() - start
    if done.returncode:
        print(f"{name}: FAILED: {done.stdout}", flush=True)
        return
    rates.note(name, count, took, done.stdout)
    batches = re.search(r"commits in(.*)", done.stdout)
    more = f", in{batches[1]}" if batches else ""
    print(f"{name}: {count / took:.0f} jobs a second{more}", flush=True)


def turn(rates, number, jobs, room, programs):
    """One turn of each program."""
    play, own, in_c, slow_sync = programs
    few, many = jobs // 4, jobs // 32 * 32
    words = [in_c, room / f"alone_{number}.db", few]
    timed(rates, "SQLite alone", few, words, slow_sync)
    together = [in_c, room / f"together_{number}.db", jobs, 32]
    timed(rates, "SQLite alone, 32 jobs a transaction", many, together, slow_sync)
    for clients in (1, 4, 8, 32):
        each, config = jobs // clients, room / "run.toml"
        of = "1 client" if clients == 1 else f"{clients} clients"
        config.write_text(CONFIG.format(clients, each))
        words = [play, "run", config, room / f"run_{clients}_{number}.db"]
        timed(rates, f"run, {of}", clients * each, words, slow_sync)
        for pages, name in (("own", "own pages"), ("shared", "two pages")):
            words = [own, room / f"{pages}_{clients}_{number}.db", clients, each, pages]
            timed(rates, f"{name}, {of}", clients * each, words, slow_sync)


def main(words):
    jobs, turns = map(int, (words + ["40000", "3"][len(words) :])[:2])
    rates = Rates()
    with building.a_room() as room:
        first = [f"{room}/first.db", "1", "1", "own"]
        programs = (
            building.play("PLAY"),
            building.program("own_pages", OWN, first, room, "OWN"),
            building.in_c("jobs", room, "-lsqlite3"),
            building.library_in_c("sync", room, "-ldl"),
        )
        for number in range(1, turns + 1):
            print(f"turn {number}", flush=True)
            turn(rates, number, jobs, room, programs)
    for name in rates.jobs:
        print(rates.row(name))
    return 0
