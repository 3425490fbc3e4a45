"""Judges what workers on threads lent and wrote.

    scripts/check lent [RUNS [SEED]]    200 runs without a number

Each run has 2 to 32 clients on threads, which fight for 2 to 64 pages. Their transactions read
pages, and write values that no other write has. Some are dropped, some are aborted; between them
clients begin new incarnations, or leave and join again. The program of scripts/programs/lent_bytes
prints what each transaction was lent and what it wrote, when it began, when it ended, and the
number of its commit. scripts/serial.py then says whether that was strictly serial: each read saw
the last write before it, in the order of the numbers, and who ended before another began has the
lower number.

The program is built first, unless LENT names a built one. The status is 1 where a run isn't so.
"""

import random
import subprocess
from pathlib import Path

import building
import serial
from checks.trying import numbers

LIBRARIES = [
    "cb_page", "cb_admission", "cb_office", "cb_shelf", "cb_station", "cb_twoq",
    "cb_worker", "anyhow", "rand_core", "rand_pcg", "sqlite",
]
CLIENTS = [32, 2, 8, 32, 4, 16]
# What all clients of a run commit together, about.
TRANSACTIONS = 1_600


def lent(program: Path, room: Path, clients: int, pages: int, seed: int) -> serial.Verdict:
    """What is said of one run."""
    store, log = room / "store.db", room / "log"
    store.unlink(missing_ok=True)
    words = [program, store, clients, pages, max(TRANSACTIONS // clients, 25), seed]
    with log.open("w") as out:
        ran = subprocess.run([*map(str, words)], stdout=out, timeout=600, check=False)
    verdict = serial.judge([log])
    stopped = [line for line in log.read_text().splitlines() if not line.startswith("[")]
    if ran.returncode or stopped:
        verdict.faults += [*stopped, f"the program ended with {ran.returncode}"]
    return verdict


def counted(program: Path, room: Path, runs: int, seed: int) -> int:
    """Judges so many runs; 1 where one isn't strictly serial."""
    drawn = random.Random(seed)
    commits = bad = 0
    for run in range(runs):
        clients, pages = CLIENTS[run % len(CLIENTS)], drawn.choice([2, 4, 16, 64])
        verdict = lent(program, room, clients, pages, seed * 1_000 + run)
        commits += verdict.commits
        if verdict.faults:
            bad += 1
            print(f"FAILED, run {run}, {clients} clients, {pages} pages: {verdict}")
    print(f"{runs} runs, {commits} commits, {bad} runs not strictly serial")
    return 1 if bad or not commits else 0


def main(words: list[str]) -> int:
    _, (runs, seed) = numbers(words, "lent [RUNS [SEED]]", 200, 1)
    with building.a_room() as room:
        first = [room / "first.db", 2, 2, 10, 1]
        program = building.program("lent_bytes", LIBRARIES, map(str, first), room, "LENT")
        return counted(program, Path(room), runs, seed)
