"""Measures what the calls of a server cost.

    scripts/bench server [RUNS]      the least of five runs

Short exchanges (AskRead, Granted, GiveBack), a write with 31 callbacks, transactions that commit
and that drop, the deadlock test where 31 of 32 clients wait in a row, and batches, at stores of 64
and of 4,096 pages. It prints nanoseconds of processor time, less that of runs that do the same
before and none of what is measured.

It needs the program of scripts/programs/server_speed, which is built first unless PROGRAM names a
built one. Five runs take some minutes.
"""
import building
from costs import cost

LIBRARIES = ["cb_page", "cb_frame", "cb_commit", "cb_waits", "cb_server"]


def exchanges(program, runs):
    """Short exchanges, by clients, pages and the commits before."""
    print("short exchange, ns a turn of three frames; frames a second")
    for clients in (2, 32):
        for pages in (64, 4096):
            for before in (10, 100_000):
                setting = f"exchange {clients} {pages} 16 {before}"
                seconds, frames = cost(program, setting, 500_000, runs)
                took = f"{seconds / 500_000 * 1e9:.0f} ns, {int(frames) / seconds:,.0f}"
                where = f"{clients} clients, {pages} pages, after {before} commits"
                print(f"  {where}: {took}", flush=True)


def transactions(program, runs):
    """Transactions of one page."""
    for pages, size in ((64, 16), (4096, 16), (64, 4096)):
        turns = 200_000 if size == 16 else 50_000
        commits, _ = cost(program, f"commit 2 {pages} {size} 10", turns, runs)
        drops, _ = cost(program, f"drop 2 {pages} {size} 10", turns, runs)
        commit, drop = commits / turns * 1e9, drops / turns * 1e9
        print(f"{pages} pages of {size} bytes: a transaction that commits", end=" ")
        print(f"{commit:.0f} ns, one that drops {drop:.0f} ns", flush=True)


def others(program, runs):
    """A write with callbacks, the deadlock test, and batches."""
    seconds, printed = cost(program, "write 32 4096 16 10", 4096, runs)
    frames = int(printed)
    print(f"write with 31 callbacks: {seconds / 4096 * 1e9:.0f} ns for {frames / 4096:.0f} frames,"
          f" {frames / seconds:,.0f} frames a second", flush=True)
    seconds, _ = cost(program, "cycle 32 64 16 0", 2_000_000, runs)
    print(f"closes_cycle over 31 waits: {seconds / 2_000_000 * 1e9:.0f} ns", flush=True)
    for pages in (64, 4096):
        for changed, times in ((1, 200_000), (16, 30_000), (64, 2_000)):
            seconds, _ = cost(program, f"batch 2 {pages} 4096 {changed}", times, runs)
            took = seconds / times * 1e9
            print(f"batch of {changed} pages of {pages}: {took:.0f} ns", flush=True)


def main(words):
    runs = int((words or ["5"])[0])
    with building.a_room() as room:
        program = building.program("server_speed", LIBRARIES, [], room)
        for part in (exchanges, transactions, others):
            part(program, runs)
    return 0
