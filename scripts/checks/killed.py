"""Kills runs over a store in a file, and looks at what the file has then.

    scripts/check killed [KILLS [SEED]]    200 kills without a number

Runs of 1, 2, 4, 8 and 32 clients are ended by a kill at a drawn moment within their first second.
The store must then have the first commits of the run, as many as its number of the last commit
says, and at least as many as were answered as done: both counters and both pages' versions are that
number. `run` with no job opens the file after the kill and tells the sum of the counters; SQLite's
own library then reads the tables. A store is killed ten times, one run after another.

It needs two programs: `cb_play`, and the one of scripts/programs/killed_runs, which is `run` that
also writes a byte for each job answered as done. Both are built first, the second in a copy of the
crates, unless PLAY and TOLD name built ones. Once they are built, 200 kills take some minutes. The
status is 1 where a store isn't so.
"""

import os
import random
import re
import signal
import subprocess
import time

import building
from checks.trying import file_faults, numbers, ran, rows_of

CLIENTS = [1, 2, 4, 8, 32]


def config(room, clients, jobs):
    path = f"{room}/{clients}_{jobs}.toml"
    with open(path, "w") as it:
        it.write(f"clients = {clients}\npages = 2\npage_size = 16\nslots = 2\njobs = {jobs}\n")
    return path


def killed(told, settings, store, room, after):
    """Kills a run after so many seconds: whether it was running, and how many jobs were done."""
    with open(f"{room}/done", "wb") as out, open(f"{room}/err", "wb") as err:
        run = subprocess.Popen([told, settings, store], stdout=out, stderr=err)
        time.sleep(after)
        running = run.poll() is None
        run.send_signal(signal.SIGKILL)
        run.wait()
    return running, os.path.getsize(f"{room}/done")


def counted(play, settings, store):
    """What `run` with no job says of a store."""
    done = ran(play, "run", settings, store, text=True, timeout=60)
    told = re.fullmatch(r"committed 0\nsum (\d+)\n", done.stdout)
    return int(told[1]) if told and done.returncode == 0 else None


def held(store):
    """What is wrong with the file; the last commit's number, the pages' versions and counters."""
    ((number,),) = rows_of(store, "SELECT commits FROM mark2")
    versions = [it for (it,) in rows_of(store, "SELECT version FROM page2 ORDER BY no")]
    bodies = [it for (it,) in rows_of(store, "SELECT body FROM part ORDER BY no, place")]
    counters = [int.from_bytes(body[:8], "big") for body in bodies]
    return file_faults(store), number, versions, counters


def counted_kills(told, play, room, kills, seed):
    """Kills so many runs; 1 where a store was wrong."""
    drawn = random.Random(seed)
    bad = ended = 0
    before, answered = {}, 0
    for kill in range(kills):
        clients = CLIENTS[kill % len(CLIENTS)]
        store = f"{room}/{clients}_{kill // 50}.db"
        first = before.get(store, 0)
        after = drawn.uniform(0.0, 1.0)
        running, done = killed(told, config(room, clients, 100_000), store, room, after)
        ended += not running
        answered += done
        if not os.path.exists(store):
            continue
        total = counted(play, config(room, clients, 0), store)
        faults, number, versions, counters = held(store)
        before[store] = number
        found = faults, versions, counters, total
        right = found == ([], [number, number], [number, number], 2 * number)
        if not right or number < first + done:
            bad += 1
            failed = f"FAILED, {first} and {done} done before;"
            print(f"kill {kill}, {clients} clients: {failed}", number, *found)
    print(f"{kills} kills, {ended} of them after the run had ended,", end=" ")
    print(f"{answered} jobs answered as done, {bad} stores wrong")
    return 1 if bad else 0


def main(words):
    _, (kills, seed) = numbers(words, "killed [KILLS [SEED]]", 200, 1)
    with building.a_room() as room:
        told = building.named("TOLD") or building.killed_runs(room)
        return counted_kills(told, building.play("PLAY"), room, kills, seed)
