"""Says how much memory a server and a run take that forget what is on disk.

    scripts/check memory [FEW [MANY]]        a server: 10,000 and 1,000,000 commits
    scripts/check memory run [FEW [MANY]]    a run: 30,000 and 3,000,000 jobs

A server alone commits a page of 4,096 bytes so many times, and forgets each commit once it is on
disk, in batches of 16; beside it stands one that forgets nothing. A run is one client that does so
many jobs over a store in a file of its own, as `cb_play run` does them; beside it stands one whose
results lie in their channel until the end. It prints the greatest resident memory of each in KB.

It needs a C compiler, and the program of scripts/programs/server_memory, or of run_memory, which is
built first unless PROGRAM names a built one. ROOM is the folder of the stores (the system's
temporary one if it isn't set): in memory, as /dev/shm, a run of 3,000,000 jobs takes some ten
minutes. The status is 1 where the memory after MANY is more than 1.1 times that after FEW.
"""
import statistics
import subprocess

import building

SERVER = ["cb_page", "cb_frame", "cb_commit", "cb_server", "cb_server_state", "anyhow"]
RUN = [
    "cb_page", "cb_twoq", "cb_station", "cb_shelf", "cb_worker", "cb_office", "sqlite",
    "crossbeam_channel", "anyhow",
]


class Measured:
    """A program, and the one that says how much memory a run of it had."""

    def __init__(self, program, room):
        self.words = [building.in_c("peak", room), program]

    def peak(self, *more):
        """The greatest resident memory of a run, in KB."""
        done = subprocess.run([*self.words, *more], capture_output=True, text=True, check=True)
        return int(done.stdout)


def of_server(room):
    """The greatest memory of a server after so many commits, or with what else is said. It is the
    median of nine runs: so little memory differs by a tenth, by what the system has cached."""
    program = building.program("server_memory", SERVER, ["1"], room)
    measured = Measured(program, room)

    def median(*more):
        return int(statistics.median(measured.peak(*more) for _ in range(9)))

    return median, ["10000", "1000000"], "commits"


def of_run(room):
    """The same of one run after so many jobs, over a new store each time."""
    first = [f"{room}/first.db", "1"]
    program = building.program("run_memory", RUN, first, room)
    measured = Measured(program, room)

    def run(*more):
        for each in room.glob("run.db*"):
            each.unlink()
        return measured.peak(f"{room}/run.db", *more)

    return run, ["30000", "3000000"], "jobs"


def main(words):
    with building.a_room() as room:
        is_run = words[:1] == ["run"]
        of, counts, name = of_run(room) if is_run else of_server(room)
        given = words[1:] if is_run else words
        few, many = (given + counts[len(given) :])[:2]
        small, great = of(few), of(many)
        print(f"{few} {name}: {small} KB; {many} {name}: {great} KB, {great / small:.3f} times")
        print(f"nothing forgotten, {few} {name}: {of(few, 'keep')} KB")
        return int(great > 1.1 * small)
