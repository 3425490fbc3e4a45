"""A run of two clients, each growth and each thread refused in turn: `check refused run`."""
import subprocess
from collections import Counter

import building
from checks.refusing import Refusing, several

TEST = "running::wanting::ends_well_or_for_want_of_memory"
# What is printed of how it ended.
ENDED = "ended: "
# So many growths may end in another way until the rest isn't looked at.
MOST = 20


def played(programs, **refused):
    """How the run ended where that is refused; None where the test failed, or didn't end."""
    try:
        came = programs.run(TEST, **refused)
    except subprocess.TimeoutExpired:
        return None, 0
    lines = [*came.output.splitlines(), *came.said]
    ended = [line.partition(ENDED)[2] for line in lines if ENDED in line]
    return ended[0] if ended and came.status == 0 else None, came.growths


def refused_threads(programs):
    """Refuses each of the two threads; what ended in another way than by want of memory."""
    ends = {thread: played(programs, REFUSED_THREAD=thread)[0] for thread in ("1", "2")}
    return [f"thread {thread}: {end}" for thread, end in ends.items() if end != "memory"]


def refused_growths(programs, growths):
    """Refuses each growth; what ended in another way. Once some did, the rest isn't looked at: of
    a run that doesn't end each would take its whole time."""
    counts, bad = Counter(), []
    # (How many growths there are differs a little from run to run.)
    runs = range(1, growths + 1)

    def refused(growth):
        return "left" if len(bad) >= MOST else played(programs, refused=growth)[0]

    with several() as pool:
        for growth, ended in zip(runs, pool.map(refused, runs)):
            counts[ended] += 1
            if ended is None:
                bad.append(f"growth {growth}")
    print(f"growths {growths}:", ", ".join(f"{counts[it]} {it}" for it in counts))
    return bad


def refused_in_turn(programs):
    """Refuses each of the two threads and, if that goes well, each growth; the status."""
    ended, growths = played(programs)
    bad = [] if ended == "done" else ["a run of which nothing is refused"]
    bad = bad or refused_threads(programs) or refused_growths(programs, growths)
    for it in bad:
        print(f"ended in another way: {it}")
    return int(bool(bad))


def main(_words):
    tests = building.TOP / "crates/cb_tests/out/cb_tests_tests"
    test = building.named("PROGRAM") or building.built(tests, "")
    with building.a_room() as room:
        return refused_in_turn(Refusing(test, room))
