"""All wrong bodies of some crates, tried side by side: as many checks at a time as may be."""
import os
import time
from collections import Counter, defaultdict
from collections.abc import Callable, Iterator
from concurrent.futures import FIRST_COMPLETED, Future, ThreadPoolExecutor, wait
from dataclasses import dataclass, field

from bodies import tested, trials
from bodies.edits import Edit
from bodies.prover import Prover
from building import TOP

# The bodies of one check, and what one takes of memory at most (seen: 1.8 GB).
MOST, MEMORY = 24, 3_000_000_000


@dataclass
class Tally:
    """What came of a crate's bodies, with the checks and the processor seconds that they took."""

    refused: int = 0
    wrong: list[str] = field(default_factory=list)
    checks: int = 0
    seconds: float = 0


@dataclass(frozen=True)
class Task:
    """A try of some bodies of a crate. Those that it leaves are tried in its next way."""

    way: Callable[[Prover, str, list[Edit]], trials.Came]
    crate: str
    edits: list[Edit]


def at_a_time() -> int:
    """How many checks run side by side: as many as there are processors and memory is free for."""
    free = os.sysconf("SC_AVPHYS_PAGES") * os.sysconf("SC_PAGE_SIZE")
    with open("/proc/meminfo") as file:
        told = dict(line.split(":") for line in file)
    free = int(told.get("MemAvailable", f"{free // 1024} kB").split()[0]) * 1024
    return max(1, min(len(os.sched_getaffinity(0)), free // MEMORY))


def groups(crate: str, edits: list[Edit]) -> Iterator[list[Edit]]:
    """Bodies in groups in which no two change one function, nor two of one name that are told
    apart by their names alone."""
    left = edits
    while left:
        taken, group = set(), []
        for edit in left:
            of = trials.edited(TOP / "crates" / crate, edit)
            key = of and (of.path or of.name)
            if key not in taken:
                taken.add(key)
                group.append(edit)
        yield group
        left = [it for it in left if it not in group]


def shared(edits: list[Edit]) -> Iterator[list[Edit]]:
    """Bodies in parts of about one size, none of more than MOST."""
    parts = -(-len(edits) // MOST)
    yield from (edits[at::parts] for at in range(parts))


def first_tasks(crate: str, edits: list[Edit]) -> Iterator[Task]:
    """The tasks that a crate's bodies begin with."""
    ways = defaultdict(list)
    yield from (Task(tested.try_runs, crate, [it]) for it in edits if it.is_tested)
    for edit in (it for it in edits if not it.is_tested):
        of = trials.edited(TOP / "crates" / crate, edit)
        ways["alone" if not of else "copy" if of.path else "place"].append(edit)
    for part in shared(ways["alone"]) if ways["alone"] else ():
        yield Task(trials.try_alone, crate, part)
    for part in shared(ways["copy"]) if ways["copy"] else ():
        yield Task(trials.try_as_copies, crate, part)
    for group in groups(crate, ways["place"]):
        yield Task(trials.try_in_place, crate, group)


def next_tasks(task: Task, left: list[Edit]) -> Iterator[Task]:
    """What follows for the bodies that a task leaves."""
    if task.way == trials.try_as_copies:
        yield from (Task(trials.try_in_place, task.crate, it) for it in groups(task.crate, left))
    elif left:
        yield Task(trials.try_alone, task.crate, left)


def told(task: Task, came: trials.Came, tally: Tally) -> None:
    """Prints what came of a task, and adds it to its crate's."""
    tally.checks += came.checks
    tally.seconds += came.seconds
    tally.refused += len(came.refused)
    for edit, goal in came.refused.items():
        print(f"{task.crate} {edit.name}: refused, {goal[:200]}", flush=True)
    wrong = {it: f"it doesn't reach the prover: {error[:200]}" for it, error in came.bad.items()}
    wrong |= {it: "its run passes" if it.is_tested else "it is PROVED" for it in came.proved}
    for edit, why in wrong.items():
        tally.wrong.append(f"{edit.name}: {why}")
        print(f"survivor: {task.crate} {edit.name}: {why}", flush=True)


def try_all(prover: Prover, wanted: dict[str, list[Edit]], most: int) -> dict[str, Tally]:
    """Tries bodies of crates; what came of each crate's."""
    tallies = {crate: Tally() for crate in wanted}
    tasks = [it for crate, edits in wanted.items() for it in first_tasks(crate, edits)]
    # The longest come first: what is proved whole each time, then the larger groups.
    tasks.sort(key=lambda it: (it.way == trials.try_as_copies, -len(it.edits)))
    with ThreadPoolExecutor(most) as pool:
        def begun(task: Task) -> Future:
            return pool.submit(task.way, prover, task.crate, task.edits)

        going = {begun(it): it for it in tasks}
        while going:
            for done in wait(going, return_when=FIRST_COMPLETED).done:
                task, came = going.pop(done), done.result()
                told(task, came, tallies[task.crate])
                going.update((begun(it), it) for it in next_tasks(task, came.left))
    return tallies


def table(tallies: dict[str, Tally], start: float) -> None:
    """Prints what each crate's bodies came to and took, and the sums."""
    print(f"{'crate':18}{'refused':>8}{'wrong':>6}{'checks':>7}{'minutes':>9}")
    sums = Counter()
    for crate, it in tallies.items():
        print(f"{crate:18}{it.refused:8}{len(it.wrong):6}{it.checks:7}{it.seconds / 60:9.1f}")
        sums.update(refused=it.refused, wrong=len(it.wrong), checks=it.checks, seconds=it.seconds)
    minutes, clock = sums["seconds"] / 60, (time.time() - start) / 60
    print(f"{sums['refused']} refused, {sums['wrong']} not, in {sums['checks']} checks:", end=" ")
    print(f"{minutes:.1f} processor minutes, {clock:.1f} of the clock")
    for crate, tally in tallies.items():
        for it in tally.wrong:
            print(f"survivor: {crate} {it}")
