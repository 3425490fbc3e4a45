"""Does each of the other words once, and says which passed.

    scripts/check all [--jobs N] [WORD..]     those alone, in the same order

It is done over a clone in which `rt ci` ran over these sources: the one that BELOW names, else a
new one, in which `times` runs the gate first. What that clone has is shared: programs and tests are
taken from there, the others are built over its libraries, which proves nothing below them, and so
is the library for other languages, once. CALLS names the log of the run in BELOW, whose times are
said then; without one `times` is left out.

As many runs go side by side as there are processors, or N. Those that measure, and the wrong
bodies, which take all processors, come behind the others, each alone. What a run says comes once
it ends, below a line with its words. The last lines are a table: of each word how many runs passed
and failed, and how many minutes of the clock they took. It takes two to three hours over such a
clone, and the gate's time more without one. The status is 1 if a run failed.
"""
import os
import shutil
import subprocess
import threading
import time
from collections import defaultdict
from collections.abc import Callable, Iterable, Iterator
from concurrent.futures import ThreadPoolExecutor, as_completed
from dataclasses import dataclass
from pathlib import Path

import building
from building import TOP
from words import WORDS

CHECK = TOP / "scripts/check"
# Drawn lists of one side, which have what an independent program answers.
LISTS = sorted(str(it) for it in (TOP / "crates/cb_play/data").glob("*_pages*.list"))
ARCHIVE = TOP / "crates/rughvadi/out/librughvadi.a"
# What stands for the clone in the words of a run.
CLONE = "CLONE"
Runs = list[tuple[str, list[str]]]
# The runs of each word, in order: side by side, and then one after another.
RUNS: Runs = [
    ("docs", []), ("model", []), ("wrong", ["--list"]),
    ("faults", []), ("sides", LISTS), ("schedules", []), ("schedules", ["lives"]), ("limits", []),
    ("refused", ["calls"]), ("refused", ["plays"]), ("refused", ["run"]), ("refused", ["growths"]),
    ("library", ["--built"]), ("serve", ["--built"]), ("storm", ["--built"]),
    ("takeover", ["--built"]), ("lives", ["--built"]),
    ("files", []), ("refused", ["shelf"]), ("refused", ["station"]), ("killed", []), ("lent", []),
    ("readme", ["--built", CLONE]),
]
ALONE: Runs = [
    ("load", ["2"]), ("memory", []), ("memory", ["run", "10000", "100000"]), ("wrong", ["--all"]),
]
# What PROGRAM names for a run: what the gate left in the clone's crates, or SHELF.
PLAY, TESTS = "cb_play/out/cb_play", "cb_tests/out/cb_tests_tests"
LAYER_TESTS, SHELF = "cb_layer_tests/out/cb_layer_tests_tests", "shelf_files"
SHELF_TESTS = "cb_shelf_tests/out/cb_shelf_tests_tests"
PROGRAMS = dict.fromkeys(["faults", "sides", "schedules", "limits", "refused calls"], [PLAY])
PROGRAMS |= {"refused plays": [PLAY], "refused run": [TESTS], "refused growths": [LAYER_TESTS]}
PROGRAMS |= {"load": [LAYER_TESTS, SHELF_TESTS, TESTS], "files": [SHELF], "refused shelf": [SHELF]}
LOCKS: dict[Path, threading.Lock] = {}


@dataclass(frozen=True)
class Ended:
    """A run that ended: its words, whether all was right, what it said and how long it took."""

    words: list[str]
    is_well: bool
    said: str
    minutes: float


def gate(calls: str | None, below: Path | None, room: Path) -> tuple[Path, Runs]:
    """The clone that all is done over, and the run of `times` that comes first, if one does."""
    if below:
        return below, [("times", ["--of", calls])] if calls else []
    return room / "clone", [("times", [CLONE])]


def asked(runs: Runs, below: Path, wanted: list[str]) -> list[list[str]]:
    """The words of those of these runs that are wanted."""
    there = {CLONE: str(below)}
    return [[word, *(there.get(it, it) for it in more)] for word, more in runs if word in wanted]


def standing(made: Path, build: Callable[[Path], Path]) -> Path:
    """A file that several runs take: the first of them builds it, while the others wait."""
    with LOCKS.setdefault(made, threading.Lock()), building.a_room() as room:
        if not made.exists() and (built := build(room)) != made:
            shutil.copy(built, made)
    return made


def program_in(below: Path, room: Path, named: str) -> Path:
    """A program, or tests, that the gate left in the clone; that of shelves is built over it."""
    if named == SHELF:
        return standing(room / SHELF, building.shelf_files)
    return building.built(below / "crates" / named, f"the gate left none in {below}")


def environment(below: Path, room: Path, words: list[str]) -> dict[str, str]:
    """What a run is done with, and takes from the clone."""
    found = dict(os.environ)
    if "--built" in words:
        found["ARCHIVE"] = str(standing(ARCHIVE, building.library))
    if words[0] in ("killed", "serve", "storm", "lives"):
        found["PLAY"] = str(program_in(below, room, PLAY))
    named = PROGRAMS.get(" ".join(words[:2]), PROGRAMS.get(words[0], []))
    programs = os.pathsep.join(str(program_in(below, room, it)) for it in named)
    return {**found, "PROGRAM": programs} if programs else found


def one_run(below: Path, room: Path, words: list[str]) -> Ended:
    """Does a run to its end."""
    both = {"stdout": subprocess.PIPE, "stderr": subprocess.STDOUT, "stdin": subprocess.DEVNULL}
    start = time.time()
    try:
        env = environment(below, room, words)
        done = subprocess.run([CHECK, *words], **both, env=env, check=False)
        is_well, said = done.returncode == 0, done.stdout.decode(errors="replace")
    except (building.NotBuilt, OSError, subprocess.SubprocessError) as why:
        is_well, said = False, f"{why}\n"
    return Ended(words, is_well, said, (time.time() - start) / 60)


def side_by_side(
    below: Path, room: Path, runs: Iterable[list[str]], most: int
) -> Iterator[Ended]:
    """Does so many runs at a time; each as it ends."""
    with ThreadPoolExecutor(most) as pool:
        for done in as_completed([pool.submit(one_run, below, room, words) for words in runs]):
            yield done.result()


def told(ended: Ended) -> None:
    """Prints what a run said, below its words."""
    print(f"== {' '.join(ended.words)[:100]}\n{ended.said}", end="", flush=True)


def table(came: dict[str, list[Ended]]) -> None:
    """Prints how many runs of each word passed and failed, and their minutes."""
    print(f"{'word':12}{'passed':>7}{'failed':>7}{'minutes':>9}")
    for word, runs in came.items():
        passed = sum(it.is_well for it in runs)
        minutes = sum(it.minutes for it in runs)
        print(f"{word:12}{passed:7}{len(runs) - passed:7}{minutes:9.1f}")


def parsed(words: list[str]) -> tuple[int, list[str]]:
    """How many runs there are at a time, and the words that are asked for."""
    most, known = os.cpu_count() or 1, [*WORDS["check"]]
    if words[:1] == ["--jobs"] and words[1:2] and words[1].isdecimal():
        most, words = max(int(words[1]), 1), words[2:]
    known.remove("all")
    if not {*words} <= {*known}:
        raise building.WrongWords(f"scripts/check all [--jobs N] [WORD..]: {' '.join(known)}")
    return most, words or known


def main(words: list[str]) -> int:
    most, wanted = parsed(words)
    if lost := {*WORDS["check"]} - {word for word, _ in RUNS + ALONE} - {"all", "times"}:
        raise building.WrongWords(f"scripts/check all has no run of {' '.join(sorted(lost))}")
    came: dict[str, list[Ended]] = defaultdict(list)
    with building.a_room() as room:
        below, first = gate(os.environ.get("CALLS"), building.named("BELOW"), room)
        os.environ["BELOW"] = str(below)
        for runs, at_a_time in ((first, 1), (RUNS, most), (ALONE, 1)):
            for ended in side_by_side(below, room, asked(runs, below, wanted), at_a_time):
                told(ended)
                came[ended.words[0]].append(ended)
    table({word: came[word] for word in WORDS["check"] if word in came})
    return 0 if all(it.is_well for runs in came.values() for it in runs) else 1
