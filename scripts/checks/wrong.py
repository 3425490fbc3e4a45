"""Tries wrong bodies, each of which the prover or a test has to refuse, and says what refuses each.

    scripts/check wrong --all [CRATE..]  all those of these crates, else of every crate
    scripts/check wrong CRATE [WORD]     those of a crate whose names have the word in them
    scripts/check wrong --list [CRATE]   how many there are, and whether each is written as it must
                                         be and its texts stand in the tree; it proves nothing

scripts/wrong_bodies/CRATE.edits has a crate's wrong bodies; how they are written is said in
scripts/bodies/edits.py. Those that the prover has to refuse are tried over built libraries: BELOW
names the clone in which `rt ci` ran over the same sources (this one, if it isn't set). A function's
wrong bodies stand in one check of its crate as functions of other names; what else they call is
taken as stated. What such a check doesn't refuse is tried in its own place, and what still isn't is
tried alone, with the whole crate proved. Changes of definitions are tried alone from the start.
Of a body marked `tested` the run that it names has to fail: a test (`rt try --test`), or a word of
scripts/check, over a program that is compiled with the body. Neither is proved.

A line for each says what refuses it: the function and its first open goal, or the run that fails.
The last lines are a table by crate, with processor minutes, and the survivors; the status is 1 if
there are any, and 2 where a library isn't built. By what single crates took, all want 400 to 600
processor minutes. As many checks run at a time as there are processors and 3 GB of free memory for
each; `--jobs N` says how many.
"""
import time
from collections import Counter

import building
from bodies import edits as written
from bodies import pool
from bodies.edits import Edit
from bodies.prover import Prover
from building import TOP

USAGE = "scripts/check wrong (--all [CRATE..] | CRATE [WORD] | --list [CRATE])"


def try_bodies(wanted: dict[str, list[Edit]], most: int) -> int:
    """Tries bodies by crate; the status."""
    start = time.time()
    prover = Prover(building.toolchain(), building.named("BELOW") or TOP)
    tallies = pool.try_all(prover, wanted, most)
    pool.table(tallies, start)
    return 1 if any(it.wrong for it in tallies.values()) else 0


def list_all(names: list[str]) -> int:
    """Says how many edits the crates have, and which are not as they must be; the status."""
    counts = Counter()
    for name in names:
        edits = written.listed(name)
        tested_ones = sum(it.is_tested for it in edits)
        counts.update(proved=len(edits) - tested_ones, tested=tested_ones)
        print(f"{name}: {len(edits) - tested_ones}", end="")
        print(f" and {tested_ones} tested" if tested_ones else "")
        faults = written.faults(name)
        counts["wrong"] += len(faults)
        print("".join(f"  {it}\n" for it in faults), end="")
    print(f"{counts['proved']} wrong bodies and {counts['tested']} tested, {counts['wrong']} wrong")
    return 1 if counts["wrong"] or not counts["proved"] + counts["tested"] else 0


def jobs_in(words: list[str]) -> int:
    """How many checks at a time the words ask for, which are taken off; else as many as may be."""
    if "--jobs" not in words[:-1]:
        return pool.at_a_time()
    at = words.index("--jobs")
    _, number = words[at : at + 2]
    del words[at : at + 2]
    return max(int(number), 1) if number.isdecimal() else pool.at_a_time()


def wanted_by(what: str, rest: list[str]) -> dict[str, list[Edit]]:
    """The bodies that the words ask for, by crate; nothing where the words are wrong."""
    known = written.crates()
    if what == "--all":
        return {it: written.listed(it) for it in rest or known} if {*rest} <= {*known} else {}
    if what not in known or len(rest) > 1:
        return {}
    found = [it for it in written.listed(what) if (rest or [""])[0] in it.name]
    return {what: found} if found else {}


def main(words: list[str]) -> int:
    most = jobs_in(words)
    what, *rest = words or [""]
    if what == "--list" and len(rest) < 2 and {*rest} <= {*written.crates()}:
        return list_all(rest or written.crates())
    if wanted := wanted_by(what, rest):
        return try_bodies(wanted, most)
    raise building.WrongWords(USAGE)
