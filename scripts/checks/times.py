"""Runs the whole gate, and says what each part of it takes.

    scripts/check times [--kept] [FOLDER]   a gate in a new clone; its programs are in FOLDER/crates
    scripts/check times --of LOG            an earlier run of these sources, whose calls LOG has

It runs `rt ci --anew` in a fresh clone of this repository, and notes the processor seconds of each
call of the prover (scripts/noted.py), in FOLDER.calls. With --kept it is `rt ci`, which takes over
what this machine kept. A kit without that flag takes over nothing, so there both are `rt ci`.
Crates that were taken over, or that a run which was cut off didn't come to, are named, since no sum
has them.

Of each crate: its proof, its tests with theirs, the check that its first edit begins with, the
other edits (their sum, their number and the dearest), the check without an edit at their end, and a
program's check with its two builds; then their sum as a multiple of the proof of cb_protocol in the
same run, so that one machine's slow hour is no change, and the processor minutes that a thousand
lines of its source take. The kit's rule is 4 to 6 of them; a crate that takes more than three times
as much is marked. The last lines are the sums in processor minutes and as such multiples. Where
cb_protocol was taken over, it is proved once over what the run built; where what stands below it
isn't built either, no multiple is said.

It takes as long as the gate does (docs/DECISIONS.md); --of takes a second. KIT names the toolchain
if it isn't that of the command `rt`. The status is the gate's, and 0 with --of; it is 2 where the
gate proved nothing, or a log has no call.
"""
import json
import os
import shutil
import subprocess
import sys
import tempfile
from collections import Counter, defaultdict
from pathlib import Path

import building
from bodies import trials
from bodies.prover import Prover
from building import TOP

PEER, PARTS = "cb_protocol", ("proof", "tests", "first", "edits", "last", "program")
# What a kit that takes over earlier proofs begins from nothing by.
ANEW = "--anew"
# Processor minutes of a thousand lines that are three times the kit's rule.
DEAR = 18


def parts_of(calls: list[list]) -> dict[str, Counter]:
    """The seconds of each part, by crate; of edits their number and the dearest's too."""
    found, edits = defaultdict(Counter), defaultdict(list)
    for name, part, seconds, *_ in calls:
        is_program = (TOP / f"crates/{name}/src/main.rt").exists()
        kind = "tests" if part == "tests" else "program" if is_program else "proof"
        if part == "edit":
            edits[name].append(seconds)
        elif name:
            found[name][kind] += seconds
    for name, (first, *others) in edits.items():
        last = others.pop() if others else 0
        found[name].update(first=first, edits=sum(others), last=last)
        found[name].update(number=len(others), dearest=max(others, default=0))
    return found


def peer_of(calls: list[list], below: Path | None) -> float:
    """The seconds of the proof of cb_protocol: the first one of the run, else one that is made now
    over what it built; 0 where there is neither."""
    for name, part, seconds, *_ in calls:
        if name == PEER and part in ("build", "check"):
            return seconds
    if not below:
        return 0
    prover = Prover(building.toolchain(), below)
    try:
        words = prover.words(PEER)
    except building.NotBuilt:
        return 0
    with building.a_room() as room:
        return prover.check(trials.copied(PEER, room), words).seconds


def lines_of(name: str) -> int:
    """The lines of a crate's source."""
    files = (TOP / "crates" / name / "src").rglob("*.rt")
    return sum(it.read_text().count("\n") for it in files)


def row(name: str, of: Counter, peer: float) -> str:
    """A crate's line of the table."""
    seconds = sum(of[it] for it in PARTS)
    minutes = seconds / 60 / max(lines_of(name) / 1000, 0.001)
    cells = "".join(f"{of[it]:7.0f}" for it in ("proof", "tests", "first", "edits"))
    cells += f"{of['number']:4}{of['dearest']:6.0f}{of['last']:6.0f}{of['program']:9.0f}"
    cells += f"{seconds / peer:7.1f}" if peer else f"{'':7}"
    return f"{name:18}{cells}{minutes:8.1f}{' *' if minutes > DEAR else ''}"


def table(calls: list[list], below: Path | None) -> None:
    """Prints the table, the sums and what was taken over."""
    found, peer, sums = parts_of(calls), peer_of(calls, below), Counter()
    print(f"{'crate':18}{'proof':>7}{'tests':>7}{'first':>7}{'edits':>7}{'of':>4}", end="")
    print(f"{'most':>6}{'last':>6}{'program':>9}{'times':>7}{'a 1000':>8}")
    for name in sorted(found, key=lambda it: -sum(found[it][part] for part in PARTS)):
        print(row(name, found[name], peer))
        sums.update({part: found[name][part] for part in PARTS})
    told = ", ".join(f"{part} {seconds / 60:.1f}" for part, seconds in sums.items())
    print(f"{told} processor minutes")
    ends = [start + clock for *_, clock, start in calls]
    clock = (max(ends) - min(start for *_, start in calls)) / 60 if calls else 0
    whole = sum(sums.values())
    print(f"all {whole / 60:.0f} processor minutes in {clock:.0f} of the clock", end="")
    print(f": {whole / peer:.1f} times the {peer:.0f} s of {PEER}" if peer else "")
    lost = [it for it in building.listed() if not found[it]["proof"] + found[it]["program"]]
    names = ", ".join(lost)
    print(f"not proved in this run, and in no sum: {names}" if lost else "all were proved")


def gate(rt: Path, is_anew: bool) -> list[str | Path]:
    """The words of the gate: with the flag against what was kept, if the kit has it."""
    return [rt, "ci", *([ANEW] if is_anew and ANEW in rt.read_text() else [])]


def run_of(clone: Path, log: Path, is_anew: bool) -> int:
    """Runs the gate in a new clone, with its calls noted; its status."""
    kit = os.environ.get("KIT")
    rt = Path(f"{kit}/bin/rt" if kit else shutil.which("rt") or "rt").resolve()
    if not rt.exists():
        raise building.NotBuilt(f"there is no program {rt}")
    subprocess.run(["git", "clone", "-q", TOP, clone], check=True)
    words = [sys.executable, TOP / "scripts/noted.py", log, *gate(rt, is_anew)]
    return subprocess.run(words, cwd=clone, check=False).returncode


def read(log: Path) -> list[list]:
    """The calls that a log has, of which one at least is a crate's."""
    lines = log.read_text().splitlines() if log.exists() else []
    calls = [json.loads(line) for line in lines]
    if not any(name for name, *_ in calls):
        raise building.NotBuilt(f"no crate was proved: {log} has no call of the prover")
    return calls


def main(words: list[str]) -> int:
    if words[:1] == ["--of"] and len(words) == 2:
        table(read(Path(words[1])), building.named("BELOW"))
        return 0
    folders = [it for it in words if it != "--kept"]
    if len(folders) > 1 or any(it.startswith("-") for it in folders):
        raise building.WrongWords("scripts/check times ([--kept] [FOLDER] | --of LOG)")
    clone = Path(folders[0] if folders else f"{tempfile.mkdtemp(prefix='gate-times-')}/clone")
    log = clone.with_name(f"{clone.name}.calls")
    status = run_of(clone, log.absolute(), "--kept" not in words)
    table(read(log), clone)
    print(f"clone {clone}, the gate's status {status}")
    return status
