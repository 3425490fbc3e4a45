"""Tries of wrong bodies, each over a copy of a crate: many in one check, or one alone.

Three ways, from the cheapest: as functions of other names beside the right ones (bodies/copies.py);
in their own places, all of a group in different functions, where the other functions are taken as
stated; and alone, with the whole crate proved. Only the last one can say that a body is proved.
"""
import shutil
from collections.abc import Iterable
from dataclasses import dataclass, field
from pathlib import Path

import building
from bodies import copies
from bodies.edits import Edit
from bodies.prover import COMPILES, NAMES, OPEN, Place, Prover, Said, errors_of, goal_of, is_own
from bodies.sources import function_of, functions_of
from building import TOP

PARTS = ("src", "specs", "proofs")


@dataclass
class Came:
    """What came of a try: the goal that refuses each body, the texts that the prover can't read or
    that it proves, the bodies to be tried in another way, and the processor seconds."""

    refused: dict[Edit, str] = field(default_factory=dict)
    proved: list[Edit] = field(default_factory=list)
    bad: dict[Edit, str] = field(default_factory=dict)
    left: list[Edit] = field(default_factory=list)
    seconds: float = 0
    checks: int = 0

    def add(self, said: Said) -> None:
        """Counts a check."""
        self.seconds += said.seconds
        self.checks += 1


def copied(name: str, room: Path) -> Path:
    """A crate's texts, in a folder of its name."""
    crate = room / name
    for part in PARTS:
        kept = TOP / "crates" / name / part
        if kept.is_dir():
            shutil.copytree(kept, crate / part)
    return crate


def only(paths: Iterable[str]) -> list[str]:
    """The words that ask for these functions alone."""
    return [word for path in paths for word in ("--only", path)]


def try_as_copies(prover: Prover, name: str, edits: list[Edit]) -> Came:
    """Tries bodies under other names, in one check."""
    kept, came = TOP / "crates" / name, Came()
    made = [copies.copy_of(kept, edit, number) for number, edit in enumerate(edits)]
    tried = [it for it in made if it]
    came.left = [edit for edit, it in zip(edits, made) if not it]
    while tried:
        with building.a_room() as room:
            crate = copied(name, room)
            copies.write(crate, kept, tried)
            paths = {it.path(): it for it in tried}
            words = [*prover.words(name), "--allow-holes", *only(paths)]
            said = prover.check(crate, words, set(paths))
            came.add(said)
            wrong = faulty(crate, said, tried)
            goals = {it: goal_of(said.log, it.path(), place_of(crate, it)) for it in tried}
        if said.is_verdict() or not wrong:
            break
        came.bad.update({it.edit: error for it, error in wrong.items()})
        tried = [it for it in tried if it not in wrong]
    for it in tried:
        if goal := goals[it]:
            came.refused[it.edit] = f"{it.path()} {goal}"
        else:
            came.left.append(it.edit)
    return came


def place_of(crate: Path, copy: copies.Copy) -> Place | None:
    """Where a wrong body's function stands."""
    for it in functions_of(crate.name, copy.file, (crate / copy.file).read_text()):
        if it.name == copy.name:
            return copy.file, range(it.first + 1, it.last + 2)
    return None


def faulty(crate: Path, said: Said, tried: list[copies.Copy]) -> dict[copies.Copy, str]:
    """The functions in whose texts a check that didn't reach the prover found errors, with the
    first error of each."""
    found = {}
    for file, line, error in COMPILES.findall(said.log):
        text = (crate / file).read_text()
        place = sum(map(len, text.splitlines(keepends=True)[: int(line) - 1]))
        of = function_of(crate.name, file, text, [place])
        for it in tried:
            if of and it.name == of.name:
                found.setdefault(it, error)
    return found


def try_in_place(prover: Prover, name: str, group: list[Edit]) -> Came:
    """Tries bodies of different functions in their own places, in one check; the functions that
    have none are taken as stated."""
    kept, came = TOP / "crates" / name, Came()
    found = {edit: edited(kept, edit) for edit in group}
    paths = {"::".join(it.path) for it in found.values() if it and it.path}
    with building.a_room() as room:
        crate = copied(name, room)
        copies.take_as_stated(crate, paths)
        for edit in group:
            for file, text in (edit.changed(crate) or {}).items():
                (crate / file).write_text(text)
        are_named = all(it and it.path for it in found.values())
        flags = ["--allow-holes", *only(paths if are_named else [])]
        said = prover.check(crate, [*prover.words(name), *flags], paths if are_named else set())
    came.add(said)
    for edit, of in found.items():
        line = told_of(said, of)
        goal = goal_of(said.log, "::".join(of.path)) if of and of.path else line
        if goal and is_own(line):
            came.refused[edit] = f"{of.name} {goal}"
        else:
            came.left.append(edit)
    return came


def edited(crate: Path, edit: Edit):
    """The function that an edit of one file of src/ changes, or none."""
    files = sorted(edit.files())
    text = (crate / files[0]).read_text() if files[0].startswith("src/") else ""
    places = [text.find(old) for _, old, _ in edit.pairs()]
    is_one = len(files) == 1 and min(places) >= 0
    return function_of(crate.name, files[0], text, places) if is_one else None


def told_of(said: Said, of) -> str:
    """What a check says of a function: by its path, else of one of its name that isn't proved."""
    lines = said.lines()
    if of and of.path:
        return lines.get("::".join(of.path), "")
    named = [it for path, it in lines.items() if of and path.rpartition("::")[2] == of.name]
    return next(filter(is_own, named), "")


def try_alone(prover: Prover, name: str, edits: list[Edit]) -> Came:
    """Tries bodies one by one, with all of the crate proved, over what one check of it as it is
    leaves. What the edits change of crates below is read as sources."""
    came, lines = Came(), building.listed()
    changed = {Path(file).parts[1] for edit in edits for file in edit.files() if file[0] == "."}
    above = [
        it for it in building.stands_on([name])
        if it != name and changed & set(building.stands_on([it]))
    ]
    with building.a_room() as room:
        crate, sources = copied(name, room), {it: copied(it, room) for it in above if it in lines}
        words = [*prover.words(name, sources), "--incremental"]
        if len(edits) > 1:
            came.add(prover.check(crate, [*words, str(room / "seed")]))
        for edit in edits:
            try_one(prover, crate, [*words, str(room / "kept")], edit, came)
    return came


def try_one(prover: Prover, crate: Path, words: list[str], edit: Edit, came: Came) -> None:
    """Tries one body in the crate's folder, and puts back what it changed."""
    seed, kept = crate.parent / "seed", crate.parent / "kept"
    shutil.rmtree(kept, ignore_errors=True)
    shutil.copytree(seed, kept, symlinks=True) if seed.is_dir() else kept.mkdir()
    texts = edit.changed(crate) or {}
    was = {file: (crate / file).read_text() for file in texts}
    for file, text in texts.items():
        (crate / file).write_text(text)
    said = prover.check(crate, words)
    came.add(said)
    for file, text in was.items():
        (crate / file).write_text(text)
    errors = [line for line in said.log.splitlines() if ": error" in line]
    if said.status == 0 and "logic=proved" in said.log:
        came.proved.append(edit)
    elif said.status == 1 and said.is_verdict():
        told_alone(said, edit, came)
    else:
        came.bad[edit] = (errors or said.log.strip().splitlines()[-1:] or ["nothing is said"])[0]


def told_alone(said: Said, edit: Edit, came: Came) -> None:
    """Notes what refuses a body that was tried alone: a goal. Names that proof files give to goals
    that it hasn't don't tell that it is wrong, nor do errors in a definition that it changes."""
    found = errors_of(said.log)
    changed = {it for it in edit.files() if it.startswith("specs/")}
    unread = [it for file, it in found if f"{file}.antt" in changed]
    goals = [f"{file}: {it}" for file, it in found if not NAMES.search(it)]
    goals += [f"{file}:{line} {goal}" for file, line, goal in OPEN.findall(said.log)]
    goals += [f"{path}: {it}" for path, it in said.lines().items() if "did not prove" in it]
    if unread:
        came.bad[edit] = f"its text isn't read: {unread[0]}"
    elif goals or not found:
        came.refused[edit] = f"alone, {(goals or ['it is not proved'])[0]}"
    else:
        came.bad[edit] = f"names of proof files alone refuse it: {found[0][1]}"
