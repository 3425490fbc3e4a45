"""Wrong bodies that a run refuses: it is done over a copy with the body, and has to fail."""
import os
import re
from pathlib import Path

import building
import unproved
from bodies.edits import Edit
from bodies.prover import Prover, Said, ran
from bodies.trials import Came
from building import RT, TOP

# What the words of scripts/check run, where that isn't cb_play: a crate's tests.
TESTS = {"refused run": "cb_tests"}
# How long a test may take, that isn't to fail for a busy machine.
SECONDS = "300"


def copy_with(edit: Edit, crate: str, names: list[str], room: Path) -> Path:
    """A copy of crates and those below, with the edit."""
    top = building.copy_of([crate, *names], room / "copy", "out", "must-fail")
    for file, text in (edit.changed(TOP / "crates" / crate) or {}).items():
        (top / "crates" / crate / file).write_text(text)
    return top


def test_run(top: Path, name: str, test: str) -> tuple[Said, str]:
    """One test of a crate, unproved, and the line by which it fails."""
    words = [*RT, "try", name, "--test", "--seconds", SECONDS, "--", test]
    said = ran(words, top / "crates" / name)
    told = re.search(rf"^test {re.escape(test)} \.\.\. (.*)$", said.log, re.M)
    if "run=none" in said.log or not told:
        raise building.NotBuilt(f"{said.log}\n{name} has run no test {test}")
    return said, "" if told[1] in ("ok", "ignored") else told[0]


def stored_run(top: Path) -> tuple[Said, str]:
    """The stored run of cb_play, unproved, and how it differs."""
    crate = top / "crates/cb_play"
    args = (crate / "args").read_text().splitlines()
    data = [f"--data={it.name}={it}" for it in sorted((crate / "data").iterdir())]
    words = [*RT, "try", "cb_play", *(word for it in data for word in it.split("=", 1))]
    with (crate / "stdin").open() as given:
        said = ran([*words, "--", *args], crate, stdin=given)
    status = int((crate / "status").read_text()) if (crate / "status").exists() else 0
    if said.status != status:
        return said, f"status {said.status} in place of {status}"
    return said, "" if said.output == (crate / "stdout").read_text() else "another output"


def built_with(name: str, top: Path) -> Path:
    """The program of a crate, or its tests, of a copy with an edit, compiled without proofs."""
    made = top / f"{name}_made"
    if name in TESTS.values():
        unproved.made_tests(name, made, top / "room", top)
    else:
        unproved.made_plain(name, made, top / "room", "--version", top=top)
    return made


def word_run(program: Path, words: list[str]) -> tuple[Said, str]:
    """A word of scripts/check over a program, and the last line that it says as it fails."""
    with_it = {**os.environ, "PROGRAM": str(program)}
    said = ran([TOP / "scripts/check", *words], TOP, env=with_it)
    if said.status == 2:
        raise building.NotBuilt(said.log)
    return said, (said.output.strip().splitlines() or ["it fails"])[-1] if said.status else ""


def run_of(crate: str, edit: Edit, room: Path) -> tuple[Said, str]:
    """The run that an edit names, over a copy with it, and how it fails."""
    kind, words = edit.runs()[0]
    if kind == "test":
        return test_run(copy_with(edit, crate, words[:1], room), *words)
    if words == ["run"]:
        return stored_run(copy_with(edit, crate, ["cb_play"], room))
    name = TESTS.get(" ".join(words), "cb_play")
    top = copy_with(edit, crate, [name], room)
    return word_run(built_with(name, top), words)


def try_runs(_prover: Prover, crate: str, edits: list[Edit]) -> Came:
    """Does the run that each edit names, and says how each fails."""
    came = Came()
    for edit in edits:
        if fault := edit.fault(TOP / "crates" / crate):
            came.bad[edit] = fault
            continue
        with building.a_room() as room:
            try:
                said, how = run_of(crate, edit, room)
                came.add(said)
            except building.NotBuilt as why:
                came.bad[edit] = str(why)[-300:]
                continue
        if how:
            came.refused[edit] = f"by its run: {how}"
        else:
            came.proved.append(edit)
    return came
