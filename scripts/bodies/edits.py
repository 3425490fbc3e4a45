"""Wrong bodies as they are written: scripts/wrong_bodies/CRATE.edits, an edit after another.

An edit begins with `name: NAME` where the prover has to refuse it, and with `tested: NAME` where a
run has to. A tested one has one line that says which: `test: CRATE TEST` is a test of a crate, and
`check: WORD ..` are words of scripts/check, or `check: run`, the stored run of crates/cb_play. Then
come lines `file: PATH` (from the crate's folder) and pairs of lines `old: TEXT` and `new: TEXT`,
each old text of which stands in its file exactly once.
"""
from dataclasses import dataclass, field
from pathlib import Path

from building import TOP

FOLDER = TOP / "scripts/wrong_bodies"
KINDS = ("name", "tested")
RUNS = ("test", "check")


def is_test(words: list[str]) -> bool:
    """Whether they are a crate and one of its tests: the path of a module, and a function."""
    if len(words) != 2:
        return False
    *modules, function = words[1].split("::")
    source = TOP.joinpath("crates", words[0], "src", *modules).with_suffix(".rt")
    return source.exists() and f"#[test]\nfn {function}(" in source.read_text()


@dataclass(eq=False)
class Edit:
    """Pairs of texts, each of a file; a tested one has the run that has to fail too."""

    name: str
    is_tested: bool
    lines: list[str] = field(default_factory=list)

    def pairs(self) -> list[tuple[str, str, str]]:
        """The file, the text that stands there and the text in its place, of each pair in order."""
        found, file, old = [], "", ""
        for line in self.lines:
            key, _, text = line.partition(":")
            text = text.removeprefix(" ")
            if key == "file":
                file = text.strip()
            elif key == "old":
                old = text
            elif key == "new":
                found.append((file, old, text))
        return found

    def files(self) -> set[str]:
        """The files that it changes."""
        return {file for file, _, _ in self.pairs()}

    def runs(self) -> list[tuple[str, list[str]]]:
        """The runs that it names: `test` or `check`, each with its words."""
        found = [line.partition(": ") for line in self.lines]
        return [(key, text.split()) for key, _, text in found if key in RUNS]

    def changed(self, crate: Path) -> dict[str, str] | None:
        """The files' texts with the edit; None where an old text doesn't stand there once."""
        sources: dict[str, str] = {}
        for file, old, new in self.pairs():
            path = crate / file
            source = sources.get(file) or (path.read_text() if path.exists() else "")
            if source.count(old) != 1:
                return None
            sources[file] = source.replace(old, new)
        return sources or None

    def fault(self, crate: Path) -> str:
        """What is wrong with how it is written, or nothing."""
        olds = sum(line.startswith("old:") for line in self.lines)
        if len(self.pairs()) != olds or self.changed(crate) is None:
            return "a text doesn't stand there once"
        runs = self.runs()
        if self.is_tested and len(runs) != 1:
            return "it is tested, and has not one line `test:` or `check:`"
        if not self.is_tested and runs:
            return "the prover refuses it, and it has a line `test:` or `check:`"
        if runs and runs[0][0] == "test" and not is_test(runs[0][1]):
            return "`test:` has a crate and a test that stands there"
        return ""


def edits_of(path: Path) -> list[Edit]:
    """The edits of a file, in order."""
    found: list[Edit] = []
    for line in path.read_text().splitlines():
        key, _, text = line.partition(": ")
        if key in KINDS:
            found.append(Edit(text, key == "tested"))
        elif line:
            found[-1].lines.append(line)
    return found


def listed(name: str) -> list[Edit]:
    """The edits of a crate."""
    return edits_of(FOLDER / f"{name}.edits")


def in_gate(name: str) -> list[Edit]:
    """The edits of a crate that the gate tries."""
    paths = sorted((TOP / "crates" / name).glob("must-fail/*.edit"))
    return [Edit(path.stem, False, path.read_text().splitlines()) for path in paths]


def faults(name: str) -> list[str]:
    """What is wrong with a crate's edits, both kinds of them: with how one is written; and that a
    name, or what is changed, stands there twice."""
    wrong, names, changes = [], set(), {}
    for it in [*in_gate(name), *(listed(name) if name in crates() else [])]:
        if (it.name, it.is_tested) in names:
            wrong.append(f"{it.name}: its name stands there twice")
        names.add((it.name, it.is_tested))
        if fault := it.fault(TOP / "crates" / name):
            wrong.append(f"{it.name}: {fault}")
        elif (other := changes.setdefault(str(it.pairs()), it)) is not it:
            wrong.append(f"{it.name}: it changes what {other.name} changes")
    return wrong


def crates() -> list[str]:
    """The crates that have edits."""
    return sorted(path.stem for path in FOLDER.glob("*.edits"))
