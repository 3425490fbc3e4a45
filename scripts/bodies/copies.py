"""A crate in which wrong bodies stand beside the right ones, as functions of other names.

Each wrong body becomes a function of its own: the edited text, with its attributes and its clauses,
under the name FUNCTION_wrong_N right behind the one that it changes, and with a copy of that one's
proof files. So one check tries any number of bodies, of one function too, and no caller of the
function is touched. What a body calls is the crate's own, whose theorems are taken as stated: each
other function of the crate gets a proof that is a hole (`rattle check --allow-holes`), since its
own proof is known. A function of a trait, of a trait's impl, of a cycle of calls or of a macro has
no such copy.
"""
import shutil
from collections import defaultdict
from collections.abc import Collection, Iterable
from dataclasses import dataclass
from pathlib import Path

from bodies.edits import Edit
from bodies.sources import Function, function_of, functions_of

HOLE = """use Rattle.{crate}.proofs.{path}.Statement.{{statement}}

pub {name}_spec : {{M : Type 1}} → statement M
{name}_spec = ?
"""


@dataclass(frozen=True)
class Copy:
    """A wrong body's function: where it stands, its new name and its text."""

    edit: Edit
    file: str
    of: Function
    name: str
    text: str

    def path(self) -> str:
        """Its name as a check prints it, below the crate."""
        return "::".join([*(self.of.path or ())[:-1], self.name])


def edited_function(crate: Path, edit: Edit) -> tuple[str, Function] | None:
    """The file and the function that an edit changes, if it is one that can have a copy."""
    files = edit.files()
    file = min(files)
    if len(files) > 1 or not file.startswith("src/") or edit.changed(crate) is None:
        return None
    text = (crate / file).read_text()
    places = [text.find(old) for _, old, _ in edit.pairs()]
    found = function_of(crate.name, file, text, places) if min(places) >= 0 else None
    return (file, found) if found and found.path else None


def copy_of(crate: Path, edit: Edit, number: int) -> Copy | None:
    """A wrong body's function, if it can have one."""
    found = edited_function(crate, edit)
    changed = edit.changed(crate)
    if not found or not changed:
        return None
    file, of = found
    return written(file, of, (crate / file).read_text(), changed[file], edit, number)


def written(file: str, of: Function, was: str, now: str, edit: Edit, number: int) -> Copy:
    """The function of a wrong body, from the file's text as it was and with the edit."""
    more = now.count("\n") - was.count("\n")
    lines = now.split("\n")[of.first : of.last + 1 + more]
    name = f"{of.name}_wrong_{number}"
    text = "\n".join(lines).replace(f"fn {of.name}", f"fn {name}", 1)
    return Copy(edit, file, of, name, text)


def write_bodies(crate: Path, copies: Iterable[Copy]) -> None:
    """Writes the functions behind those that they change."""
    behind: dict[str, dict[int, list[str]]] = defaultdict(lambda: defaultdict(list))
    for it in copies:
        behind[it.file][it.of.last].append(it.text)
    for file, texts in behind.items():
        lines = (crate / file).read_text().split("\n")
        whole = [text for at, line in enumerate(lines) for text in (line, *texts.get(at, []))]
        (crate / file).write_text("\n".join(whole))


def write_proofs(crate: Path, kept: Path, copies: Iterable[Copy]) -> None:
    """Gives each the proof files of the function that it changes, under its own name."""
    for it in copies:
        *above, name = it.of.path or ()
        was, now = ".".join([*above, name]), ".".join([*above, it.name])
        files, made = kept / "proofs" / "/".join([*above, name]), crate / "proofs" / "/".join(above)
        made /= it.name
        if files.is_dir():
            shutil.copytree(files, made)
        for path in made.rglob("*.antt"):
            text = path.read_text().replace(f"{name}_spec", f"{it.name}_spec")
            for part in ("proofs", "specs.contracts"):
                text = text.replace(f".{part}.{was}.", f".{part}.{now}.")
            path.write_text(text)


def take_as_stated(crate: Path, but: Collection[str] = ()) -> None:
    """Gives each function that can have one a proof that is a hole, but those of these paths."""
    for path in (crate / "src").rglob("*.rt"):
        for it in functions_of(crate.name, str(path.relative_to(crate)), path.read_text()):
            if it.path and "::".join(it.path) not in but:
                folder = crate / "proofs" / "/".join(it.path)
                folder.mkdir(parents=True, exist_ok=True)
                for file in ("Invariants.antt", "Answers.antt"):
                    (folder / file).unlink(missing_ok=True)
                text = HOLE.format(crate=crate.name, path=".".join(it.path), name=it.name)
                (folder / "Proof.antt").write_text(text)


def write(crate: Path, kept: Path, copies: list[Copy]) -> None:
    """Makes a copy of the crate `kept` one in which these functions stand beside the others."""
    take_as_stated(crate)
    write_proofs(crate, kept, copies)
    write_bodies(crate, copies)
