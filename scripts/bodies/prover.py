"""The prover over built libraries: one check, what it says, and what it took."""
import os
import re
import subprocess
import tempfile
import threading
from collections.abc import Collection, Mapping
from dataclasses import dataclass
from pathlib import Path

import building

# A line of a check that tells of a function, as it is named below the crate.
LINE = re.compile(r"^fn \w+::(\S+): (.*)$", re.M)
REFUSED = ("not proved", "no proof")
PROVED = ("proved", "no holes", "depends on a hole")
# What a proof file says of a name that an edit took away.
NAMES = re.compile(r"has no field|is not in scope|has no `|was not admitted")
# A goal of a function that is open, and that no proof file is about.
OPEN = re.compile(r"^note: (src/\S+?):(\d+):\d+: it is not proved that .*?(`[^`]+`)", re.M)
# Where a function stands: its file, and the numbers of its lines from 1 on.
Place = tuple[str, range]
# The seconds that a command may take.
LIMIT = 3600
# A fault of the text itself, which the prover doesn't reach.
COMPILES = re.compile(r"^(?:\./)?(src/\S+\.rt):(\d+):\d+: (error.*)$", re.M)


@dataclass(frozen=True)
class Said:
    """What a command said on its standard output and error, its status, and its processor
    seconds."""

    output: str
    errors: str
    status: int
    seconds: float

    @property
    def log(self) -> str:
        """All that was said."""
        return self.output + self.errors

    def lines(self) -> dict[str, str]:
        """What is told of each function, by its path."""
        return dict(LINE.findall(self.log))

    def is_verdict(self) -> bool:
        """Whether it reached the prover."""
        return bool(self.lines()) or "logic=" in self.log


@dataclass(frozen=True)
class Prover:
    """The toolchain, and the clone in which the libraries are built."""

    kit: Path
    below: Path

    def words(self, name: str, sources: Mapping[str, Path] = {}) -> list[str]:
        """The words by which it reads a crate over what is built, but for sources' folders."""
        for it in building.stands_on([name]):
            built = self.below / f"crates/{it}/out/rlib/{it}.rlib"
            if it != name and it not in sources and not built.exists():
                raise building.NotBuilt(f"{it} isn't built in {self.below}: rt ci builds it there")
        return building.over(building.libraries_of(name), self.below, self.kit, sources)

    def check(self, crate: Path, flags: list[str], asked: Collection[str] = ()) -> Said:
        """A check of a crate's folder. It ends as soon as each function asked for has its line:
        what would come then is text for proof files."""
        is_program = (crate / "src/main.rt").exists()
        words = [self.kit / "bin/rattle", "check", "--crate-name", crate.name]
        words += ["src/main.rt" if is_program else "src/lib.rt", *flags]
        return ran(words, crate, asked)


def ran(words: list, folder: Path, asked: Collection[str] = (), **named) -> Said:
    """What a command says, with its standard error last. It is ended once each function asked for
    has its line, and killed where it doesn't end."""
    with tempfile.TemporaryFile("w+") as errors:
        made = subprocess.Popen(
            words, cwd=folder, stdout=subprocess.PIPE, stderr=errors, text=True, **named
        )
        limit = threading.Timer(LIMIT, made.kill)
        limit.start()
        log = read_until(made, asked)
        _, status, used = os.wait4(made.pid, 0)
        made.returncode = os.waitstatus_to_exitcode(status)
        limit.cancel()
        errors.seek(0)
        return Said(log, errors.read(), made.returncode, used.ru_utime + used.ru_stime)


def read_until(made: subprocess.Popen, asked: Collection[str]) -> str:
    """What a check prints until each of these functions has its line, or until it ends."""
    left, lines = set(asked), []
    for line in made.stdout:
        lines.append(line)
        told = LINE.match(line)
        if told and told[1] in left:
            left.remove(told[1])
            if not left:
                made.terminate()
                break
    made.stdout.close()
    return "".join(lines)


def goal_of(said: str, path: str, place: Place | None = None) -> str | None:
    """The first goal of a function that isn't proved, as a check tells it: in the function's line,
    in its proof files, or in a note of its place. None where what is told is of names alone, or of
    other functions."""
    line = dict(LINE.findall(said)).get(path, "")
    if not line.startswith(REFUSED):
        return None
    if open_goal := re.search(r"did not prove (`[^`]+`)", line):
        return open_goal[1]
    folder = re.escape("proofs/" + path.replace("::", "/"))
    told = [it for _, it in errors_of(said, rf"{folder}/\w+") if not NAMES.search(it)]
    return next(iter(told), None) or open_at(said, place)


def errors_of(said: str, files: str = r"\S+") -> list[tuple[str, str]]:
    """The errors of a check in proof files of these names, each with its file."""
    found = re.findall(rf"^(?:\./)?({files})\.antt:[\d:]+ error: (.*(?:\n  .*)*)", said, re.M)
    return [(file, " ".join(it.split())) for file, it in found]


def open_at(said: str, place: Place | None) -> str | None:
    """The first goal that a check says to be open at a function's place, where no proof file names
    it."""
    notes = OPEN.findall(said) if place else []
    at = (goal for file, line, goal in notes if file == place[0] and int(line) in place[1])
    return next(at, None)


def is_own(line: str) -> bool:
    """Whether such a line is of the function itself, and not of one that it calls or waits for."""
    is_waiting = "it calls" in line or "it waits" in line
    is_told = "did not prove" in line or "antt refuses" in line
    return line.startswith(REFUSED) and (is_told or not is_waiting)
