"""A program of which one growth of memory is refused, for the words of `scripts/check refused`."""
from __future__ import annotations

import os
from concurrent.futures import ThreadPoolExecutor
from dataclasses import dataclass
from pathlib import Path

import building
from checks.trying import ran


@dataclass
class Ended:
    """How a run ended: its status, its output, its lines on the error, and how many growths there
    were."""

    status: int
    output: str
    said: list[str]
    growths: int

    @property
    def how(self) -> tuple[int, list[str]]:
        return self.status, self.said


class Refusing:
    """The program, and the library that refuses its growths."""

    def __init__(self, program: Path, room: Path) -> None:
        self.program, self.library = program, building.library_in_c("refuse", room, "-ldl")

    def run(self, *words: object, refused: int = 0, **variables: str) -> Ended:
        """A run of which that growth is refused; none with 0."""
        env = {**os.environ, "LD_PRELOAD": str(self.library), "REFUSED": str(refused), **variables}
        done = ran(self.program, *words, env=env, text=True, timeout=60)
        lines = done.stderr.splitlines()
        # The library says the number as the program ends. A test that fails may go on behind it.
        last = max((at for at, it in enumerate(lines) if it.isdecimal()), default=None)
        growths = 0 if last is None else int(lines.pop(last))
        return Ended(done.returncode, done.stdout, lines, growths)


def several() -> ThreadPoolExecutor:
    """As many runs at once as JOBS says."""
    return ThreadPoolExecutor(int(os.environ.get("JOBS", "2")))
