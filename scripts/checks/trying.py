"""What checks share: what was tried so far, their words, and a look at a store's file."""
from __future__ import annotations

import contextlib
import os
import sqlite3
import struct
import subprocess
from collections.abc import Callable
from pathlib import Path

import building

# What a scene may end by where something is wrong.
FAULTS = (OSError, EOFError, ValueError, IndexError, struct.error, sqlite3.Error,
          subprocess.SubprocessError, building.NotBuilt)
SANITIZERS = ("AddressSanitizer", "runtime error", "LeakSanitizer")
PIPES = dict.fromkeys(("stdin", "stdout", "stderr"), subprocess.PIPE)


class Tries:
    """What was tried so far: how many passed, how many failed."""

    def __init__(self) -> None:
        self.passed = self.failed = 0

    def told(self, name: str, right: bool, said: str) -> None:
        """Counts one, and writes its line."""
        self.passed, self.failed = self.passed + right, self.failed + (not right)
        last = said.splitlines()
        print(": ".join([name, "ok", *last[-1:]] if right else [name, "FAILED"]), flush=True)
        if not right:
            print("\n".join(last[-20:]), flush=True)

    def command(self, name: str, *words: object, **variables: object) -> None:
        """Runs a command to its end, with these variables besides."""
        self.told(name, *said(*words, env={**os.environ, **strings(variables)}))

    def scene(self, name: str, play: Callable, *given: object, log: Callable = str) -> None:
        """Plays a scene, which says whether all is right, or what isn't. Then the log is got, in
        which no sanitizer may have a line."""
        try:
            came = play(*given)
        except FAULTS as fault:
            came = repr(fault)
        noted = log()
        why = "" if came is True else came or ("" if came == "" else "it isn't so")
        why += sanitizer_fault(noted)
        about = f"{noted[-1000:]}{why}" if why else ""
        self.told(f"{name}: {play.__name__.replace('_', ' ')}", not why, about)

    def status(self, name: str) -> int:
        """The check's status, once its last line is written."""
        print(f"{name}: {self.passed} passed, {self.failed} failed")
        return 1 if self.failed else 0


def strings(variables: dict[str, object]) -> dict[str, str]:
    return {key: str(value) for key, value in variables.items()}


def said(*words: object, **how: object) -> tuple[bool, str]:
    """Runs a command to its end; whether it ended well, and all that it wrote."""
    both = {"stdout": subprocess.PIPE, "stderr": subprocess.STDOUT, "text": True}
    try:
        done = subprocess.run(list(map(str, words)), **both, **how, check=False)
    except FileNotFoundError as why:
        return False, str(why)
    return done.returncode == 0, done.stdout


def ran(*words: object, **how: object) -> subprocess.CompletedProcess:
    """A command that ended, with what it wrote on its output and on its error."""
    return subprocess.run(list(map(str, words)), capture_output=True, check=False, **how)


def sanitizer_fault(log: str) -> str:
    """The end of a log in which a sanitizer found something."""
    return log[-3000:] if any(it in log for it in SANITIZERS) else ""


def numbers(words: list[str], usage: str, *usual: int) -> tuple[list[str], list[int]]:
    """The word `--built`, if it is said, and the numbers, each as usual where it isn't said."""
    built = [word for word in words if word == "--built"]
    counts = [word for word in words if word != "--built"]
    if len(counts) > len(usual) or not all(map(str.isdecimal, counts)):
        raise building.WrongWords(f"scripts/check {usage}")
    return built, [*map(int, counts), *usual[len(counts) :]]


@contextlib.contextmanager
def opened(store: Path):
    """A store's tables, of one moment if the body begins a transaction."""
    with contextlib.closing(sqlite3.connect(store, isolation_level=None)) as tables:
        yield tables


def rows_of(store: Path, text: str, *given: object) -> list[tuple]:
    """What a store's tables answer."""
    with opened(store) as tables:
        return tables.execute(text, given).fetchall()


def file_faults(store: Path) -> list[str]:
    """What SQLite finds wrong with a file."""
    ((whole,),) = rows_of(store, "PRAGMA integrity_check(1)")
    return [] if whole == "ok" else [f"the file: {whole}"]
