"""The command line of the two tools: a word names a file, which does it and has its help."""
import ast
import importlib
import os
import subprocess
import sys
from pathlib import Path

import building

HELP = {"--help", "-h", "help"}
# The words of each tool.
WORDS = {
    "check": [
        "docs", "readme", "model", "wrong", "load", "times", "faults", "refused", "killed", "lent",
        "schedules", "sides", "limits", "files", "memory", "library", "serve", "storm", "takeover",
        "lives", "all",
    ],
    "bench": [
        "play", "run", "shelf", "client", "server", "station", "frames", "twoq", "library", "serve",
        "database",
    ],
}


def help_of(folder: Path, word: str) -> str:
    """What a word does, needs and takes, as its file says at its top."""
    module = folder / f"{word}.py"
    if module.exists():
        return ast.get_docstring(ast.parse(module.read_text())) or ""
    lines = (folder / f"{word}.sh").read_text().splitlines()[1:]
    end = next(at for at, line in enumerate(lines) if not line.startswith("#"))
    return "\n".join(line.removeprefix("#").removeprefix(" ") for line in lines[:end])


def done_by(folder: Path, word: str, words: list[str]) -> int:
    """Does what a word says; the status."""
    if (folder / f"{word}.sh").exists():
        return subprocess.run(["bash", folder / f"{word}.sh", *words], check=False).returncode
    return importlib.import_module(f"{folder.name}.{word}").main(words)


def answered(tool: str, folder: Path, about: str) -> int:
    """Does what the command line says; the status."""
    names = WORDS[tool]
    word, *rest = sys.argv[1:] or ["--help"]
    if word in HELP:
        print(about.strip(), end="\n\n")
        for name in names:
            print(f"  {name:10} {help_of(folder, name).splitlines()[0]}")
        print(f"\nscripts/{tool} WORD --help says what it does, needs, and how long it takes.")
        return 0
    if word not in names:
        print(f"scripts/{tool}: no word {word}; there are {', '.join(names)}", file=sys.stderr)
        return 2
    if HELP & set(rest[:1]):
        print(help_of(folder, word))
        return 0
    return done_by(folder, word, rest)


def run(tool: str, folder: Path, about: str) -> int:
    """The tool's status: that of the word; 2 where there is none, or a program isn't built."""
    try:
        status = answered(tool, folder, about)
        sys.stdout.flush()
        return status
    except (building.NotBuilt, building.WrongWords) as why:
        print(why, file=sys.stderr)
        return 2
    except BrokenPipeError:
        os.dup2(os.open(os.devnull, os.O_WRONLY), sys.stdout.fileno())
        return 1
