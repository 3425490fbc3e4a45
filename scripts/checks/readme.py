"""Runs the commands that README and docs show, in a fresh clone, and compares what they print.

    scripts/check readme [PAGE..]                   all but the long ones
    scripts/check readme --all [PAGE..]             those that prove for half an hour and more, too
    scripts/check readme --built FOLDER [PAGE..]    all, with what is built in another clone
    scripts/check readme --list                     says which there are, and runs none

A command is a line that begins with `$ ` in a block of three backticks with the word `console`, or
`console long`; the lines below it are what it prints first. A line of `..` stands for any other
lines. The commands of a page run in one shell, one after another; each block begins at the top of
the clone, which has what was committed here. A PAGE is a name, as README.md or SERVING.md.

With --built the programs of FOLDER/crates/*/out are copied into the clone, and a command `rt`
stands first in the path, by which `rt run` of a crate that has one proves nothing: it takes what is
there. The library is the archive that stands in FOLDER, else it is built over the crates that `rt
ci` built there. FOLDER may also have just the program cb_play and librughvadi.a. All else is done
by `rt` itself.

It needs `rt`; the long ones also what scripts/install needs, cargo, pkg-config and sqlite3. The one
short command takes some three processor minutes, since it compiles the whole program. A line for
each says how many seconds it took. The status is 1 where a command ends with another status than 0,
or prints something else.
"""
import os
import re
import shutil
import subprocess
from dataclasses import dataclass, field
from pathlib import Path
from shlex import quote

import building

# What the shell prints behind each command, with its status.
MARK = "\x01ended"
# A command `rt` that takes what is built: {rt} is the one that proves.
TAKES = """#!/bin/sh
name=$(basename "$PWD")
if [ "$1" = run ] && [ -x "out/$name" ]; then
  shift
  [ "${{1:-}}" = -- ] && shift
  exec "out/$name" "$@"
fi
exec {rt} "$@"
"""


@dataclass
class Shown:
    """A command of a page, and what it shows of the output."""

    line: int
    text: str
    is_long: bool
    is_first: bool
    prints: list[str] = field(default_factory=list)


def shown_in(page: Path) -> list[Shown]:
    """The commands of a page, in order."""
    found, block, begins = [], None, False
    for number, line in enumerate(page.read_text().splitlines(), 1):
        if fence := re.fullmatch(r"\s*```(.*)", line):
            block, begins = (fence[1].split() or [""] if block is None else None), True
        elif block and block[0] == "console" and line.startswith("$ "):
            found.append(Shown(number, line[2:], "long" in block, begins))
            begins = False
        elif block and block[0] == "console" and found:
            found[-1].prints.append(line)
    return found


def is_printed(wanted: list[str], printed: list[str]) -> bool:
    """Whether it begins with these lines; one of `..` stands for any others."""
    others = r"(?:.*\n)*?"
    begins = "".join(others if it == ".." else re.escape(it) + r"\n" for it in wanted)
    return re.match(begins, "".join(f"{line}\n" for line in printed)) is not None


def take_built(folder: Path, top: Path, room: Path) -> dict[str, str]:
    """Takes what another clone has built; the environment in which `rt` does so, too."""
    crates = sorted(it for it in (top / "crates").iterdir() if it.is_dir())
    for crate in crates:
        for built in (folder / "crates" / crate.name / "out" / crate.name, folder / crate.name):
            if built.is_file():
                (crate / "out").mkdir(exist_ok=True)
                shutil.copy2(built, crate / "out")
    archives = [folder / "crates/rughvadi/out/librughvadi.a", folder / "librughvadi.a"]
    there = {"ARCHIVE": str(it) for it in archives if it.is_file()}
    real = [shutil.which(building.RT[0]) or building.RT[0], *building.RT[1:]]
    command = room / "taken/rt"
    command.parent.mkdir()
    command.write_text(TAKES.format(rt=" ".join(map(quote, real))))
    command.chmod(0o755)
    path = f"{command.parent}:{os.environ['PATH']}"
    others = {key: it for key, it in os.environ.items() if key != "RT"}
    return {**others, "PATH": path, "BELOW": str(folder), **there}


def run_page(page: Path, commands: list[Shown], top: Path, env: dict[str, str]) -> int:
    """Runs the commands of a page; how many went wrong."""
    script = ""
    for it in commands:
        script += f"cd {quote(str(top))}\n" if it.is_first else ""
        script += f"SECONDS=0\n{it.text}\nprintf '\\n{MARK} %s %s\\n' $? $SECONDS\n"
    done = subprocess.run(
        ["bash", "-c", script],
        cwd=top,
        env=env,
        stdin=subprocess.DEVNULL,
        stdout=subprocess.PIPE,
        text=True,
        check=False,
    )
    # What each command printed, and its status; commands behind one that ended the shell have none.
    ended = re.findall(rf"(.*?)\n{MARK} (\d+) (\d+)\n", done.stdout, re.S)
    wrong = 0
    for place, it in enumerate(commands):
        printed, status, seconds = ended[place] if place < len(ended) else ("", "none", "0")
        right = status == "0" and is_printed(it.prints, printed.splitlines())
        came = f"ok, {seconds} s" if right else f"FAILED, status {status}"
        print(f"{page.name}:{it.line}: {it.text}: {came}", flush=True)
        if not right:
            print("\n".join(f"    {line}" for line in printed.splitlines()[:20]))
            wrong += 1
    return wrong


def parsed(words: list[str]) -> tuple[str, Path | None, list[str]] | None:
    """The option, the folder of what is built, and the pages; nothing where the words are wrong."""
    option = words[0] if words and words[0].startswith("-") else ""
    rest = words[1:] if option else words
    if option not in {"", "--all", "--list", "--built"} or (option == "--built" and not rest):
        return None
    if option == "--built":
        return option, Path(rest[0]).resolve(), rest[1:]
    return option, None, rest


def main(words: list[str]) -> int:
    if (given := parsed(words)) is None:
        raise building.WrongWords("scripts/check readme [--all|--list|--built FOLDER] [PAGE..]")
    option, built, names = given
    with building.a_room() as room:
        top, env = building.TOP, dict(os.environ)
        if option != "--list":
            top = room / "clone"
            subprocess.run(["git", "clone", "-q", building.TOP, top], check=True)
        if built:
            env = take_built(built, top, room)
        count = wrong = 0
        for page in [top / "README.md", *sorted(top.glob("docs/*.md"))]:
            if names and page.name not in names:
                continue
            commands = [it for it in shown_in(page) if option or not it.is_long]
            count += len(commands)
            if option == "--list":
                for it in commands:
                    print(f"{page.name}:{it.line}: {it.text}{' (long)' if it.is_long else ''}")
            elif commands:
                wrong += run_page(page, commands, top, env)
    print(f"{count} commands" + ("" if option == "--list" else f", {wrong} wrong"))
    return 1 if wrong or not count else 0
