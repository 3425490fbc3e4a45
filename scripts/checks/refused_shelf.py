"""Opens, loads, writes and flushes a shelf, each growth refused: `check refused shelf`."""
import collections
import re
import sqlite3

import building
from checks.refusing import Refusing

OLDER = """
CREATE TABLE page(no INTEGER PRIMARY KEY, version INTEGER NOT NULL, body BLOB NOT NULL) STRICT;
CREATE TABLE mark(id INTEGER PRIMARY KEY, commits INTEGER NOT NULL,
    page_size INTEGER NOT NULL) STRICT;
"""
# what is said of a call that was refused, and then answered
REFUSED = [f"{name}: refused, as it was" for name in ("open", "load", "write", "flush")]
REFUSED.append("flush: refused, written and held")
# what is said where a call of the database by itself was refused, or the program's own memory
OUTSIDE = ["connect: 3 Memory", "close: 3 Memory", "memory"]


class Files:
    """A program over a shelf in a file, and the library that refuses its growths."""

    def __init__(self, program, room):
        self.programs, self.path = Refusing(program, room), room / "a.db"

    def empty(self):
        """Takes the file and its log away."""
        for each in self.path.parent.glob("a.db*"):
            each.unlink()

    def older(self):
        """The tables of the older generation, with a store of their greatest pages."""
        base = sqlite3.connect(self.path)
        base.executescript(OLDER)
        base.execute("INSERT INTO page VALUES (0, 3, ?), (1, 0, zeroblob(4096))", (b"\x07" * 4096,))
        base.execute("INSERT INTO mark VALUES (1, 3, 4096)")
        base.commit()
        base.close()

    def run(self, words, refused):
        """What is printed but for how long it took, and how many growths there were."""
        came = self.programs.run("refused", self.path, "2", *words, refused=refused)
        lines = came.output.splitlines()
        return [it for it in lines if not re.fullmatch(r"connect \d+", it)], came.growths

    def begun(self, is_older, words, refused):
        """The same over a file from before."""
        self.empty()
        if is_older:
            self.older()
        return self.run(words, refused)


def judged(plain, lines):
    """Which call was refused; None where a run with one refused growth has other lines."""
    if lines == plain:
        return "none"
    refusals = [line for line in lines if line in REFUSED]
    if len(refusals) == 1 and [line for line in lines if line not in refusals] == plain:
        return refusals[0]
    if not lines:
        return "before the database is opened"
    if lines[-1] in OUTSIDE and lines[:-1] == plain[: len(lines) - 1]:
        return lines[-1]
    return None


def refused_in_turn(files, name, is_older, words):
    """Refuses each growth over such a file; whether one ended in another way."""
    plain, growths = files.begun(is_older, words, 0)
    counts, wrong = collections.Counter(), []
    for refused in range(1, growths + 1):
        lines, _ = files.begun(is_older, words, refused)
        kind = judged(plain, lines)
        if kind == "connect: 3 Memory" and files.run(words, 0)[0] != plain:
            kind = None
        counts[kind] += 1
        if kind is None:
            wrong.append((refused, lines))
    print(f"{name}: {growths} growths refused, {len(wrong)} wrong {wrong[:3]}")
    for kind, count in sorted(counts.items(), key=str):
        print(f"  {kind}: {count}")
    held = [line for line in plain if "loaded" in line]
    return bool(wrong) or len(held) != 3 or not all(line.endswith("true") for line in held)


def main(_words):
    with building.a_room() as room:
        files = Files(building.shelf_files(room), room)
        bad = refused_in_turn(files, "a new file", False, ["4112", "0", "0"])
        bad |= refused_in_turn(files, "older tables", True, ["4096", "3", "7"])
        return int(bad)
