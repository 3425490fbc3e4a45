"""Times a shelf over a real file, beside a short C program that writes and reads the same rows.

    scripts/bench shelf [TURNS]      five turns

Batches of 1, 16 and 256 pages of 4,096 bytes in a store of 4,096, then opens and loads; beside them
a C program over SQLite's library, and the database's library alone, in turn on one disk. It prints
the least and the middle of 21 writes in each turn, in microseconds: first by the clock, then by the
processor time that the process took.

It needs SQLite's C library with its header, and the program of scripts/programs/shelf_files, which
is built first unless PROGRAM names a built one: 12 processor minutes over libraries that are
checked already. ROOM is the folder of the stores (the system's temporary one if it isn't set).
"""
import re
import statistics
import subprocess
import time

import building


class Shelves:
    """The programs over one file, and what their runs took."""

    def __init__(self, room):
        self.program = building.shelf_files(room)
        self.pages = building.in_c("pages", room, "-lsqlite3")
        self.path = room / "a.db"
        processor = building.library_in_c("processor", room)
        self.times = {"clock": {}, "processor": {"LD_PRELOAD": str(processor)}}
        self.found = {}

    def empty(self):
        """Takes the file and its log away."""
        for each in self.path.parent.glob("a.db*"):
            each.unlink()

    def note(self, time_name, what, took):
        """Keeps the least and the middle of what a run took."""
        self.found.setdefault((time_name, what), []).append((min(took), statistics.median(took)))

    def turn(self, time_name, env):
        """One turn of each program."""
        path = self.path
        for count in ("1", "16", "256"):
            self.empty()
            text, _ = said([self.pages, path, "4096", "4096", count], env)
            self.note(time_name, f"write {count}, C", read(text, "write"))
            self.note(time_name, "open and load, C", read(text, "load"))
            text, _ = said([self.program, "rows", path, "4096", "4096", count], env)
            self.note(time_name, f"write {count}, library", read(text, "rows"))
            text, _ = said([self.program, "time", path, "4096", "4096", count], env)
            self.note(time_name, f"write {count}, shelf", read(text, "write"))
            self.note(time_name, "connect", read(text, "connect"))
            self.note(time_name, "load", read(text, "load"))
        text, whole = said([self.program, "open", path, "4096", "4096"], env)
        if time_name == "clock":
            self.note(time_name, "open, and the process", [whole - read(text, "connect")[0]])


def said(words, env):
    """The lines of a run, and how many microseconds it took in all."""
    start = time.monotonic()
    done = subprocess.run(words, env=env, capture_output=True, text=True, check=True, timeout=600)
    return done.stdout, (time.monotonic() - start) * 1e6


def read(text, word):
    """The numbers of lines that begin with a word."""
    return [float(it) for it in re.findall(rf"^{word}(?: \w+)? (\d+)(?: true)?$", text, re.M)]


def main(words):
    with building.a_room() as room:
        shelves = Shelves(room)
        for _ in range(int((words or ["5"])[0])):
            for name, env in shelves.times.items():
                shelves.turn(name, env)
        for (name, what), took in sorted(shelves.found.items()):
            least = ", ".join(f"{it[0]:.0f}" for it in took)
            middle = ", ".join(f"{it[1]:.0f}" for it in took)
            print(f"{name}: {what}: least {least}; middle {middle}")
    return 0
