"""Files that were there before, for `scripts/check serve`: `cb_play serve` and `rughvadi-serve`
take and refuse the same, say the same, and leave the same rows.

What such a file has is written by Python's own SQLite: tables of both generations, whole ones and
ones in which something is wrong.
"""
from __future__ import annotations

import sqlite3
from pathlib import Path

from checks.frames import ASK_READ
from checks.serve_engines import InFile, said, serve_one
from checks.serve_input import CLIENTS, PAGES, Scene, of_read
from checks.trying import opened

SIZE = 64
# The floor of a file whose servers kept no lives. Clients greet above it.
UNKEPT_FLOOR = 1 << 61

NEWER = """
CREATE TABLE mark2(id INTEGER PRIMARY KEY, commits INTEGER NOT NULL, page_size INTEGER NOT NULL,
  pages INTEGER NOT NULL) STRICT;
CREATE TABLE page2(no INTEGER PRIMARY KEY, version INTEGER NOT NULL) STRICT;
CREATE TABLE part(no INTEGER NOT NULL, place INTEGER NOT NULL, body BLOB NOT NULL,
  PRIMARY KEY(no, place)) STRICT;
"""
OLDER = """
CREATE TABLE page(no INTEGER PRIMARY KEY, version INTEGER NOT NULL, body BLOB NOT NULL) STRICT;
CREATE TABLE mark(id INTEGER PRIMARY KEY, commits INTEGER NOT NULL, page_size INTEGER NOT NULL)
  STRICT;
"""
VERSIONS = (3, 0, 2, 0)
BODIES = [f"x'{(page + 7).to_bytes(1, 'big').hex() * SIZE}'" for page in range(PAGES)]
NEWER_ROWS = "".join([
    f"INSERT INTO mark2 VALUES (1, 3, {SIZE}, {PAGES});",
    *(f"INSERT INTO page2 VALUES ({no}, {version});" for no, version in enumerate(VERSIONS)),
    *(f"INSERT INTO part VALUES ({no}, 0, {body});" for no, body in enumerate(BODIES)),
])
OLDER_ROWS = "".join([
    f"INSERT INTO mark VALUES (1, 3, {SIZE});",
    *(f"INSERT INTO page VALUES ({no}, {version}, {body});"
      for no, (version, body) in enumerate(zip(VERSIONS, BODIES))),
])
AT_COMMIT = "UPDATE mark2 SET commits = {0}; UPDATE page2 SET version = {0}"
COMMITS = 2 * CLIENTS  # that are made over a file
# Tables that are read, those without a number for each commit, and those in which one thing is
# wrong.
TAKEN = {
    "newer tables": NEWER + NEWER_ROWS,
    "newer tables beside older ones without rows": NEWER + NEWER_ROWS + OLDER,
    "older tables": OLDER + OLDER_ROWS,
    "other tables": "CREATE TABLE other(a); INSERT INTO other VALUES (1)",
    "tables that aren't strict": (NEWER + NEWER_ROWS).replace("STRICT", ""),
    "just as many numbers as are used": NEWER + NEWER_ROWS
    + AT_COMMIT.format((1 << 62) - 1 - COMMITS),
}
SPENT = {"a number too few": NEWER + NEWER_ROWS + AT_COMMIT.format((1 << 62) - COMMITS)}
WRONG_NEWER = {
    "a page missing": "DELETE FROM page2 WHERE no = 3",
    "a page missing amid the others": "DELETE FROM page2 WHERE no = 1",
    "a page too many": "INSERT INTO page2 VALUES (4, 0)",
    "a version above the mark": "UPDATE page2 SET version = 4 WHERE no = 0",
    "a version below 0": "UPDATE page2 SET version = -1 WHERE no = 0",
    "a shorter body": "UPDATE part SET body = zeroblob(63) WHERE no = 1",
    "a longer body": "UPDATE part SET body = zeroblob(65) WHERE no = 1",
    "a part too many": "INSERT INTO part VALUES (3, 1, x'07')",
    "a part of no page": "INSERT INTO part VALUES (4, 0, zeroblob(64))",
    "a part missing": "DELETE FROM part WHERE no = 3",
    "a part at another place": "UPDATE part SET place = 1 WHERE no = 3",
    "another page size": "UPDATE mark2 SET page_size = 32",
    "another count of pages": "UPDATE mark2 SET pages = 3",
    "no mark": "DELETE FROM mark2",
    "another mark": "UPDATE mark2 SET id = 2",
    "two marks": "INSERT INTO mark2 VALUES (2, 3, 64, 4)",
    "commits below 0": "UPDATE mark2 SET commits = -1; UPDATE page2 SET version = 0",
    "commits from 2^62 on": "UPDATE mark2 SET commits = 1 << 62",
    "a table missing": "DROP TABLE part",
    "two tables missing": "DROP TABLE part; DROP TABLE page2",
    "older rows beside them": OLDER + "INSERT INTO mark VALUES (1, 3, 64)",
    "an older table beside them": "CREATE TABLE mark(id INTEGER PRIMARY KEY, commits, page_size)",
}
WRONG_OLDER = {
    "a page missing": "DELETE FROM page WHERE no = 3",
    "a shorter body": "UPDATE page SET body = zeroblob(63) WHERE no = 1",
    "another page size": "UPDATE mark SET page_size = 32",
    "no mark": "DELETE FROM mark",
    "no rows": "DELETE FROM mark; DELETE FROM page",
    "a table missing": "DROP TABLE page",
    "a newer table beside them": "CREATE TABLE page2(no INTEGER PRIMARY KEY, version)",
}
LOOSE = (OLDER + OLDER_ROWS).replace("STRICT", "")
WRONG = {
    **{f"newer, {name}": NEWER + NEWER_ROWS + text for name, text in WRONG_NEWER.items()},
    **{f"older, {name}": OLDER + OLDER_ROWS + text for name, text in WRONG_OLDER.items()},
    "older, a text as a version": f"{LOOSE}UPDATE page SET version = 'x' WHERE no = 1",
    "older, a text as a body": f"{LOOSE}UPDATE page SET body = '{SIZE * 'x'}' WHERE no = 1",
}
PART = 4096  # bytes of a part; the page of an older table is one


def older_of(size: int) -> str:
    """Older tables with pages of so many bytes."""
    rows = OLDER_ROWS.replace(f", {SIZE})", f", {size})")
    return f"{OLDER}{rows}UPDATE page SET body = zeroblob({size})"


def rows_in(store: Path) -> dict[str, list[tuple]]:
    """All rows of all tables."""
    with opened(store) as tables:
        names = tables.execute("SELECT name FROM sqlite_schema WHERE type = 'table'").fetchall()
        return {name: sorted(tables.execute(f"SELECT * FROM {name}"), key=repr)
                for (name,) in names}


def served_over(room: Path, server: InFile, text: str, size: int, unread: int) -> tuple:
    """How a server ends over a file with these tables, and the rows that it leaves. So many frames
    come first that can't be read."""
    scene = Scene(room, (), size)
    scene.incarnation = UNKEPT_FLOOR + 1
    with opened(scene.store) as tables:
        tables.executescript(text)
    given = unread * scene.say(ASK_READ, 0, of_read(1, PAGES)) + scene.given(COMMITS // CLIENTS)
    return serve_one(scene, server, given), rows_in(scene.store)


def differ(
    room: Path, servers: list[InFile], text: str, wanted: str, size: int = SIZE, unread: int = 0,
) -> str:
    """What differs over files with these tables, or isn't said where a refusal is wanted."""
    (one, rows), (other, others) = (served_over(room, it, text, size, unread) for it in servers)
    if one != other:
        return f"{said(one)}; {said(other)}"
    if rows != others:
        return f"{str(rows)[:200]}; {str(others)[:200]}"
    status, out, line = one
    passed = f"passed over {unread}\n" if unread else ""
    right = (3, False, f"{passed}store: {wanted}\n".encode()) if wanted else (0, True, b"")
    return "" if (status, bool(out), line) == right else said(one)


def tried(tries, room: Path, play: Path, serve: Path) -> None:
    """Compares the two servers over files of each kind."""
    room.mkdir(mode=0o755)
    servers = [InFile("cb_play", play, "serve"), InFile("SQLite", serve)]
    cases = [(name, text, "") for name, text in TAKEN.items()]
    cases += [(name, text, "Exhausted") for name, text in SPENT.items()]
    cases += [(f"{name}, and two frames that can't be read", text, "Exhausted", SIZE, 2)
              for name, text in SPENT.items()]
    cases += [(name, text, "Shape") for name, text in WRONG.items()]
    cases += [("older, pages of a whole part", older_of(PART), "", PART)]
    cases += [("older, pages of more than a part", older_of(PART + 16), "Shape", PART + 16)]
    for name, *case in cases:
        try:
            why = differ(room, servers, *case)
        except sqlite3.Error as fault:
            why = repr(fault)
        tries.told(f"a file that was there: {name}", not why, why)
