"""copy_store.py ADDRESS TOKENS CLIENT STORE DATABASE: copies a store while it is served.

All pages are read in one transaction, so the copy is the store as it was at one moment. Who would
write a page waits until that transaction ends. DATABASE is a new file, a store that can be served:
its commits are numbered from 0 again.
"""

from __future__ import annotations

import os
import sqlite3
import sys

from rughvadi import Limits, Transaction, connect, read_token

PART = 4096
TABLES = """
    CREATE TABLE mark2(id INTEGER PRIMARY KEY, commits INTEGER NOT NULL,
        page_size INTEGER NOT NULL, pages INTEGER NOT NULL) STRICT;
    CREATE TABLE page2(no INTEGER PRIMARY KEY, version INTEGER NOT NULL) STRICT;
    CREATE TABLE part(no INTEGER NOT NULL, place INTEGER NOT NULL, body BLOB NOT NULL,
        PRIMARY KEY(no, place)) STRICT;
"""


def write(path: str, limits: Limits, pages: list[bytes]) -> None:
    """Writes the tables of a store to a new file."""
    os.umask(0o077)  # what is made is the owner's alone
    with open(path, "xb"):
        pass
    tables = sqlite3.connect(path)
    tables.executescript(TABLES)
    with tables:
        numbers = (limits.page_size, limits.pages)
        tables.execute("INSERT INTO mark2 VALUES (1, 0, ?, ?)", numbers)
        for number, page in enumerate(pages):
            tables.execute("INSERT INTO page2 VALUES (?, 0)", (number,))
            parts = [page[at : at + PART] for at in range(0, len(page), PART)]
            rows = [(number, place, part) for place, part in enumerate(parts)]
            tables.executemany("INSERT INTO part VALUES (?, ?, ?)", rows)
    tables.close()


def main(address: str, tokens: str, client: int, store: str, path: str) -> None:
    with connect(address, read_token(tokens, client), store) as link:
        limits = link.client.limits

        def read_all(transaction: Transaction) -> list[bytes]:
            return [transaction.read(page) for page in range(limits.pages)]

        pages = link.run(read_all)
    write(path, limits, pages)
    print(f"{len(pages)} pages copied")


if __name__ == "__main__":
    if len(sys.argv) != 6:
        sys.exit("copy_store.py ADDRESS TOKENS CLIENT STORE DATABASE")
    main(sys.argv[1], sys.argv[2], int(sys.argv[3]), sys.argv[4], sys.argv[5])
