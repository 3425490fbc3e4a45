"""files.py ADDRESS TOKENS CLIENT COMMAND ..: a small file service over a store.

    put NAME            stores the standard input as file NAME, in place of what was there
    get NAME            writes file NAME to the standard output
    list                writes the size and the name of each file
    rename OLD NEW      renames a file, in place of what was there
    remove NAME         removes a file
    hot NAME COUNT      reads file NAME so many times, and says how long one read took
    watch NAME COUNT    writes file NAME, and again once it was changed, so many times in all

Page 0 has the directory as JSON: for each name the size and the list of pages. The other pages have
the files' bytes. Each of the first five commands is one transaction, so nobody sees half of it.
"""

from __future__ import annotations

import json
import sys
import time

from rughvadi import Link, Refused, Transaction, connect, read_token

DIRECTORY = 0


class Files:
    """The files of a store, as a transaction sees them."""

    def __init__(self, transaction: Transaction, pages: int) -> None:
        self.transaction, self.pages = transaction, pages
        directory = transaction[DIRECTORY]
        self.page_size = len(directory)
        # A page that nobody wrote has zeros.
        self.entries = json.loads(directory.rstrip(b"\0") or b"{}")

    def list(self) -> bytes:
        lines = [f"{size} {name}\n" for name, (size, _) in sorted(self.entries.items())]
        return "".join(lines).encode()

    def get(self, name: str) -> bytes:
        size, pages = self.found(name)
        return b"".join(self.transaction[page] for page in pages)[:size]

    def put(self, name: str, data: bytes) -> bytes:
        self.entries.pop(name, None)
        used = {page for _, pages in self.entries.values() for page in pages}
        free = [page for page in range(DIRECTORY + 1, self.pages) if page not in used]
        parts = [data[at : at + self.page_size] for at in range(0, len(data), self.page_size)]
        if len(parts) > len(free):
            sys.exit("the store is full")
        for page, part in zip(free, parts):
            self.transaction[page] = part.ljust(self.page_size, b"\0")
        self.entries[name] = (len(data), free[: len(parts)])
        return self.saved()

    def rename(self, old: str, new: str) -> bytes:
        entry = self.found(old)
        del self.entries[old]
        self.entries[new] = entry
        return self.saved()

    def remove(self, name: str) -> bytes:
        self.found(name)
        del self.entries[name]
        return self.saved()

    def found(self, name: str) -> tuple[int, list[int]]:
        return self.entries[name] if name in self.entries else sys.exit(f"no file {name}")

    def saved(self) -> bytes:
        text = json.dumps(self.entries).encode()
        self.transaction[DIRECTORY] = text.ljust(self.page_size, b"\0")
        return b""


def looked_at(link: Link, name: str) -> bytes:
    """The bytes of a file, by a transaction that is dropped."""

    def look(transaction: Transaction) -> bytes:
        data = Files(transaction, link.client.limits.pages).get(name)
        transaction.drop()  # it only read: there is nothing to commit, and nothing to wait for
        return data

    return link.run(look)


def watch(link: Link, name: str, count: int) -> bytes:
    """Writes a file now, and each time that it is another, until that is enough."""
    before = None
    while count:
        data = looked_at(link, name)
        if data == before:
            link.serve()  # answers whoever wants these pages; waits a second if nobody does
            continue
        sys.stdout.buffer.write(data)
        sys.stdout.flush()
        before, count = data, count - 1
    return b""


def hot(link: Link, name: str, count: int) -> bytes:
    begun = time.perf_counter()
    for _ in range(count):
        looked_at(link, name)
    print(f"{(time.perf_counter() - begun) / count * 1e6:.1f} us a read", file=sys.stderr)
    return f"{count} reads\n".encode()


def do(link: Link, command: str, words: list) -> bytes:
    """Does a command in one transaction, and again each time that the transaction is aborted."""
    if command in ("hot", "watch"):
        return {"hot": hot, "watch": watch}[command](link, words[0], int(words[1]))
    job, pages = getattr(Files, command), link.client.limits.pages
    return link.run(lambda transaction: job(Files(transaction, pages), *words))


def main(address: str, tokens: str, client: str, command: str, *names: str) -> None:
    words = [*names, sys.stdin.buffer.read()] if command == "put" else [*names]
    for _ in range(300):
        try:
            with connect(address, read_token(tokens, int(client))) as link:
                said = do(link, command, words)
            break  # the link is closed before the output, which may block
        except (Refused, OSError) as why:  # no gateway yet, or its server is being started again
            if isinstance(why, Refused) and not why.is_down:
                raise
            time.sleep(0.1)
    else:
        sys.exit("the gateway is gone")
    sys.stdout.buffer.write(said)


if __name__ == "__main__":
    main(*sys.argv[1:]) if len(sys.argv) > 4 else sys.exit(__doc__)
