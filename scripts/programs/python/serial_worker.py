"""serial_worker.py ADDRESSES TOKENS CLIENT PAGES LOG [all]: random transactions, until it is ended.

A transaction reads some pages, and writes some of those with a value that no other write has. Its
line goes into the log before the commit, and again once that is answered (scripts/serial.py reads
it). With several addresses, separated by commas, it goes on at the next where a link ends. `all`
reads all pages in one transaction, commits and ends. It ends with status 9 where a page's bytes
aren't those of one write.
"""
import json
import os
import random
import sys
import time

import rughvadi

addresses, tokens, client, pages, log = sys.argv[1:6]
reads_all = sys.argv[6:] == ["all"]
token = rughvadi.read_token(tokens, int(client))
drawn, count = random.Random(os.getpid()), 0
TIME_OUT = 0.2


def connected():
    """A link to whichever gateway serves."""
    for address in addresses.split(","):
        try:
            return rughvadi.connect(address, token, "main", TIME_OUT)
        except (OSError, rughvadi.Error):
            continue
    return None


def checked(body: bytes) -> bytes:
    """The value that a page is full of."""
    if body[:8] * (len(body) // 8) != body:
        print("a page of parts of two writes", file=sys.stderr)
        os._exit(9)
    return bytes(body[:8])


def draw(transaction, operations: list) -> None:
    global count
    chosen = list(range(int(pages)))
    for page in chosen if reads_all else drawn.sample(chosen, drawn.choice([1, 1, 2, 3])):
        body = transaction.read(page)
        operations.append((page, "r", checked(body).hex()))
        if not reads_all and drawn.random() < 0.5:
            count += 1
            value = (int(client) << 56 | os.getpid() << 28 | count).to_bytes(8, "big")
            transaction.write(page, value * (len(body) // 8))
            operations.append((page, "w", value.hex()))
            if checked(transaction.read(page)) != value:
                print("its own write isn't there", file=sys.stderr)
                os._exit(9)


def run_once(link, out) -> None:
    """One transaction; a line says when it began and ended, its number (0: it isn't answered), and
    what it did."""
    operations: list = []
    begun = time.monotonic_ns()
    try:
        transaction = link.transaction()
        with transaction:
            draw(transaction, operations)
            out.write(json.dumps([begun, None, 0, operations]) + "\n")
        out.write(json.dumps([begun, time.monotonic_ns(), transaction.number, operations]) + "\n")
    except rughvadi.Aborted:
        out.write(json.dumps([begun, None, -1, operations]) + "\n")
        return
    if reads_all:
        sys.exit(0)


link = None
with open(log, "a", buffering=1) as out:
    while True:
        if link is None:
            link = connected()
            if link is None:
                time.sleep(0.02)
            continue
        try:
            run_once(link, out)
        except (OSError, rughvadi.Error):
            link.close()
            link = None
