"""worker.py ADDRESS TOKENS CLIENT LOG: a client that commits until it is killed.

Each transaction moves an amount from one of eight accounts to another, and adds one to the counter
on a page of the client's own. The number of the counter is appended to LOG once the commit was
answered. It ends with status 3 where a commit that was answered isn't in the store any more, and
with 4 where the sum of the accounts isn't 0.
"""

from __future__ import annotations

import os
import random
import sys
import time

from rughvadi import Closed, Link, Refused, Transaction, connect, read_token

ACCOUNTS = range(8)


def number_at(page: bytes) -> int:
    return int.from_bytes(page[:8], "little", signed=True)


def with_number(page: bytes, number: int) -> bytes:
    return number.to_bytes(8, "little", signed=True) + page[8:]


def work(transaction: Transaction, own: int) -> tuple[int, int]:
    """One more; the counter, and the sum as it was found."""
    pages = {account: transaction[account] for account in ACCOUNTS}
    total = sum(number_at(page) for page in pages.values())
    giver, taker = random.sample(ACCOUNTS, 2)
    amount = random.randint(1, 100)
    transaction[giver] = with_number(pages[giver], number_at(pages[giver]) - amount)
    transaction[taker] = with_number(pages[taker], number_at(pages[taker]) + amount)
    page = transaction[own]
    counter = number_at(page) + 1
    transaction[own] = with_number(page, counter)
    return counter, total


def go_on(link: Link, own: int, answered: int, log: int) -> int:
    """Commits until the connection ends; the last counter that was answered."""
    while True:
        try:
            counter, total = link.run(lambda transaction: work(transaction, own))
        except (Closed, OSError):
            return answered
        if total != 0:
            os._exit(4)
        if counter <= answered:
            os._exit(3)
        answered = counter
        os.write(log, counter.to_bytes(8, "big"))


def last_of(path: str) -> int:
    """The last counter in a log, which a kill may have cut."""
    with open(path, "rb") as log:
        numbers = log.read()
    whole = len(numbers) // 8 * 8
    return int.from_bytes(numbers[whole - 8 : whole], "big") if whole else 0


def main(address: str, tokens: str, client: int, path: str) -> None:
    log = os.open(path, os.O_WRONLY | os.O_CREAT | os.O_APPEND, 0o600)
    answered, token = last_of(path), read_token(tokens, client)
    while True:
        try:
            link = connect(address, token)
        except (Closed, Refused, OSError):
            time.sleep(0.05)
            continue
        answered = go_on(link, len(ACCOUNTS) + client, answered, log)
        link.close()


if __name__ == "__main__":
    main(sys.argv[1], sys.argv[2], int(sys.argv[3]), sys.argv[4])
