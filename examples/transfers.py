"""transfers.py ADDRESS TOKENS TIMES: four processes share sixteen accounts.

Each account is on a page of its own, from page 1 on. Two processes move money from one account to
another, so many times each. The other two read all accounts as long as that goes on, each time in
one transaction, and look at the sum: it never changes. An account begins with 100, and never has
less than nothing.
"""

from __future__ import annotations

import multiprocessing
import random
import sys
import time
from multiprocessing.synchronize import Event
from typing import Callable, TypeVar

from rughvadi import Link, Refused, Transaction, connect, read_token

ACCOUNTS = range(1, 17)
BEGINS_WITH = 100
SUM = BEGINS_WITH * len(ACCOUNTS)
T = TypeVar("T")


def balance(transaction: Transaction, account: int) -> int:
    # A page that nobody wrote has zeros.
    moved = int.from_bytes(transaction[account][:8], "little", signed=True)
    return BEGINS_WITH + moved


def set_balance(transaction: Transaction, account: int, amount: int) -> None:
    page = bytearray(transaction[account])
    page[:8] = (amount - BEGINS_WITH).to_bytes(8, "little", signed=True)
    transaction[account] = page


def transfer(transaction: Transaction) -> None:
    giver, taker = random.sample(ACCOUNTS, 2)
    has = balance(transaction, giver)
    amount = random.randint(0, has)
    set_balance(transaction, giver, has - amount)
    set_balance(transaction, taker, balance(transaction, taker) + amount)


def total(transaction: Transaction) -> int:
    balances = [balance(transaction, account) for account in ACCOUNTS]
    if min(balances) < 0:
        raise AssertionError(f"an account has {min(balances)}")
    return sum(balances)


class Client:
    """A client that connects anew where the server was gone."""

    def __init__(self, address: str, tokens: str, number: int) -> None:
        self.address, self.token = address, read_token(tokens, number)
        self.link: Link | None = None

    def run(self, job: Callable[[Transaction], T]) -> T:
        for _ in range(300):
            try:
                self.link = self.link or connect(self.address, self.token)
                return self.link.run(job)
            except (Refused, OSError) as why:
                if isinstance(why, Refused) and not why.is_down:
                    raise
                if self.link:  # it is gone, as after each call that was interrupted as it sent
                    self.link.close()
                self.link = None
                time.sleep(0.1)
        raise TimeoutError("the server is gone")


def move(client: Client, times: int) -> None:
    for _ in range(times):
        client.run(transfer)


def look(client: Client, is_over: Event) -> None:
    looks = 0
    while looks == 0 or not is_over.is_set():
        found = client.run(total)
        if found != SUM:
            raise AssertionError(f"the sum is {found}")
        looks += 1
    print(f"client looked {looks} times, and the sum was always {SUM}", flush=True)


def main(address: str, tokens: str, times: int) -> int:
    is_over = multiprocessing.Event()
    clients = [Client(address, tokens, number) for number in range(4)]
    movers = [multiprocessing.Process(target=move, args=(it, times)) for it in clients[:2]]
    lookers = [multiprocessing.Process(target=look, args=(it, is_over)) for it in clients[2:]]
    for each in movers + lookers:
        each.start()
    for each in movers:
        each.join()
    is_over.set()
    for each in lookers:
        each.join()
    right = all(each.exitcode == 0 for each in movers + lookers)
    print(f"{2 * times} transfers" if right else "FAILED")
    return 0 if right else 1


if __name__ == "__main__":
    if len(sys.argv) != 4:
        sys.exit("transfers.py ADDRESS TOKENS TIMES")
    sys.exit(main(sys.argv[1], sys.argv[2], int(sys.argv[3])))
