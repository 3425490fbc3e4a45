"""gone.py ADDRESS TOKENS CLIENT: a client that holds a page as its server becomes another.

It says `held`, and goes on as a line comes. Then each call of it is to say that the connection was
closed: that which looks at it first, and the read of the page that it holds after that.
"""

from __future__ import annotations

import sys
from typing import Callable

from rughvadi import Closed, connect, read_token


def is_closed(call: Callable[[], object]) -> bool:
    try:
        call()
    except Closed:
        return True
    return False


def main(address: str, tokens: str, client: int) -> int:
    link = connect(address, read_token(tokens, client))
    transaction = link.transaction()
    transaction.__enter__()
    page = transaction.read(3)
    held = transaction.read(3) == page
    print("held" if held else "FAILED", flush=True)
    sys.stdin.readline()
    calls = [link.serve, lambda: transaction.read(3), lambda: transaction.write(3, page)]
    calls.append(link.transaction().__enter__)
    closed = [is_closed(call) for call in calls]
    print("gone" if all(closed) else f"FAILED: {closed}")
    return 0 if all(closed) else 1


if __name__ == "__main__":
    sys.exit(main(sys.argv[1], sys.argv[2], int(sys.argv[3])))
