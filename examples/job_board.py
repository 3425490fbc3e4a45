"""job_board.py ADDRESS TOKENS CLIENT COMMAND ..: a job board that several processes share.

    put TEXT ..       puts a job for each text
    work SECONDS      takes jobs, and works so long on each, until there is none
    list              writes the jobs that nobody has taken

Page 0 has the numbers of the oldest job and of the next one. Page 1 + C is the receipt of client C:
how many changes it has made, and the job of the last one. The pages behind are a ring of jobs. Each
job is taken once, even if server or gateway are killed meanwhile. Each process needs a token of its
own, since it alone writes its receipt.
"""

from __future__ import annotations

import asyncio
import json
import sys
import time
from typing import Any, Awaitable, Callable, Optional

from rughvadi import Refused, aio, read_token

HEAD = 0
Job = dict[str, Any]
Change = Callable[[aio.Transaction, dict[str, int]], Awaitable[Optional[Job]]]


async def load(transaction: aio.Transaction, page: int, **otherwise: Any) -> dict[str, Any]:
    """The JSON of a page. A page that nobody wrote has zeros, which stand for `otherwise`."""
    return json.loads((await transaction.read(page)).rstrip(b"\0") or b"null") or otherwise


async def save(transaction: aio.Transaction, page: int, value: dict[str, Any]) -> None:
    size, text = len(await transaction.read(page)), json.dumps(value).encode()
    if len(text) > size:
        sys.exit("the text is longer than a page")
    await transaction.write(page, text.ljust(size, b"\0"))


class Board:
    """A job board, as one client sees it. Its link answers others whenever the loop runs."""

    link: Optional[aio.Link] = None
    changes: Optional[int] = None
    """How many changes this client has made, as far as it knows."""

    def __init__(self, address: str, token: bytes, client: int) -> None:
        self.address, self.token, self.receipt = address, token, 1 + client

    async def run(self, job: Callable[[aio.Transaction], Awaitable[Any]]) -> Any:
        """Does a job in a transaction, over a new link where the old one is gone."""
        for _ in range(300):
            try:
                self.link = self.link or await aio.connect(self.address, self.token)
                return await self.link.run(job)
            except (Refused, OSError) as why:
                if isinstance(why, Refused) and not why.is_down:
                    raise
                self.close()
                await asyncio.sleep(0.1)
        sys.exit("the gateway is gone")

    def close(self) -> None:
        if self.link:
            self.link.close()
        self.link = None

    def page_of(self, number: int) -> int:
        limits = self.link.client.limits
        return 1 + limits.clients + number % (limits.pages - 1 - limits.clients)

    async def change(self, change: Change) -> Optional[Job]:
        """Makes a change once. If the answer to its commit was lost, the receipt tells that it was
        made. The job that was put or taken; None if there was nothing to do."""

        async def once(transaction: aio.Transaction) -> Optional[Job]:
            receipt = await load(transaction, self.receipt, changes=0)
            if self.changes is None:
                self.changes = receipt["changes"]
            if receipt["changes"] > self.changes:
                return receipt["job"]
            head = await load(transaction, HEAD, oldest=0, next=0)
            job = await change(transaction, head)
            if job is None:
                transaction.drop()  # it only read: there is nothing to commit
                return None
            await save(transaction, HEAD, head)
            await save(transaction, self.receipt, {"changes": self.changes + 1, "job": job})
            return job

        job = await self.run(once)
        self.changes += job is not None
        return job

    async def put(self, text: str) -> Optional[Job]:
        """Puts a job; None if the board is full."""

        async def change(transaction: aio.Transaction, head: dict[str, int]) -> Optional[Job]:
            oldest, number = head["oldest"], head["next"]
            if number > oldest and self.page_of(number) == self.page_of(oldest):
                return None
            job = {"number": number, "text": text}
            await save(transaction, self.page_of(number), job)
            head["next"] += 1
            return job

        return await self.change(change)

    async def take(self) -> Optional[Job]:
        """Takes the oldest job, which nobody else gets; None if there is none."""

        async def change(transaction: aio.Transaction, head: dict[str, int]) -> Optional[Job]:
            oldest = head["oldest"]
            head["oldest"] += 1
            return await load(transaction, self.page_of(oldest)) if oldest < head["next"] else None

        return await self.change(change)

    async def list(self) -> list[Job]:
        async def look(transaction: aio.Transaction) -> list[Job]:
            head = await load(transaction, HEAD, oldest=0, next=0)
            numbers = range(head["oldest"], head["next"])
            jobs = [await load(transaction, self.page_of(it)) for it in numbers]
            transaction.drop()
            return jobs

        return await self.run(look)


def show(job: Job) -> None:
    print(job["number"], job["text"], flush=True)


async def main(address: str, tokens: str, client: str, command: str, *words: str) -> None:
    board = Board(address, read_token(tokens, int(client)), int(client))
    if command == "put":
        for text in words:
            while not await board.put(text):
                await asyncio.sleep(0.1)
    elif command == "work":
        while job := await board.take():
            await asyncio.to_thread(time.sleep, float(words[0]))  # meanwhile the link answers
            show(job)
    elif command == "list":
        for job in await board.list():
            show(job)
    board.close()


if __name__ == "__main__":
    asyncio.run(main(*sys.argv[1:])) if len(sys.argv) > 4 else sys.exit(__doc__)
