"""Links on one loop, at a server on the same loop."""

from __future__ import annotations

import asyncio
import unittest
from typing import Callable
from unittest import mock

from host import Host, until_given_back
from rughvadi import Aborted, Closed, Ended, Limits, aio

CLIENTS, EACH = 8, 10
LIMITS = Limits(clients=CLIENTS, pages=8, page_size=64, slots=4)


async def add_one(transaction: aio.Transaction, page: int) -> None:
    was = await transaction.read(page)
    await asyncio.sleep(0)  # others go on
    number = int.from_bytes(was[:8], "little") + 1
    await transaction.write(page, number.to_bytes(8, "little") + was[8:])


class Loops(unittest.IsolatedAsyncioTestCase):
    async def asyncSetUp(self) -> None:
        asyncio.get_running_loop().set_debug(False)  # which makes each step many times as long
        self.host = Host(LIMITS)
        self.addCleanup(self.host.close)

    async def link(self, client: int, time_out: float | None = None) -> aio.Link:
        end = self.host.socket(client)
        link = await aio.Link.open(LIMITS, client, 1, end, owns=True, time_out=time_out)
        self.addCleanup(link.close)
        self.host.watch()
        return link

    def number(self, page: int) -> int:
        return int.from_bytes(self.host.disk[page][1][:8], "little")

    async def count_together(self, pages_of: Callable[[int], list[int]]) -> None:
        """Each client adds one to pages of its, all of them in one transaction, so many times."""

        async def count(client: int) -> None:
            async def job(transaction: aio.Transaction) -> None:
                for page in pages_of(client):
                    await add_one(transaction, page)

            for _ in range(EACH):
                await links[client].run(job)

        links = [await self.link(client) for client in range(CLIENTS)]
        await asyncio.gather(*map(count, range(CLIENTS)))

    async def test_eight_clients_count_on_one_page(self) -> None:
        await self.count_together(lambda _: [5])
        self.assertEqual(self.number(5), CLIENTS * EACH)

    async def test_eight_clients_count_on_two_pages_in_opposite_orders(self) -> None:
        # Of two that wait for each other one commits, so this ends on each machine.
        def pages(client: int) -> list[int]:
            both = [client // 2, 4 + client // 2]
            return both[::-1] if client % 2 else both

        await self.count_together(pages)
        self.assertEqual([self.number(page) for page in range(8)], [2 * EACH] * 8)

    async def test_a_commit_that_has_ended_is_told_whatever_fails_behind_it(self) -> None:
        link = await self.link(0)
        with mock.patch.object(link, "_send", side_effect=until_given_back(link._send)):
            async with link.transaction() as transaction:
                was = [await transaction.read(page) for page in (1, 2)]
                await transaction.write(1, bytes([7]) * len(was[0]))
                self.host.want_bare(1, 2)
            self.assertEqual((transaction.number, self.host.disk[1][1][0]), (1, 7))
            with self.assertRaises(Closed):
                async with link.transaction():
                    pass

    async def test_tasks_share_a_link(self) -> None:
        link = await self.link(0)

        async def job(transaction: aio.Transaction) -> None:
            await add_one(transaction, 3)

        await asyncio.gather(*[link.run(job) for _ in range(20)])
        self.assertEqual(self.number(3), 20)

    async def test_an_idle_link_answers(self) -> None:
        one, other = await self.link(0), await self.link(1)

        async def look(transaction: aio.Transaction) -> None:
            await transaction.read(1)

        async def job(transaction: aio.Transaction) -> None:
            await add_one(transaction, 1)

        await one.run(look)
        self.assertIsNotNone(one.client.peek(1))
        await other.run(job)
        self.assertIsNone(one.client.peek(1))
        self.assertEqual(self.number(1), 1)

    async def test_a_transaction_is_dropped(self) -> None:
        link = await self.link(0)
        with self.assertRaises(KeyError):
            async with link.transaction() as transaction:
                await add_one(transaction, 1)
                raise KeyError
        async with link.transaction() as transaction:
            await transaction.read(1)
            transaction.drop()
        self.assertEqual(link.client.last, (Ended.DROPPED, 0))
        self.assertEqual((self.number(1), self.host.last_commit), (0, 0))

    async def test_a_task_that_is_cancelled_leaves_the_link(self) -> None:
        link = await self.link(0)
        one = self.host.ends.pop(0)  # the server hears nothing for a while
        asyncio.get_running_loop().remove_reader(one)

        async def job(transaction: aio.Transaction) -> None:
            await add_one(transaction, 4)

        task = asyncio.create_task(link.run(job))
        await asyncio.sleep(0.01)
        task.cancel()
        with self.assertRaises(asyncio.CancelledError):
            await task
        self.host.ends[0] = one
        self.host.watch()
        self.host.pump()
        await link.run(job)
        self.assertEqual(self.number(4), 1)

    async def test_a_commit_whose_task_is_cancelled_is_awaited_by_the_next(self) -> None:
        link = await self.link(0)

        async def job(transaction: aio.Transaction) -> None:
            await add_one(transaction, 4)

        async def first(transaction: aio.Transaction) -> None:
            await add_one(transaction, 4)
            self.one = self.host.ends.pop(0)
            asyncio.get_running_loop().remove_reader(self.one)

        task = asyncio.create_task(link.run(first))
        while not hasattr(self, "one"):
            await asyncio.sleep(0)
        await asyncio.sleep(0)
        task.cancel()
        with self.assertRaises(asyncio.CancelledError):
            await task
        self.host.ends[0] = self.one
        self.host.watch()
        self.host.pump()
        await link.run(job)
        self.assertEqual(self.number(4), 2)

    async def test_the_end_of_the_connection_is_told_to_who_waits(self) -> None:
        link = await self.link(0)
        end = self.host.ends.pop(0)
        asyncio.get_running_loop().remove_reader(end)

        async def look(transaction: aio.Transaction) -> None:
            await transaction.read(1)

        task = asyncio.create_task(link.run(look))
        await asyncio.sleep(0)
        end.close()
        with self.assertRaises(Closed):
            await task
        with self.assertRaises(Closed):
            await link.run(look)

    async def test_a_silent_server_is_asked_again_and_given_up(self) -> None:
        link = await self.link(0, time_out=0.001)
        end = self.host.ends.pop(0)
        asyncio.get_running_loop().remove_reader(end)

        async def look(transaction: aio.Transaction) -> None:
            await transaction.read(1)

        with self.assertRaises(TimeoutError):
            await link.run(look)
        asked = end.recv(1 << 16)
        end.close()
        self.assertGreater(len(asked), 30 * 16, "it was said again")

    async def test_tries_are_bounded(self) -> None:
        link, tried = await self.link(0), []

        async def job(transaction: aio.Transaction) -> None:
            tried.append(await transaction.read(1))
            raise Aborted

        with self.assertRaises(Aborted):
            await link.run(job, tries=3)
        self.assertEqual(len(tried), 3)


if __name__ == "__main__":
    unittest.main()
