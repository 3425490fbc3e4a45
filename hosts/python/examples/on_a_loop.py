"""on_a_loop.py SOCKET COUNT: eight clients on one loop. Each adds one to the counter of page 5, so
many times."""

import asyncio
import socket
import sys
import time

from rughvadi import Limits, aio

LIMITS = Limits(clients=8, pages=16, page_size=64, slots=8)


async def count(transaction: aio.Transaction) -> None:
    page = await transaction.read(5)
    number = int.from_bytes(page[:8], "little") + 1
    await transaction.write(5, number.to_bytes(8, "little") + page[8:])


async def count_often(path: str, client: int, times: int) -> None:
    with socket.socket(socket.AF_UNIX) as connected:
        connected.connect(path)
        # An incarnation that no earlier one of this client had.
        async with await aio.Link.open(LIMITS, client, time.time_ns(), connected) as link:
            for _ in range(times):
                await link.run(count)


async def main(path: str, times: int) -> None:
    await asyncio.gather(*(count_often(path, client, times) for client in range(LIMITS.clients)))
    print("counted", LIMITS.clients * times)


asyncio.run(main(sys.argv[1], int(sys.argv[2])))
