"""one_process.py COUNT: a server and two clients in one process, on one thread. Each client adds
one to the counter of page 5, so many times. No socket is there, and a dict is the disk."""

import sys
from collections import deque
from typing import Iterator, Union

from rughvadi import Client, Ended, Limits, NoTransaction, Server, Status

LIMITS = Limits(clients=2, pages=16, page_size=64, slots=8, kin=2, kout=4)


class Process:
    """A server, its clients, and the frames that are on their way, each with who takes it."""

    def __init__(self) -> None:
        self.server = Server(LIMITS)
        self.clients = [Client(LIMITS, number, 1) for number in range(LIMITS.clients)]
        self.frames: deque[tuple[Union[Server, Client], bytes]] = deque()
        self.disk: dict[int, bytes] = {}

    def fetch(self, party: Union[Server, Client]) -> None:
        """Puts all that the party said in the queue. Nothing is handed in meanwhile."""
        for frame in party.frames():
            taker = self.clients[frame.client] if party is self.server else self.server
            self.frames.append((taker, frame.data))

    def carry(self) -> None:
        """Hands in a frame, fetches all that its taker says, then the next; and writes batches."""
        while True:
            while self.frames:
                taker, data = self.frames.popleft()
                taker.take(data)
                self.fetch(taker)
            batch = self.server.batch()
            if not batch:
                return
            self.disk.update((page.page, page.data) for page in batch.pages)
            self.server.flushed(batch.number)
            self.server.forget(batch.number)
            self.fetch(self.server)

    def wait(self, client: Client, status: Status) -> Iterator[None]:
        """Lets others go on while the client is so."""
        self.fetch(client)
        while client.status is status:
            yield

    def count(self, client: Client, times: int) -> Iterator[None]:
        """Counts so many times, and gives way wherever it waits."""
        client.hello()
        yield from self.wait(client, Status.NOT_WELCOME)
        while times:
            client.begin()
            try:
                while (page := client.read(5)) is None:
                    yield from self.wait(client, Status.WAITING)
                while not client.want(5):
                    yield from self.wait(client, Status.WAITING)
                number = int.from_bytes(page[:8], "little") + 1
                client.write(5, number.to_bytes(8, "little") + page[8:])
                client.finish()
            except NoTransaction:  # it was aborted meanwhile: begin again
                continue
            yield from self.wait(client, Status.COMMITTING)
            times -= client.last[0] is Ended.COMMITTED


process = Process()
jobs = [process.count(client, int(sys.argv[1])) for client in process.clients]
while jobs:
    jobs = [job for job in jobs if next(job, "ended") != "ended"]
    process.carry()
print("counted", int.from_bytes(process.disk[5][:8], "little"))
