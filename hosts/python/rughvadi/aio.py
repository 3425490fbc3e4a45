"""Links for asyncio: `connect`, `Link` and `Transaction` are those of the package, with `await`.

    async def count(transaction: aio.Transaction) -> None:
        page = bytearray(await transaction.read(5))
        page[0] = (page[0] + 1) % 256
        await transaction.write(5, page)

    async with await aio.connect("./socket", token) as link:
        await link.run(count)

A link answers what others ask of it whenever the loop runs, even while no task waits for it.
"""

from __future__ import annotations

import asyncio
import socket
from collections import deque
from types import TracebackType
from typing import Any, Awaitable, Callable, Optional, TypeVar

from ._connect import PATIENCE
from ._exchange import TRIES, Exchange
from ._faults import Aborted, Closed, Fault, NotHere
from ._greeting import ANSWER_SIZE, greeting, host_and_port, seat
from ._tries import waits
from ._values import Limits, Status

__all__ = ["Link", "Transaction", "connect"]

T = TypeVar("T")


class Link(Exchange):
    """A client over a connected stream socket, on one loop. Tasks share it, and their transactions
    follow one another. It is gone when a blocking link would be; each later call raises `Closed`.
    """

    def __init__(
        self,
        limits: Limits,
        client: int,
        incarnation: int,
        connected: socket.socket,
        owns: bool,
        time_out: Optional[float],
    ) -> None:
        """Don't call this: `open` makes a link."""
        super().__init__(limits, client, incarnation, connected, owns)
        self._time_out = time_out
        self._loop = asyncio.get_running_loop()
        self._turn = asyncio.Lock()
        self._news = asyncio.Event()
        self._unsent: deque[memoryview] = deque()
        self._is_watched = True
        connected.setblocking(False)
        self._loop.add_reader(connected, self._on_readable)

    @classmethod
    async def open(
        cls,
        limits: Limits,
        client: int,
        incarnation: int,
        connected: socket.socket,
        *,
        owns: bool = False,
        time_out: Optional[float] = 1.0,
    ) -> Link:
        """Greets the server over a connected socket, and waits until the client is welcome. What
        may be lost is sent again after each time-out of so many seconds; None waits forever."""
        link = cls(limits, client, incarnation, connected, owns, time_out)
        try:
            link.client.hello()
            await link._wait_while(Status.NOT_WELCOME)
        except BaseException:
            link.close()
            raise
        return link

    def close(self) -> None:
        """Frees the client. The socket stays the caller's, unless the link owns it."""
        self._wire.gone = True
        self._stop()
        super().close()

    async def __aenter__(self) -> Link:
        return self

    async def __aexit__(self, *_: object) -> None:
        self.close()

    def transaction(self) -> Transaction:
        """A transaction for an `async with` statement. It begins as the block is entered, behind
        those of other tasks. It commits at the block's end, and is dropped if an exception leaves
        the block. `Aborted` if it was a deadlock's victim."""
        return Transaction(self)

    async def run(
        self,
        job: Callable[[Transaction], Awaitable[T]],
        *,
        tries: Optional[int] = None,
        seconds: Optional[float] = None,
    ) -> T:
        """Does the job in a transaction and commits it, and begins again if it is aborted. Waits
        and bounds are those of a blocking link's `run`."""
        further = waits(tries, seconds)
        while True:
            try:
                async with self.transaction() as transaction:
                    return await job(transaction)
            except Aborted:
                wait = next(further, None)
                if wait is None:
                    raise
            await asyncio.sleep(wait)

    # ---- what the loop calls ----

    def _on_readable(self) -> None:
        self._guarded(self._receive)

    def _on_writable(self) -> None:
        self._guarded(self._go_on_sending)

    def _guarded(self, call: Callable[[], None]) -> None:
        """Makes the call. Whoever waits looks again, even if the link is gone after it."""
        try:
            if not self._wire.gone:
                call()
        except (OSError, Fault):
            pass  # the link is gone: its calls say so
        finally:
            if self._wire.gone:
                self._stop()
            self._news.set()

    def _stop(self) -> None:
        if self._is_watched:
            self._is_watched = False
            self._loop.remove_reader(self._socket)
            self._loop.remove_writer(self._socket)

    def _send(self, data: bytes) -> None:
        self._unsent.append(memoryview(data))
        if len(self._unsent) == 1:
            self._send_what_goes()

    def _send_what_goes(self) -> None:
        """Sends as much as the socket takes. The loop goes on once the socket takes more."""
        while self._unsent:
            try:
                count = self._socket.send(self._unsent[0])
            except BlockingIOError:
                self._loop.add_writer(self._socket, self._on_writable)
                return
            self._unsent[0] = self._unsent[0][count:]
            if not self._unsent[0]:
                self._unsent.popleft()

    def _go_on_sending(self) -> None:
        self._wire.gone = True
        self._loop.remove_writer(self._socket)
        self._send_what_goes()
        self._wire.gone = False

    # ---- what tasks call ----

    async def _wait_while(self, status: Status) -> None:
        silent = 0
        while self.client.status is status:
            self._check()
            self._say()
            self._news.clear()
            try:
                async with asyncio.timeout(self._time_out):
                    await self._news.wait()
                continue
            except TimeoutError:
                silent += 1
            if silent > TRIES:
                raise TimeoutError("no answer came from the server")
            if not self._unsent:
                self.client.again()
        self._check()

    async def _answer(self, call: Callable[..., Optional[T]], *arguments: Any) -> T:
        """What a call of the client returns, once it needs to wait for nothing."""
        while True:
            self._check()
            try:
                answer = call(*arguments)
            except Fault as why:
                self._pass_over(why)
                answer = None
            if answer is not None:
                return answer
            self._say()
            await self._wait_while(Status.WAITING)

    async def _begin(self) -> None:
        # The commit of a task that was cancelled is awaited first.
        self._check()
        if self.client.status is Status.COMMITTING:
            await self._wait_while(Status.COMMITTING)
        self._look_and_begin()

    async def _fetch(self, page: int) -> bytes:
        return await self._answer(self.client.read, page)

    async def _want(self, page: int) -> bool:
        return await self._answer(lambda: self.client.want(page) or None)

    async def _put(self, page: int, data: bytes) -> None:
        try:
            await self._want(page)
        except NotHere:
            await self._fetch(page)
            await self._want(page)
        self.client.write(page, data)

    async def _commit(self) -> int:
        def finish() -> bool:
            self.client.finish()
            return True

        await self._answer(finish)
        try:
            await self._wait_while(Status.COMMITTING)
        except Exception:
            # Once it has ended, whatever fails behind that is raised by later calls.
            if self.client.status is Status.COMMITTING:
                raise
        return self._commit_number()


class Transaction:
    """A transaction of a link, between the beginning and the end of an `async with`."""

    number: Optional[int] = None
    """The number of its commit, once it has committed."""
    _dropped = False

    def __init__(self, link: Link) -> None:
        self._link = link

    async def __aenter__(self) -> Transaction:
        await self._link._turn.acquire()
        try:
            await self._link._begin()
        except BaseException:
            self._link._turn.release()
            raise
        return self

    async def __aexit__(
        self,
        kind: Optional[type[BaseException]],
        error: Optional[BaseException],
        trace: Optional[TracebackType],
    ) -> None:
        try:
            if kind is None and not self._dropped:
                self.number = await self._link._commit()
            elif not self._dropped:
                self._link._leave()
        finally:
            self._link._turn.release()

    async def read(self, page: int) -> bytes:
        """The bytes of a page. Nobody writes the page before the transaction ends, unless the
        server restarts or is told that the client left."""
        link = self._link
        try:
            data = link._wire.read(page)
        except Fault:
            data = None
        # An ask is out, or the call was refused: the link makes it again.
        return await link._fetch(page) if data is None else data

    async def write(self, page: int, data: bytes) -> None:
        """Writes a page that the transaction has read."""
        await self._link._put(page, data)

    def drop(self) -> None:
        """Ends the transaction without a commit, as the last call of the `async with`. Nothing is
        written, and it waits for no answer, whereas a commit of reads alone waits for a sync. Its
        reads have no place among the commits."""
        self._link._drop()
        self._dropped = True


async def connect(
    address: str, token: bytes, store: str = "main", time_out: Optional[float] = 1.0
) -> Link:
    """A link to a store of a gateway. The gateway listens at HOST:PORT or on a Unix socket, whose
    path has a `/` in it. If an answer doesn't come within `time_out` seconds, what may be lost is
    sent again. None waits forever, for the gateway too.

    The link answers others whenever the loop runs. What keeps the loop for long belongs in
    `asyncio.to_thread`: if somebody has waited for 30 seconds, the gateway ends the connection. A
    second connection with the same token ends the first."""
    connected = None
    try:
        async with asyncio.timeout(None if time_out is None else PATIENCE * time_out):
            connected = await _dial(address)
            loop = asyncio.get_running_loop()
            await loop.sock_sendall(connected, greeting(token, store))
            limits, client, incarnation = seat(await _received(connected, ANSWER_SIZE))
        return await Link.open(
            limits, client, incarnation, connected, owns=True, time_out=time_out
        )
    except BaseException:
        if connected is not None:
            connected.close()
        raise


async def _dial(address: str) -> socket.socket:
    loop = asyncio.get_running_loop()
    if "/" in address:
        return await _dialled(socket.AF_UNIX, address)
    host, port = host_and_port(address)
    failed: OSError = Closed(f"{host} has no address")
    for family, _kind, _protocol, _name, at in await loop.getaddrinfo(
        host, port, type=socket.SOCK_STREAM
    ):
        try:
            connected = await _dialled(family, at)
            connected.setsockopt(socket.IPPROTO_TCP, socket.TCP_NODELAY, 1)
            return connected
        except OSError as why:
            failed = why
    raise failed


async def _dialled(family: int, at: Any) -> socket.socket:
    connected = socket.socket(family, socket.SOCK_STREAM)
    try:
        connected.setblocking(False)
        await asyncio.get_running_loop().sock_connect(connected, at)
    except BaseException:
        connected.close()
        raise
    return connected


async def _received(connected: socket.socket, size: int) -> bytes:
    came = b""
    while len(came) < size:
        got = await asyncio.get_running_loop().sock_recv(connected, size - len(came))
        if not got:
            raise ConnectionError("the gateway closed the connection")
        came += got
    return came
