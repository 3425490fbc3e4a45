"""A client over a connected socket, whose calls block."""

from __future__ import annotations

import math
import select
import socket
import time
from typing import Any, Callable, Optional, TypeVar

from ._core import Transaction
from ._exchange import TRIES, Exchange
from ._faults import Aborted, Fault, NotHere
from ._tries import waits
from ._values import Limits, Status

T = TypeVar("T")


class Link(Exchange):
    """A client over a connected stream socket. If the socket has a time-out, what may be lost is
    sent again after each time-out. The client is gone once the connection fails, is closed or gives
    bytes that can't be taken, or once an exception ends a call that sends or receives. Each later
    call then raises `Closed`, even for a page that the client holds."""

    def __init__(
        self,
        limits: Limits,
        client: int,
        incarnation: int,
        connected: socket.socket,
        owns: bool = False,
    ) -> None:
        """Greets the server, and waits until the client is welcome. The socket is closed with the
        link, if it owns it."""
        super().__init__(limits, client, incarnation, connected, owns)
        self._poll = select.poll()
        self._poll.register(connected, select.POLLIN)
        self.client.hello()
        self._wait_while(Status.NOT_WELCOME)

    def __enter__(self) -> Link:
        return self

    def __exit__(self, *_: object) -> None:
        self.close()

    def transaction(self) -> Transaction:
        """A transaction for a `with` statement. It begins as the block is entered, commits at its
        end, and is dropped if an exception leaves it. `Aborted` if it was a deadlock's victim."""
        return self._wire.transaction(self)

    def run(
        self,
        job: Callable[[Transaction], T],
        *,
        tries: Optional[int] = None,
        seconds: Optional[float] = None,
    ) -> T:
        """Does the job in a transaction and commits it, and begins again if it is aborted. Before
        each further try it waits, and serves others meanwhile. The wait is at most 0.5 ms at first,
        and may be twice as long each time, up to 100 ms. `Aborted` after that many tries, or if the
        next one would begin after that many seconds; without a bound it goes on."""
        further = waits(tries, seconds)
        while True:
            try:
                with self.transaction() as transaction:
                    return job(transaction)
            except Aborted:
                wait = next(further, None)
                if wait is None:
                    raise
            self._serve_for(wait)

    def serve(self) -> bool:
        """Takes what the socket gives next, and answers. Others may wait for that, since they want
        pages that the client holds. So a program that looks at pages may also wait for a change in
        this way. False if the socket's time-out passed first (a second, unless `connect` was told
        otherwise)."""
        self._check()
        self._say()
        return self._receive_within(self._socket.gettimeout())

    def _serve_for(self, seconds: float) -> None:
        end = time.monotonic() + seconds
        self._check()
        self._say()
        while (left := end - time.monotonic()) > 0:
            if left < 0.001:  # poll counts in whole milliseconds
                time.sleep(left)
            elif self._poll.poll(int(1000 * left)):
                self._receive()

    def _send(self, data: bytes) -> None:
        # The socket's time-out is for answers. A frame that is sent in part has to go on.
        left, silent = memoryview(data), 0
        while left:
            try:
                left = left[self._socket.send(left) :]
                silent = 0
            except TimeoutError:
                silent += 1
                if silent > TRIES:
                    raise

    def _receive_within(self, seconds: Optional[float]) -> bool:
        """Receives once; false if nothing came within so many seconds."""
        if not self._poll.poll(None if seconds is None else math.ceil(1000 * seconds)):
            return False
        self._receive()
        return True

    def _wait_while(self, status: Status) -> None:
        silent = 0
        while self.client.status is status:
            self._say()
            if self._receive_within(self._socket.gettimeout()):
                continue
            silent += 1
            if silent > TRIES:
                raise TimeoutError("no answer came from the server")
            self.client.again()

    def _answer(self, call: Callable[..., Optional[T]], *arguments: Any) -> T:
        """What a call of the client returns, once it needs to wait for nothing."""
        while True:
            self._check()
            try:
                answer = call(*arguments)
            except Fault as why:
                self._pass_over(why)
                answer = None
            if answer is not None:
                return answer
            self._say()
            self._wait_while(Status.WAITING)

    def _begin(self) -> None:
        # If an exception ended the wait for a commit, that commit is awaited first.
        self._check()
        if self.client.status is Status.COMMITTING:
            self._wait_while(Status.COMMITTING)
        self._look_and_begin()

    def _fetch(self, page: int) -> bytes:
        return self._answer(self.client.read, page)

    def _want(self, page: int) -> bool:
        return self._answer(lambda: self.client.want(page) or None)

    def _put(self, page: int, data: bytes) -> None:
        try:
            self._want(page)
        except NotHere:
            self._fetch(page)
            self._want(page)
        self.client.write(page, data)

    def _commit(self) -> int:
        def finish() -> bool:
            self.client.finish()
            return True

        self._answer(finish)
        try:
            self._wait_while(Status.COMMITTING)
        except Exception:
            # Once it has ended, whatever fails behind that is raised by later calls.
            if self.client.status is Status.COMMITTING:
                raise
        return self._commit_number()
