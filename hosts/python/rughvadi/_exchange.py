"""What the blocking link and that of asyncio have in common: a client's frames over a socket."""

from __future__ import annotations

import contextlib
import socket

from ._core import Client, Wire
from ._faults import Aborted, Closed, Fault, FrameShort, NoTransaction, Unfetched, Waiting
from ._values import Ended, Limits, Status

TRIES = 30
"""How often it resends what may be lost, before it gives up."""

_MOST_AT_ONCE = 1 << 16


class Exchange:
    """A client over a connected stream socket.

    It counts as gone from before a frame is fetched from the client until all of it is sent, and
    from before bytes come from the socket until their frames are taken. Whatever ends such a call
    early, even a signal's exception, therefore leaves a link that is gone. No stream goes on behind
    half a frame."""

    def __init__(
        self, limits: Limits, client: int, incarnation: int, connected: socket.socket, owns: bool
    ) -> None:
        self.client = Client(limits, client, incarnation)
        self._socket = connected
        self._owns = owns
        self._wire = Wire(self.client, connected.fileno())
        self._came = bytearray()

    def close(self) -> None:
        """Frees the client. The socket stays the caller's, unless the link owns it."""
        self._wire.gone = True
        self.client.close()
        if self._owns:
            self._socket.close()

    def _send(self, data: bytes) -> None:
        """Sends a frame, or keeps it to be sent."""
        raise NotImplementedError

    def _check(self) -> None:
        if self._wire.gone:
            raise Closed("the connection ended")

    def _say(self) -> None:
        """Sends all frames of the client."""
        self._wire.gone = True
        self._send_said()
        self._wire.gone = False

    def _send_said(self) -> None:
        if self._wire.late:
            self._send(self._wire.late)
            self._wire.late = None
        while (data := self.client.next_data()) is not None:
            self._wire.is_silent = False
            self._send(data)

    def _send_all(self, said: tuple[bytes, ...]) -> None:
        """Sends what was fetched already, and all other frames of the client."""
        for data in said:
            self._send(data)
        self._say()

    def _receive(self) -> None:
        """Takes what the socket has, and sends the answers."""
        self._wire.gone = True
        try:
            got = self._socket.recv(_MOST_AT_ONCE)
        except BlockingIOError:
            self._wire.gone = False
            return
        if not got:
            raise Closed("the server closed the connection")
        self._came += got
        self._take_frames()
        self._wire.gone = False

    def _take_frames(self) -> None:
        # What comes may ask for pages that a waiting Drop gives back.
        self._send_said()
        while self._came:
            try:
                used = self.client.take(self._came)
            except FrameShort:
                return
            del self._came[:used]
            self._send_said()

    def _look_and_begin(self) -> None:
        """Begins a transaction, once what came meanwhile is taken. Without that, a program that
        only reads what it holds, and drops, would keep others waiting."""
        while not self._wire.begin():
            self._check()
            self._receive()

    def _drop(self) -> None:
        """Ends the transaction without a commit. If the server heard nothing of it, its Drop waits
        until something else is sent or comes, and costs no call of the system."""
        self._check()
        try:
            said = self._wire.drop()
        except Fault as why:
            self._pass_over(why)
            self._say()
            said = self._wire.drop()
        if said:
            self._send_all(said)

    def _leave(self) -> None:
        """Drops the transaction that an exception ends, if one is open and the link isn't gone.
        That exception is raised even if the connection fails as well."""
        if not self._wire.gone and self.client.status in (Status.OPEN, Status.WAITING):
            with contextlib.suppress(OSError):
                self._drop()

    def _pass_over(self, why: Fault) -> None:
        """Raises the fault, unless it says that an earlier ask isn't sent or answered yet."""
        if isinstance(why, (Unfetched, Waiting)):
            return
        if isinstance(why, NoTransaction) and self.client.last[0] is Ended.ABORTED:
            raise Aborted from None
        raise why

    def _commit_number(self) -> int:
        """The number of the commit that was just answered."""
        how, number = self.client.last
        if how is not Ended.COMMITTED:
            raise Aborted
        return number
