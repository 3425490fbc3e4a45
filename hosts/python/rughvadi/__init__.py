"""A page server, and clients that keep their pages across transactions. What a client reads is
current, until the server restarts or is told that the client left.

`Server` and `Client` do no input or output: frames are handed in (`take`) and fetched (`frames`).
`Link` is a client over a connected socket:

    with link.transaction() as t:
        page = bytearray(t.read(5))
        page[0] += 1
        t[5] = page

`connect` makes a link to a store of a gateway. `rughvadi.aio` has both for asyncio.

A call of `Server` or `Client` keeps the interpreter's lock, so that no two run at once. A
free-threaded interpreter turns its lock on as this package is imported.
"""

from ._connect import connect
from ._core import Client, Server, Transaction, read_frame, version
from ._faults import (
    Aborted,
    Closed,
    Error,
    Fault,
    FaultNumber,
    FrameFault,
    FrameShort,
    LimitFault,
    NotHere,
    NoTransaction,
    OutOfMemory,
    TransactionOpen,
    Unfetched,
    Waiting,
)
from ._greeting import Refused, read_token
from ._link import Link
from ._values import Batch, BatchPage, Ended, Frame, FrameHead, Limits, Status

__all__ = [
    "Aborted",
    "Batch",
    "BatchPage",
    "Client",
    "Closed",
    "Ended",
    "Error",
    "Fault",
    "FaultNumber",
    "Frame",
    "FrameFault",
    "FrameHead",
    "FrameShort",
    "LimitFault",
    "Limits",
    "Link",
    "NoTransaction",
    "NotHere",
    "OutOfMemory",
    "Refused",
    "Server",
    "Status",
    "Transaction",
    "TransactionOpen",
    "Unfetched",
    "Waiting",
    "connect",
    "read_frame",
    "read_token",
    "version",
]
