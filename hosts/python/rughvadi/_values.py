"""The values that the library takes and returns."""

from __future__ import annotations

import struct
from dataclasses import dataclass
from enum import Enum
from typing import Optional, cast


@dataclass(frozen=True)
class Limits:
    """The limits of one store, which its server and its clients share, except for slots, kin and
    kout: each client has its own. A server doesn't use these three, but refuses values out of
    range."""

    clients: int
    """1 to 32; they are numbered from 0."""
    pages: int
    """1 to 4,096; they are numbered from 0."""
    page_size: int
    """Bytes: 16 to 65,536 by steps of 16."""
    slots: int
    """Pages in a client's pool: 2 to 1,024."""
    kin: int = cast(int, None)
    """1 to one less than the slots: with more new pages in the pool, one of these goes. By
    default a quarter of the slots, at least 1."""
    kout: int = cast(int, None)
    """1 to 4,096: how many new pages that went are remembered. By default half the slots, at least
    1."""
    keep_write: bool = False
    """Whether clients keep write permissions between transactions."""

    def __post_init__(self) -> None:
        for name, part in (("kin", 4), ("kout", 2)):
            if getattr(self, name) is None:
                object.__setattr__(self, name, max(1, self.slots // part))
        numbers = (self.clients, self.pages, self.page_size, self.slots, self.kin, self.kout)
        try:
            packed = struct.pack("=7Q", *numbers, bool(self.keep_write))
        except struct.error:
            raise ValueError("a limit is out of range") from None
        # As the library's struct has them.
        object.__setattr__(self, "_packed", packed)


class Status(Enum):
    """What a client reports about itself."""

    NOT_WELCOME = 1
    IDLE = 2
    OPEN = 3
    WAITING = 4
    COMMITTING = 5


class Ended(Enum):
    """How a transaction ended."""

    COMMITTED = 1
    DROPPED = 2
    ABORTED = 3


STATUSES: tuple[Optional[Status], ...] = (None, *Status)
"""By the library's number; 0 is that of a closed client."""
ENDINGS: tuple[Optional[Ended], ...] = (None, *Ended)
"""By the library's number; 0 stands before the first end."""


@dataclass(frozen=True)
class Frame:
    """A frame to be sent, and the client that it comes from or goes to."""

    client: int
    data: bytes


@dataclass(frozen=True)
class FrameHead:
    """What the header of a frame says."""

    length: int
    client: int
    kind: int
    incarnation: int


@dataclass(frozen=True)
class BatchPage:
    """A page that is to be written, and the number of the commit that wrote it last."""

    page: int
    version: int
    data: bytes


@dataclass(frozen=True)
class Batch:
    """What is to be written next, in one transaction of the store, and synced."""

    number: int
    pages: tuple[BatchPage, ...]
