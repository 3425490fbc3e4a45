"""The exceptions of this package."""

from __future__ import annotations

from enum import IntEnum


class FaultNumber(IntEnum):
    """The numbers of faults, as rughvadi.h has them."""

    NOT_WELCOME = 1
    NO_TRANSACTION = 2
    TRANSACTION_OPEN = 3
    COMMITTING = 4
    WAITING = 5
    PAGE_RANGE = 6
    NOT_READ = 7
    NOT_HERE = 8
    NOT_WRITABLE = 9
    WRONG_LENGTH = 10
    POOL_FULL = 11
    EXHAUSTED = 12
    MEMORY = 13
    FRAME_SHORT = 0x101
    FRAME_VERSION = 0x102
    FRAME_KIND = 0x103
    FRAME_LENGTH = 0x104
    FRAME_RANGE = 0x105
    FRAME_ORDER = 0x106
    FRAME_MEMORY = 0x107
    LIMIT_CLIENTS = 0x201
    LIMIT_PAGES = 0x202
    LIMIT_PAGE_SIZE = 0x203
    LIMIT_SLOTS = 0x204
    LIMIT_KIN = 0x205
    LIMIT_KOUT = 0x206
    OTHER_KIND = 0x301
    UNFETCHED = 0x302
    NOTHING = 0x303
    ROOM = 0x304
    RANGE = 0x305
    HELD = 0x306


_NUMBERS: dict[int, int] = {each.value: each for each in FaultNumber}


class Error(Exception):
    """The base of this package's own exceptions."""


class Fault(Error):
    """A call was refused; everything is as it was before."""

    def __init__(self, number: int, text: str = "") -> None:
        super().__init__(number, text)
        self.number = _NUMBERS.get(number, number)
        """A `FaultNumber`, or a plain number if that has no name for it."""

    def __str__(self) -> str:
        return str(self.args[1]) or f"fault {int(self.number)}"


class NoTransaction(Fault):
    """No transaction is open."""


class TransactionOpen(Fault):
    """A transaction is open, or it is committing."""


class Waiting(Fault):
    """An ask has no answer yet: go on handing frames in."""


class NotHere(Fault):
    """The page's bytes left the pool: read it again."""


class OutOfMemory(Fault):
    """Memory was refused."""


class FrameFault(Fault):
    """The bytes are no frame."""


class FrameShort(FrameFault):
    """The frame isn't whole yet."""


class LimitFault(Fault):
    """A limit is out of range: `number` says which."""


class Unfetched(Fault):
    """First fetch the frames that wait."""


class Aborted(Error):
    """The transaction was the victim of a deadlock, and is undone: begin again."""

    def __init__(self) -> None:
        super().__init__("the transaction was the victim of a deadlock")


class Closed(Error, ConnectionError):
    """The connection ended, or a call that sends or receives ended early: make a new link."""


_CLASSES: dict[int, type[Fault]] = {
    FaultNumber.NO_TRANSACTION: NoTransaction,
    FaultNumber.TRANSACTION_OPEN: TransactionOpen,
    FaultNumber.WAITING: Waiting,
    FaultNumber.NOT_HERE: NotHere,
    FaultNumber.MEMORY: OutOfMemory,
    FaultNumber.FRAME_SHORT: FrameShort,
    FaultNumber.FRAME_MEMORY: OutOfMemory,
    FaultNumber.UNFETCHED: Unfetched,
}
_FAMILIES: dict[int, type[Fault]] = {0x100: FrameFault, 0x200: LimitFault}


def fault_of(number: int, text: str) -> Fault:
    """The exception of a fault."""
    family = _FAMILIES.get(number & ~0xFF, Fault)
    return _CLASSES.get(number, family)(number, text)
