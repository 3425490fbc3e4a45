"""Frames as checks say and hear them, by docs/FORMATS.md."""
import struct

HEADER = struct.Struct(">BBHQI")
HELLO, ASK_READ, ASK_WRITE, GIVE_BACK, IN_USE, COMMIT, DROP, DOWNGRADED = range(1, 9)
WELCOME, GRANTED, MAY_WRITE, CALLBACK, DONE, ABORT_NOW, DOWNGRADE = range(65, 72)
# A header that asks for all that may be lost.
AGAIN = HEADER.pack(2, 0, 0, 0, 0)


def frame(kind: int, client: int, incarnation: int, body: bytes = b"", version: int = 2) -> bytes:
    return HEADER.pack(version, kind, client, incarnation, len(body)) + body


def of_read(txn: int, page: int) -> bytes:
    """The body of an AskRead."""
    return struct.pack(">QI", txn, page)


def of_write(txn: int, page: int, grant: int) -> bytes:
    """The body of an AskWrite, a MayWrite or an InUse."""
    return struct.pack(">QIQ", txn, page, grant)


def of_page(page: int, grant: int, body: bytes) -> bytes:
    """A page in a Commit."""
    return struct.pack(">IQI", page, grant, len(body)) + body


def of_commit(txn: int, *pages: bytes) -> bytes:
    """The body of a Commit."""
    return struct.pack(">QH", txn, len(pages)) + b"".join(pages)
