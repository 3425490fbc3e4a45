"""The greeting of a gateway, which serves stores by name: bytes alone."""

from __future__ import annotations

import struct
from pathlib import Path
from typing import Union

from ._faults import Error
from ._values import Limits

_VERSION = 1
_ANSWER = struct.Struct(">BBHQ7I")
ANSWER_SIZE = _ANSWER.size
_REFUSALS = {
    2: "no client has this token",
    3: "no store has this name",
    4: "the store has no client with the token's number",
    5: "the store isn't served at the moment",
}


class Refused(Error):
    """The gateway refused a greeting. `is_down`: the store isn't served at the moment."""

    def __init__(self, answer: int) -> None:
        super().__init__(answer)
        self.is_down = answer == 5

    def __str__(self) -> str:
        return _REFUSALS.get(self.args[0], "no gateway of this version answered")


def read_token(path: Union[str, Path], client: int) -> bytes:
    """The token of a client, from a file of lines: a client's number and 64 hexadecimal digits."""
    for line in Path(path).read_text().splitlines():
        words = line.split()
        if words[:1] == [str(client)]:
            return bytes.fromhex(words[1])
    raise LookupError(f"{path} has no token of client {client}")


def host_and_port(address: str) -> tuple[str, int]:
    """The parts of HOST:PORT; a host with colons stands in brackets."""
    host, _, port = address.rpartition(":")
    if not host or not port.isdecimal():
        raise ValueError(f"{address!r} is neither HOST:PORT nor a path with a '/' in it")
    if host.startswith("[") and host.endswith("]"):
        host = host[1:-1]
    return host, int(port)


def greeting(token: bytes, store: str) -> bytes:
    """The greeting that a client sends first."""
    name = store.encode()
    if len(token) != 32 or len(name) > 63:
        raise ValueError("a token has 32 bytes, and a name at most 63")
    return b"rughvadi" + bytes([_VERSION, len(name)]) + token + name


def seat(answer: bytes) -> tuple[Limits, int, int]:
    """What the gateway answered: the limits, the client's number and its incarnation."""
    of, why, client, incarnation, *numbers = _ANSWER.unpack(answer)
    if of != _VERSION or why != 0:
        raise Refused(why if of == _VERSION else 1)
    clients, pages, page_size, slots, kin, kout, keep_write = numbers
    limits = Limits(clients, pages, page_size, slots, kin, kout, keep_write=bool(keep_write))
    return limits, client, incarnation
