"""Connecting to a gateway, which serves stores by name."""

from __future__ import annotations

import socket
from typing import Optional

from ._greeting import ANSWER_SIZE, greeting, host_and_port, seat
from ._link import Link

PATIENCE = 30
"""How many time-outs `connect` waits to be connected, and then to be welcomed."""


def connect(
    address: str, token: bytes, store: str = "main", time_out: Optional[float] = 1.0
) -> Link:
    """A link to a store of a gateway. The gateway listens at HOST:PORT or on a Unix socket, whose
    path has a `/` in it. If an answer doesn't come within `time_out` seconds, what may be lost is
    sent again. None waits forever, for the gateway too.

    The client has to answer as long as it is connected, since others wait for the pages that it
    holds. Between transactions call `serve`, or close the link before the program works, sleeps or
    waits for something else. If somebody has waited for 30 seconds, the gateway ends the
    connection, and the next call raises an `OSError`. A second connection with the same token ends
    the first."""
    patience = None if time_out is None else PATIENCE * time_out
    connected = _dial(address, patience)
    try:
        connected.sendall(greeting(token, store))
        limits, client, incarnation = seat(_received(connected, ANSWER_SIZE))
        connected.settimeout(time_out)
        return Link(limits, client, incarnation, connected, owns=True)
    except BaseException:
        connected.close()
        raise


def _dial(address: str, patience: Optional[float]) -> socket.socket:
    if "/" not in address:
        connected = socket.create_connection(host_and_port(address), patience)
        connected.setsockopt(socket.IPPROTO_TCP, socket.TCP_NODELAY, 1)
        return connected
    connected = socket.socket(socket.AF_UNIX)
    try:
        connected.settimeout(patience)
        connected.connect(address)
    except BaseException:
        connected.close()
        raise
    return connected


def _received(connected: socket.socket, size: int) -> bytes:
    came = b""
    while len(came) < size:
        got = connected.recv(size - len(came))
        if not got:
            raise ConnectionError("the gateway closed the connection")
        came += got
    return came
