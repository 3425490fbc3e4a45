"""counter.py SOCKET CLIENT COUNT: adds one to the counter of page 5, so many times."""

import socket
import struct
import sys

from rughvadi import Limits, Link

LIMITS = Limits(clients=8, pages=16, page_size=64, slots=8, kin=2, kout=4)


def count(transaction) -> int:
    page = bytearray(transaction[5])
    number = int.from_bytes(page[:8], "little") + 1
    page[:8] = number.to_bytes(8, "little")
    transaction[5] = page
    return number


path, client, times = sys.argv[1], int(sys.argv[2]), int(sys.argv[3])
with socket.socket(socket.AF_UNIX) as connected:
    connected.connect(path)
    # The server is asked for an incarnation that no earlier one of this client had.
    connected.sendall(struct.pack(">BBHQI", 2, 0, client, 0, 0))
    answer = connected.recv(16, socket.MSG_WAITALL)
    link = Link(LIMITS, client, int.from_bytes(answer[4:12], "big"), connected)
    for _ in range(times):
        last = link.run(count)
    link.close()
print("counted", times)
