"""count.py ADDRESS TOKENS CLIENT: adds one to the number at the front of page 0."""
import sys
from rughvadi import connect, read_token

def add_one(transaction) -> int:
    page = bytearray(transaction[0])  # sends no message if this client holds the page
    number = int.from_bytes(page[:8], "little") + 1
    page[:8] = number.to_bytes(8, "little")
    transaction[0] = page  # waits until every other client has given the page back
    return number

with connect(sys.argv[1], read_token(sys.argv[2], int(sys.argv[3]))) as link:
    print(link.run(add_one))  # begins again after an abort; returns once it is on disk
