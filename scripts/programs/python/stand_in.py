"""stand_in.py [OPTION ..] CONFIG DATABASE: stands in for a server behind a gateway, where a check
wants one that does what no real server does.

Each page is zeros, each ask is granted at once and each Commit is done: so it keeps no promise.
With --recall each page is called back as soon as it was granted, and each transaction that asks to
write is to abort. With --downgrade each permission to write is called back once it was given. With
--stale each client is welcomed in the incarnation before first. With --floor, which may be said
more than once, it announces that floor of its life once the file of --wait, if that is said, is
there. While the file of --mute is there it reads and says nothing. With --hold a process of its own
holds its output as long as that file is there; with --chatter it says frames meanwhile. With --note
the file of that name gets its DATABASE.
"""

from __future__ import annotations

import argparse
import os
import struct
import sys
import time
import tomllib

HEADER = struct.Struct(">BBHQI")
HELLO, ASK_READ, ASK_WRITE, COMMIT = 1, 2, 3, 6
WELCOME, GRANTED, MAY_WRITE, CALLBACK, DONE, ABORT_NOW, DOWNGRADE = range(65, 72)


def said(kind: int, client: int, incarnation: int, body: bytes = b"") -> bytes:
    return HEADER.pack(2, kind, client, incarnation, len(body)) + body


class Server:
    def __init__(self, page_size: int, it: argparse.Namespace) -> None:
        self.page_size, self.recalls, self.downgrades = page_size, it.recall, it.downgrade
        self.is_stale, self.grants, self.commits = it.stale, 0, 0

    def answer(self, kind: int, client: int, incarnation: int, body: bytes) -> bytes:
        """What is said to a frame."""
        if kind == HELLO:
            former = said(WELCOME, client, incarnation - 1) if self.is_stale else b""
            return former + said(WELCOME, client, incarnation)
        if kind == ASK_READ:
            self.grants += 1
            named = body[8:12] + struct.pack(">Q", self.grants)
            page = struct.pack(">QI", 0, self.page_size) + bytes(self.page_size)
            granted = said(GRANTED, client, incarnation, named + page)
            recall = said(CALLBACK, client, incarnation, named) if self.recalls else b""
            return granted + recall
        if kind == ASK_WRITE and self.recalls:
            return said(ABORT_NOW, client, incarnation, body[:8])
        if kind == ASK_WRITE:
            downgrade = said(DOWNGRADE, client, incarnation, body[8:] + bytes(8))
            may_write = said(MAY_WRITE, client, incarnation, body)
            return may_write + downgrade if self.downgrades else may_write
        if kind == COMMIT:
            self.commits += 1
            return said(DONE, client, incarnation, body[:8] + struct.pack(">Q", self.commits))
        return b""


def wait_while(what) -> None:
    while what():
        time.sleep(0.02)


def hold_output(path: str, chats: bool) -> None:
    """A process of its own, which holds the output."""
    if os.fork() == 0:
        os.close(0)
        while os.path.exists(path):
            if chats:
                os.write(1, said(WELCOME, 0, 1))
            time.sleep(0.02)
        os._exit(0)


def serve(server: Server, mute: str | None) -> None:
    waiting = b""
    while came := os.read(0, 1 << 20):
        wait_while(lambda: mute and os.path.exists(mute))
        waiting += came
        answers = []
        while len(waiting) >= HEADER.size:
            _, kind, client, incarnation, size = HEADER.unpack(waiting[: HEADER.size])
            if len(waiting) < HEADER.size + size:
                break
            body = waiting[HEADER.size : HEADER.size + size]
            answers.append(server.answer(kind, client, incarnation, body))
            waiting = waiting[HEADER.size + size :]
        sys.stdout.buffer.write(b"".join(answers))
        sys.stdout.buffer.flush()


def main() -> None:
    words = argparse.ArgumentParser()
    words.add_argument("--floor", type=int, action="append", default=[])
    for word in ("--recall", "--downgrade", "--stale", "--chatter"):
        words.add_argument(word, action="store_true")
    for word in ("--wait", "--mute", "--hold", "--note"):
        words.add_argument(word)
    words.add_argument("config")
    words.add_argument("database")
    it = words.parse_args()
    with open(it.config, "rb") as config:
        page_size = tomllib.load(config)["page_size"]
    if it.note:
        with open(it.note, "w", encoding="utf-8") as note:
            note.write(it.database)
    wait_while(lambda: it.wait and not os.path.exists(it.wait))
    if it.hold:
        hold_output(it.hold, it.chatter)
    sys.stdout.buffer.write(b"".join(said(0, 0, floor) for floor in it.floor))
    sys.stdout.buffer.flush()
    serve(Server(page_size, it), it.mute)


if __name__ == "__main__":
    main()
