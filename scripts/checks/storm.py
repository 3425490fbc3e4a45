"""Faults in a row at a served store, judged from outside.

    scripts/check storm [--built] [KILLS [SEED]]      300 kills without a number

Six clients run transactions on six pages, whose values are all unlike. Meanwhile servers, gateways
and clients are killed at drawn moments, and strangers come to the gateway: who never greet, who
show wrong tokens, greet or say frames byte by byte, say half a frame, say what is none, don't read,
or hold a page and don't answer. The gateway is built with ASan and UBSan. The first half of the
kills is with kept write permissions, the second without. Then a last client reads all pages, and
the logs are judged (scripts/serial.py): by the commits' numbers each read has the value that the
last commit before wrote, or one whose answer nobody heard; who ended before another began has the
lower number; and what was written last is stored. Before all that the judge is tried by histories
that are right or wrong. It needs what `scripts/check serve` needs. KEEP names a folder that gets
the logs. The status is 1 where something is wrong.
"""
from __future__ import annotations

import contextlib
import json
import os
import random
import shutil
import struct
import threading
import time
from pathlib import Path

import building
import serial
from checks.bad_input import Peer
from checks.built import Built
from checks.frames import ASK_READ, HELLO, frame, of_read
from checks.killing import Workers, in_series, kill_often
from checks.trying import Tries, file_faults, numbers, sanitizer_fault
from serving import Gateway

WORKERS, PAGES, SIZE, ZERO = 6, 6, 256, "00" * 8
NUISANCES = 3


# ---- the judge ----

ONE, TWO, THREE = "01" * 8, "02" * 8, "03" * 8

# Lines of a log, whose last transaction reads what is stored, and whether something is wrong.
HISTORIES = {
    "a right one": (
        [[1, 2, 1, [[0, "w", ONE]]], [3, 4, 2, [[0, "r", ONE]]], [5, 6, 3, [[0, "r", ONE]]]],
        False),
    "one that reads what was written over": (
        [[1, 2, 1, [[0, "w", ONE]]], [3, 4, 2, [[0, "w", TWO]]], [5, 6, 3, [[0, "r", ONE]]],
         [7, 8, 4, [[0, "r", TWO]]]], True),
    "one that reads what nobody wrote": (
        [[1, 2, 1, [[0, "r", ONE]]], [3, 4, 2, [[0, "r", ZERO]]]], True),
    "two commits of a number": (
        [[1, 2, 1, [[0, "w", ONE]]], [3, 4, 1, [[1, "w", TWO]]], [5, 6, 2, [[0, "r", ONE]]]],
        True),
    "one out of real time": (
        [[5, 6, 1, [[0, "w", ONE]]], [1, 2, 2, [[0, "r", ONE]]], [7, 8, 3, [[0, "r", ONE]]]],
        True),
    "an answered commit that isn't stored": (
        [[1, 2, 1, [[0, "w", ONE]]], [3, 4, 2, [[0, "r", ZERO]]]], True),
    "an aborted one that was read": (
        [[1, None, -1, [[0, "w", ONE]]], [3, 4, 1, [[0, "r", ONE]]], [5, 6, 2, [[0, "r", ZERO]]]],
        True),
    "an unheard one that was read": (
        [[1, None, 0, [[0, "w", ONE]]], [3, 4, 2, [[0, "r", ONE]]], [5, 6, 3, [[0, "r", ONE]]]],
        False),
    "an unheard one that is stored": (
        [[1, None, 0, [[0, "w", THREE]]], [3, 4, 2, [[0, "r", THREE]]]], False),
    "an unheard one that is read and isn't stored": (
        [[1, None, 0, [[0, "w", ONE]]], [3, 4, 2, [[0, "r", ONE]]], [5, 6, 3, [[0, "r", ZERO]]]],
        True),
}


def try_the_judge(tries: Tries, room: Path) -> None:
    """It finds what is wrong, and nothing else."""
    for name, (lines, is_wrong) in HISTORIES.items():
        log = room / "judged"
        log.write_text("".join(json.dumps(line) + "\n" for line in lines))
        found = serial.judge([log]).faults
        tries.told(f"the judge: {name}", bool(found) == is_wrong, f"{found}")


# ---- those who come ----


def never_greets(gateway: Gateway, drawn: random.Random) -> None:
    with Peer(gateway) as peer:
        peer.socket.sendall(drawn.choice([b"", b"rugh", b"rughvadi\1\4"]))
        peer.is_closed(drawn.uniform(0, 3))


def wrong_token(gateway: Gateway, drawn: random.Random) -> None:
    with Peer(gateway, None, "127.0.0.7") as peer:
        peer.greeted(drawn.randbytes(32))


def byte_by_byte(gateway: Gateway, drawn: random.Random) -> None:
    """A greeting and then frames, a byte at a time; it stops somewhere."""
    with Peer(gateway) as peer:
        for byte in peer.greeting(gateway, WORKERS):
            peer.socket.sendall(bytes([byte]))
        answer = peer.exactly(40)
        peer.client, peer.incarnation = struct.unpack(">HQ", answer[2:12])
        asks = [frame(ASK_READ, WORKERS, peer.incarnation, of_read(1, page)) for page in range(6)]
        said = frame(HELLO, WORKERS, peer.incarnation) + b"".join(asks)
        for byte in said[: drawn.randrange(len(said))]:
            peer.socket.sendall(bytes([byte]))
        peer.is_closed(drawn.uniform(0, 1))


def garbage(gateway: Gateway, drawn: random.Random) -> None:
    with Peer(gateway, WORKERS) as peer:
        peer.welcome()
        peer.socket.sendall(drawn.randbytes(drawn.randrange(1, 5000)))
        peer.is_closed(1)


def holds_and_is_silent(gateway: Gateway, drawn: random.Random) -> None:
    """It has a page, and says Hellos in place of answers."""
    with Peer(gateway, WORKERS) as peer:
        peer.welcome()
        peer.say(ASK_READ, of_read(1, drawn.randrange(PAGES)))
        for _ in range(drawn.randrange(20)):
            peer.say(HELLO)
            peer.is_closed(0.2)


def never_reads(gateway: Gateway, drawn: random.Random) -> None:
    with Peer(gateway, WORKERS + 1) as peer:
        peer.welcome()
        ask = frame(ASK_READ, peer.client, peer.incarnation, of_read(1, drawn.randrange(PAGES)))
        peer.socket.settimeout(2)
        for _ in range(2000):
            peer.socket.sendall(ask)


SCENES = [never_greets, wrong_token, byte_by_byte, garbage, holds_and_is_silent, never_reads]


class Nuisances:
    """Threads that play such scenes until they are to end."""

    def __init__(self, gateway: Gateway, seed: int) -> None:
        self.gateway, self.is_over, self.counts = gateway, threading.Event(), {}
        self.threads = [threading.Thread(target=self.play, args=(random.Random(f"{seed} {at}"),))
                        for at in range(NUISANCES)]
        for each in self.threads:
            each.start()

    def play(self, drawn: random.Random) -> None:
        while not self.is_over.is_set():
            scene = drawn.choice(SCENES)
            # The gateway may be gone at any moment.
            with contextlib.suppress(OSError, EOFError, struct.error, ValueError):
                scene(self.gateway, drawn)
                self.counts[scene.__name__] = self.counts.get(scene.__name__, 0) + 1
            time.sleep(drawn.uniform(0, 0.1))

    def end(self) -> str:
        self.is_over.set()
        for each in self.threads:
            each.join()
        return ", ".join(f"{count} {name}" for name, count in sorted(self.counts.items()))


# ---- the storm ----


def run(tries: Tries, it: Built, keep: int, kills: int, seed: int) -> None:
    words = ("--silence", "2", "--patience", "2", "--buffer", "262144")
    limits = (WORKERS + 2, 16, SIZE, 8, keep)
    gateway = it.served(f"storm_{keep}", *words, limits=limits, has_port=True)
    starts = in_series(lambda _: gateway.socket, gateway.tokens, PAGES)
    workers = Workers(gateway.room, it.env, WORKERS, starts)
    workers.begin()
    nuisances = Nuisances(gateway, seed)
    said, wrong = kill_often(gateway, workers, random.Random(f"{seed} {keep}"), kills, 1.5)
    came = nuisances.end()
    workers.end()
    verdict = workers.judged(WORKERS)
    status = gateway.stop()
    if folder := os.environ.get("KEEP"):
        for path in workers.logs():
            shutil.copy(path, Path(folder) / f"{path.name}_{keep}")
    wrong += verdict.faults[:10] + file_faults(gateway.database())
    wrong += [f"status {status}"] if status else []
    wrong += list(filter(None, [sanitizer_fault(gateway.log())]))
    said = f"{said}; {came}; {str(verdict).splitlines()[0]}"
    tries.told(f"a storm, keep_write {keep}", not wrong, "\n".join([*wrong, said]))


def main(words: list[str]) -> int:
    built, (kills, seed) = numbers(words, "storm [--built] [KILLS [SEED]]", 300, 1)
    tries = Tries()
    with building.a_room() as room:
        try_the_judge(tries, room)
        it = Built(room, built)
        for keep in (1, 0):
            run(tries, it, keep, (kills + keep) // 2, seed)
    return tries.status("storm")
