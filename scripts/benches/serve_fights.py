"""Clients that fight for the same two pages of a served store, for `scripts/bench serve`.

One client alone; then 2, 6, 8 and 32, all in one order of the pages, and every second one in the
opposite order; then eight with pages of their own. For each: the commits as a ratio of those of the
one client in the same run, tries a commit, the most tries of one commit, and the commits of the
client with the fewest as a ratio of its share. Last, eight clients with pages of their own beside
200 connections that never greet, and come again each second where they are closed.
"""
from __future__ import annotations

import select
import shutil
import socket
import subprocess
import threading
from pathlib import Path

import serving

COUNTS = (2, 6, 8, 32)
CASES = [(1, "same"), *((count, order) for order in ("same", "opposite") for count in COUNTS),
         (8, "own")]
LIMITS = (32, 64, 4096, 16, 0)


def fight(it, room: Path, clients: int, order: str, seconds: float) -> list[int]:
    """Commits, tries, the most tries of one commit, the fewest and the most commits of a client."""
    room.mkdir()
    gateway = serving.Gateway(room, it.gateway, it.play, limits=LIMITS)
    gateway.start()
    words = [it.fighters, gateway.socket, gateway.tokens, "main", clients, seconds, order]
    done = subprocess.run(list(map(str, words)), stdout=subprocess.PIPE, text=True, check=True)
    gateway.stop()
    shutil.rmtree(room)
    return list(map(int, done.stdout.split()))


def turn(number: int, it, room: Path, seconds: float) -> None:
    """All of them once, one after another."""
    one = 0
    for clients, order in CASES:
        counts = fight(it, room / f"fight_{number}_{clients}_{order}", clients, order, seconds)
        commits, tries, longest, least, _ = counts
        one = one or commits
        said = f"{commits / one:.2f} of one client's commits, {tries / commits:.2f} tries a commit,"
        said += f" {longest} at most, the fewest {least * clients / commits:.2f} of a share"
        print(f"two pages, {clients} clients, {order} order, turn {number}: {said}", flush=True)


# ---- strangers ----

STRANGERS = 200


class Strangers:
    """Connections to a port that never greet, from so many addresses of this machine: those that
    were closed come again each second."""

    def __init__(self, port: int, addresses: int) -> None:
        self.port, self.is_over = port, threading.Event()
        self.sources = [f"127.0.0.{2 + at % addresses}" for at in range(STRANGERS)]
        self.thread = threading.Thread(target=self.stay)
        self.thread.start()

    def come(self, source: str) -> socket.socket:
        return socket.create_connection(("127.0.0.1", self.port), 20, (source, 0))

    def stay(self) -> None:
        there = {connected.fileno(): (connected, source) for source in self.sources
                 for connected in [self.come(source)]}
        look = select.poll()
        for number in there:
            look.register(number, select.POLLIN)
        while not self.is_over.wait(1):
            for number, _ in look.poll(0):
                look.unregister(number)
                connected, source = there.pop(number)
                connected.close()
                again = self.come(source)
                there[again.fileno()] = (again, source)
                look.register(again.fileno(), select.POLLIN)
        for connected, _ in there.values():
            connected.close()

    def end(self) -> None:
        self.is_over.set()
        self.thread.join()


def beside_strangers(number: int, it, room: Path, seconds: float) -> None:
    """Eight clients with pages of their own: alone, and beside strangers."""
    alone = 0
    for addresses in (0, 1, 32):
        own = room / f"strangers_{number}_{addresses}"
        own.mkdir()
        gateway = serving.Gateway(own, it.gateway, it.play, limits=LIMITS, has_port=True)
        gateway.start()
        strangers = Strangers(gateway.port, addresses) if addresses else None
        words = [it.fighters, gateway.socket, gateway.tokens, "main", 8, seconds, "own"]
        done = subprocess.run(list(map(str, words)), stdout=subprocess.PIPE, text=True, check=True)
        if strangers:
            strangers.end()
        gateway.stop()
        shutil.rmtree(own)
        commits = int(done.stdout.split()[0])
        alone = alone or commits
        name = f"{STRANGERS} strangers from {addresses} addresses" if addresses else "no strangers"
        print(f"eight clients, {name}, turn {number}: {commits / alone:.2f}", flush=True)
