"""Draws schedules over several lives of the server, by the model that plays them as they are drawn.

Most events are those that lead on: a packet that nobody took yet, the next call of a transaction, a
restart of a client whose incarnation is below the floor. The others are late, repeated or refused.
"""
from __future__ import annotations

import random

from checks.world_model import COMMITTING, IDLE, World, limits_of


class Drawing:
    """A world, and the events that were drawn for it so far."""

    def __init__(self, seed: int) -> None:
        self.drawn = random.Random(seed)
        self.config = self.drawn_config()
        self.world = World(limits_of(self.config))
        self.untaken: list[int] = []
        self.events: list[str] = []
        self.lines: list[str] = []

    def drawn_config(self) -> str:
        """Small limits, so that clients get in each other's way."""
        slots = self.drawn.randint(2, 4)
        keys = {
            "clients": self.drawn.randint(1, 4), "pages": self.drawn.randint(1, 5),
            "page_size": 16, "slots": slots, "kin": self.drawn.randint(1, slots - 1),
            "kout": self.drawn.randint(1, 3), "keep_write": self.drawn.randint(0, 1), "lives": 1,
        }
        return "".join(f"{key} = {value}\n" for key, value in keys.items())

    def client(self) -> int:
        return self.drawn.randrange(self.world.limits.clients)

    def page(self) -> int:
        return self.drawn.randrange(self.world.limits.pages)

    def life(self) -> str:
        """A restart of the server: mostly one that may happen."""
        server = self.world.server
        known = max([server.floor, *(it.current for it in server.sessions)])
        floor = self.drawn.choice([known + 1, known + 1, known + 1, known + 2, max(known, 1)])
        number = self.drawn.randint(server.flushed, server.last)
        wrong = [max(server.flushed - 1, 0), server.last + 1]
        return f"life {floor} {self.drawn.choice([number] * 6 + wrong)}"

    def call(self) -> str:
        """A call that goes on with a client's transaction."""
        at = self.client()
        client = self.world.clients[at]
        if self.world.incarnations[at] < self.world.server.floor and self.drawn.random() < 0.2:
            return f"restart {at}"
        if not client.welcomed or client.ask or client.status == COMMITTING:
            return f"again {at}" if self.drawn.random() < 0.2 else self.take()
        if client.status == IDLE:
            return f"begin {at}"
        if not client.locked or self.drawn.random() < 0.4:
            return f"read {at} {self.page()}"
        page = self.drawn.choice(sorted(client.locked))
        if page in client.may_write:
            write = f"write {at} {page} {self.drawn.randrange(256)}"
            return self.drawn.choice([write] * 3 + [f"finish {at}"] * 2 + [f"read {at} {page}"])
        return self.drawn.choice([f"want {at} {page}"] * 5 + [f"finish {at}"] * 2)

    def take(self) -> str:
        """A packet is taken: mostly the first or the last that nobody took."""
        if not self.untaken or self.drawn.random() < 0.1:
            return f"take {self.drawn.randint(0, len(self.world.packets))}"
        place = self.drawn.choice([0, 0, 0, -1])
        return f"take {self.untaken.pop(place)}"

    def rare(self) -> str:
        """What is seldom, or refused."""
        at, page = self.client(), self.page()
        return self.drawn.choice([
            self.life(), "flush", "flush", "again server", f"hello {at}", f"restart {at}",
            f"flush {self.drawn.randint(0, self.world.server.last + 1)}", f"again {at}",
            f"drop {at}", f"peek {at} {page}", f"want {at} {page}", f"write {at} {page} 7",
        ])

    def play(self) -> None:
        """The next event is drawn and played."""
        kind = self.drawn.choices([self.call, self.take, self.rare], [9, 8, 3])[0]
        self.events.append(kind())
        before = len(self.world.packets)
        self.lines.append(self.world.play(self.events[-1]))
        self.untaken += range(before, len(self.world.packets))


def drawn(seed: int) -> tuple[str, str, str]:
    """A configuration, a schedule of several lives, and what is printed of it."""
    it = Drawing(seed)
    for client in range(it.world.limits.clients):
        it.events.append(f"hello {client}")
        it.lines.append(it.world.play(it.events[-1]))
        it.untaken.append(client)
    for _ in range(it.drawn.randint(100, 600)):
        it.play()
    return it.config, "\n".join(it.events), "\n".join([*it.lines, *it.world.last_lines()]) + "\n"
