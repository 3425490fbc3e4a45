"""Plays and calls the built program at each limit, where nothing is wrong: never a fault.

    scripts/check limits

Each of these is played or called once, and what comes is compared with what is to come:

- each number of clients, 1 to 32, with and without the setting
- pages, slots and the bounds of 2Q at and beside each power of two, each page and slot used
- each page size, 16 to 65,536: a play, and the frames of a client and of a server in both versions
- a hundred incarnations of a client
- 120,000 commits, which are 960,000 events and 240,000 packets
- a million events, as many as there may be
- a run of 100,000 jobs, and then as many commits of one stream of `serve`
- a run, and then `serve` over its store, at each number of clients, and of pages, page sizes and
  slots at and beside powers of two

So want of memory that is answered where none was refused, at one number alone, is found, and each
other fault that has no cause there. It needs `cb_play`, which is built first unless PROGRAM names a
built one. The files lie in ROOM, if that is set. It takes some ninety seconds of processor time. It
ends with how many were right; the status is 1 where one isn't.
"""
import itertools
import os
import struct
import tempfile
from concurrent.futures import ThreadPoolExecutor
from functools import partial
from pathlib import Path

import building
from checks import frames
from checks.frames import (
    ASK_READ, ASK_WRITE, COMMIT, DONE, GRANTED, HELLO, MAY_WRITE, WELCOME, of_commit, of_read,
    of_write,
)
from checks.trying import ran

COMMITS, EVENTS = 120_000, 1_000_000
# The incarnation from which on a store is served that was never served before.
FIRST_FLOOR = 1 << 61
NAMES = ["clients", "pages", "page_size", "slots", "kin", "kout", "keep_write"]


def beside_powers(least, most):
    """The numbers at and beside each power of two, between two bounds."""
    powers = [1 << bit for bit in range(most.bit_length() + 1)]
    near = {power + beside for power in powers for beside in (-1, 0, 1)}
    return sorted(it for it in near | {least, most} if least <= it <= most)


def limits(**given):
    """Limits: small ones, but for those that are given."""
    small = {"clients": 2, "pages": 2, "page_size": 16, "slots": 2, "kin": 1, "kout": 1}
    return {**small, "keep_write": 0, **given}


class Schedule:
    """The events of a schedule, and the lines that are to be printed of them."""

    def __init__(self, given):
        self.given, self.events, self.lines, self.sent = given, [], [], 0
        self.commits, self.held, self.begun = 0, 0, {}

    def event(self, text, answer, *packets):
        """Notes an event; answers the number of the last packet that it sends."""
        self.events.append(text)
        numbered = "".join(f" {at}:{it}" for at, it in enumerate(packets, self.sent))
        self.lines.append(f"{len(self.events)} {answer}{numbered}")
        self.sent += len(packets)
        return self.sent - 1

    def take(self, packet, *packets):
        return self.event(f"take {packet}", "taken", *packets)

    def greet(self, client):
        hello = self.event(f"hello {client}", "ok", f"Hello:{client}")
        self.take(self.take(hello, f"Welcome:{client}"))

    def read(self, client, page, value, gone=0):
        """Reads a page that isn't there; `gone` pages go for it, and are given back."""
        ask = self.event(f"read {client} {page}", "asked", f"AskRead:{client}")
        grant = self.take(ask, f"Granted:{client}")
        last = self.take(grant, *[f"GiveBack:{client}"] * gone)
        for packet in range(last - gone + 1, last + 1):
            self.take(packet)
        self.event(f"read {client} {page}", f"bytes all {value:02x}")

    def want(self, client, page, holders=()):
        """Wants a page that is read, which the holders give back."""
        ask = self.event(f"want {client} {page}", "asked", f"AskWrite:{client}")
        if not holders:
            self.take(self.take(ask, f"MayWrite:{client}"))
            return
        last = self.take(ask, *[f"Callback:{it}" for it in holders])
        first = last + 1 - len(holders)
        backs = [self.take(first + at, f"GiveBack:{it}") for at, it in enumerate(holders)]
        for back in backs[:-1]:
            self.take(back)
        self.take(self.take(backs[-1], f"MayWrite:{client}"))

    def write(self, client, page, value):
        self.event(f"write {client} {page} {value}", "ok")

    def finish(self, client):
        """The transaction is committed, written, and told as done."""
        commit = self.event(f"finish {client}", "ok", f"Commit:{client}")
        self.take(commit)
        self.commits += 1
        self.take(self.event("flush", f"flushed {self.commits}", f"Done:{client}"))

    def begin(self, client):
        self.event(f"begin {client}", "ok")

    def texts(self):
        """The configuration, the schedule, and what is to be printed of it."""
        config = "".join(f"{name} = {self.given[name]}\n" for name in NAMES)
        ends = [f"commits {self.commits}", "serial: yes"]
        return config, "\n".join(self.events), "\n".join([*self.lines, *ends, ""])


def all_clients(given):
    """Each client reads the last page; the last client writes it, and each reads it again."""
    schedule, page = Schedule(given), given["pages"] - 1
    *others, last = range(given["clients"])
    for client in (*others, last):
        schedule.greet(client)
        schedule.begin(client)
        schedule.read(client, page, 0)
        if client != last:
            schedule.finish(client)
    schedule.want(last, page, others)
    schedule.write(last, page, 7)
    schedule.event(f"peek {last} {page}", "bytes all 07")
    schedule.finish(last)
    schedule.event("again server", "ok")
    schedule.event(f"again {last}", "ok")
    return schedule


def all_pages(given):
    """A client writes each page in a transaction of its own; so its pool lets pages go."""
    schedule = Schedule(given)
    schedule.greet(0)
    for page in range(given["pages"]):
        schedule.begin(0)
        schedule.read(0, page, 0, int(page >= given["slots"]))
        schedule.want(0, page)
        schedule.write(0, page, page % 256)
        schedule.finish(0)
    return schedule


def all_slots(given):
    """A transaction reads and writes as many pages as there are slots."""
    schedule = Schedule(given)
    schedule.greet(0)
    schedule.begin(0)
    for page in range(given["slots"]):
        schedule.read(0, page, 0)
        schedule.want(0, page)
        schedule.write(0, page, 255)
    schedule.finish(0)
    return schedule


def all_incarnations(given):
    """A client restarts a hundred times, and commits in each incarnation."""
    schedule = Schedule(given)
    for incarnation in range(1, 102):
        schedule.greet(0)
        schedule.begin(0)
        schedule.read(0, 0, incarnation - 1)
        schedule.want(0, 0)
        schedule.write(0, 0, incarnation)
        schedule.finish(0)
        schedule.event("restart 0", "ok")
    return schedule


def all_commits(given):
    """One commit after another of a page whose permission is kept."""
    schedule = Schedule(given)
    schedule.greet(0)
    schedule.begin(0)
    schedule.read(0, 0, 0)
    schedule.want(0, 0)
    schedule.finish(0)
    for number in range(1, COMMITS):
        schedule.begin(0)
        schedule.event("read 0 0", f"bytes all {(number - 1) % 256:02x}")
        schedule.event("want 0 0", "permitted")
        schedule.write(0, 0, number % 256)
        schedule.finish(0)
    return schedule


def most_events(given):
    """As many events as there may be; none of them does anything."""
    schedule = Schedule(given)
    for _ in range(EVENTS):
        schedule.event("flush", "none")
    return schedule


def schedules():
    """What is played: of each a name, and what makes it."""
    for clients, keep in itertools.product(range(1, 33), (0, 1)):
        yield all_clients, limits(clients=clients, keep_write=keep)
    for pages in beside_powers(1, 4096):
        yield all_pages, limits(pages=pages)
        yield all_clients, limits(clients=32, pages=pages)
    for size in range(16, 65_537, 16):
        yield all_clients, limits(page_size=size)
    for slots in beside_powers(2, 1024):
        for kin, kout in ((1, 1), (max(1, slots // 4), slots // 2), (slots - 1, 4096)):
            given = limits(pages=min(4096, 2 * slots + 1), slots=slots, kin=kin, kout=kout)
            yield all_pages, given
            yield all_slots, given
    yield all_clients, limits(clients=32, pages=4096, page_size=65_536, slots=1024, kout=4096)
    yield all_incarnations, limits()
    yield all_incarnations, limits(clients=32, keep_write=1)
    yield all_commits, limits(keep_write=1)
    yield most_events, limits()


def frame(kind, body=b"", client=0, version=2, incarnation=1):
    """A frame, in hexadecimal digits."""
    return frames.frame(kind, client, incarnation, body, version).hex()


class Bodies:
    """The bodies of frames of one transaction, which writes the last page."""

    def __init__(self, given):
        self.page, size = given["pages"] - 1, given["page_size"]
        self.size, self.old, self.new = size, bytes(size), bytes([7]) * size
        self.ask, self.want = of_read(1, self.page), of_write(1, self.page, 1)
        self.done = struct.pack(">QQ", 1, 1)

    def granted(self, version):
        size = struct.pack(">H" if version == 1 else ">I", self.size)
        return struct.pack(">IQQ", self.page, 1, 0) + size + self.old

    def commit(self, version):
        size = struct.pack(">H" if version == 1 else ">I", self.size)
        return of_commit(1, struct.pack(">IQ", self.page, 1) + size + self.new)


def of_client(given, version):
    """A list of a client, as it is to be printed; what comes is of that version."""
    its = Bodies(given)
    page, old, new = its.page, its.old.hex(), its.new.hex()
    return [
        "client " + " ".join(f"{name} {given[name]}" for name in NAMES),
        f"> {frame(WELCOME, version=version)}",
        "begin = 1",
        f"read {page} asked",
        f"< {frame(ASK_READ, its.ask)}",
        f"> {frame(GRANTED, its.granted(version), version=version)}",
        f"read {page} = {old}",
        f"want {page} asked",
        f"< {frame(ASK_WRITE, its.want)}",
        f"> {frame(MAY_WRITE, its.want, version=version)}",
        f"write {page} {new} = ok",
        "finish = ok",
        f"< {frame(COMMIT, its.commit(2))}",
        f"> {frame(DONE, its.done, version=version)}",
        "last = Committed 1",
        f"peek {page} = {new}",
        "references 2",
    ]


def of_server(given, version):
    """A list of a server, to which the last client speaks."""
    its, client = Bodies(given), given["clients"] - 1
    return [
        "server " + " ".join(f"{name} {given[name]}" for name in NAMES),
        f"> {frame(HELLO, b'', client, version)}",
        f"< {frame(WELCOME, b'', client)}",
        f"> {frame(ASK_READ, its.ask, client, version)}",
        f"< {frame(GRANTED, its.granted(2), client)}",
        f"> {frame(ASK_WRITE, its.want, client, version)}",
        f"< {frame(MAY_WRITE, its.want, client)}",
        f"> {frame(COMMIT, its.commit(version), client, version)}",
        f"batch 1 {its.page}:1:{its.new.hex()}",
        "flushed 1",
        f"< {frame(DONE, its.done, client)}",
        "batch none",
        f"commit {client} 1 1",
    ]


def listed():
    """The limits of lists of one side alone, and the version of their frames."""
    for clients in range(1, 33):
        yield limits(clients=clients), 2
    for pages in beside_powers(1, 4096):
        yield limits(pages=pages), 2
    for slots in beside_powers(2, 1024):
        yield limits(slots=slots, kin=slots - 1, kout=4096), 2
    for size in range(16, 65_537, 16):
        yield limits(page_size=size), 2
        if size <= 4096:
            yield limits(page_size=size), 1


def runs():
    """The limits of runs and of served streams, with the jobs or commits of each client."""
    yield limits(clients=1), 100_000
    for clients in range(1, 33):
        yield limits(clients=clients), 2
    for pages in beside_powers(2, 4096):
        yield limits(pages=pages), 1
    for size in beside_powers(1, 4096):
        yield limits(page_size=16 * size), 1
    for slots in beside_powers(2, 1024):
        yield limits(slots=slots), 1


class Calls:
    """Calls of a program in a folder, each of which is right where all that comes is what is to."""

    def __init__(self, program, room):
        self.program, self.room = program, room

    def file(self, folder, name, text):
        path = folder / name
        path.write_bytes(text if isinstance(text, bytes) else text.encode())
        return path

    def is_right(self, name, words, wanted, stdin=b""):
        done = ran(self.program, *words, input=stdin)
        if (done.returncode, done.stderr, done.stdout) == (0, b"", wanted):
            return True
        pairs = itertools.zip_longest(done.stdout.split(b"\n"), wanted.split(b"\n"))
        differs = next((it for it in pairs if it[0] != it[1]), ())
        lines = [str(it)[:60] for it in (*differs, done.stderr)]
        print(f"{name}: FAILED, status {done.returncode}, {lines}", flush=True)
        return False

    def played(self, which):
        make, given = which
        config, schedule, wanted = make(given).texts()
        with tempfile.TemporaryDirectory(dir=self.room) as folder:
            folder = Path(folder)
            files = self.file(folder, "config", config), self.file(folder, "schedule", schedule)
            return self.is_right(f"{make.__name__} {given}", ["play", *files], wanted.encode())

    def one_side(self, which):
        given, version = which
        lines = of_client(given, version) + of_server(given, version)
        with tempfile.TemporaryDirectory(dir=self.room) as folder:
            file = self.file(Path(folder), "list", "".join(f"{it}\n" for it in lines))
            wanted = "".join(f"{it}\n" for it in lines).encode()
            return self.is_right(f"sides {given} version {version}", ["sides", file], wanted)

    def ran(self, which):
        """A run of the jobs, and then as many commits of no pages, served over the same store."""
        given, jobs = which
        count = jobs * given["clients"]
        config = "".join(f"{name} = {given[name]}\n" for name in NAMES) + f"jobs = {jobs}\n"
        with tempfile.TemporaryDirectory(dir=self.room) as folder:
            words = [self.file(Path(folder), "config", config), Path(folder) / "store"]
            wanted = f"committed {count}\nsum {2 * count}\n".encode()
            name = f"{given}, jobs {jobs}"
            return self.is_right(f"run {name}", ["run", *words], wanted) and self.is_right(
                f"serve {name}", ["serve", *words], *served(given["clients"], jobs, count)
            )


def served(clients, commits, past=0):
    """What is to be answered to commits of no pages, behind those that are past, and the stream. A
    run's store has had no life yet, so the clients are of the first floor."""
    stream, said, dones = [], [], []
    for client in range(clients):
        speaks = partial(frame, client=client, incarnation=FIRST_FLOOR)
        stream.append(speaks(HELLO))
        said.append(speaks(WELCOME))
        for txn in range(1, commits + 1):
            number = past + len(dones) + 1
            stream.append(speaks(COMMIT, of_commit(txn)))
            dones.append(speaks(DONE, struct.pack(">QQ", txn, number)))
    return bytes.fromhex("".join(said + dones)), bytes.fromhex("".join(stream))


def main(_):
    with building.a_room() as room, ThreadPoolExecutor(os.cpu_count()) as several:
        calls = Calls(building.play(), room)
        right = [
            *several.map(calls.played, schedules()),
            *several.map(calls.one_side, listed()),
            *several.map(calls.ran, runs()),
        ]
    print(f"{sum(right)} of {len(right)} were as they are to be")
    return 0 if all(right) else 1
