"""A signal interrupts the sending of each kind of frame behind each number of its bytes. Whatever
the program then does with its link, no commit has a byte that its transaction didn't write."""

from __future__ import annotations

import asyncio
import contextlib
import signal
import socket
import sys
import unittest
from pathlib import Path
from types import FrameType
from typing import Callable, Optional

import rughvadi
from host import Cut, Host, Interrupted, Wire, with_handler
from rughvadi import Closed, Error, Limits, Link, TransactionOpen, aio

PACKAGE = Path(rughvadi.__file__).parent

HELLO, ASK_READ, ASK_WRITE, GIVE_BACK, IN_USE, COMMIT, DROP, DOWNGRADED = range(1, 9)
ALL_KINDS = [HELLO, ASK_READ, ASK_WRITE, GIVE_BACK, IN_USE, COMMIT, DROP, DOWNGRADED]
LIMITS = Limits(clients=7, pages=16, page_size=16, slots=15, keep_write=True)
WRITTEN, LATER = bytes([0x11]) * 16, bytes([0x22]) * 16
HELD = range(5)
"""Pages that the link holds, and others want once it was interrupted."""
PAGE, UNREAD = 7, 9
LONGEST = 120


def write(page: int, data: bytes) -> Callable[..., None]:
    def job(transaction) -> None:
        transaction[page] = data

    return job


def hold(transaction) -> None:
    for page in HELD:
        transaction.read(page)


def wanted(host: Host, client: int, page: int) -> None:
    """Another client wants to write a page."""
    other = host.bare.get(client) or host.bare_client(client)
    other.begin()
    if other.read(page) is None:
        host.carry(client)
        other.read(page)
    other.want(page)
    host.carry(client)


def looked_at(host: Host, client: int, page: int) -> None:
    """Another client asks to read a page."""
    other = host.bare_client(client)
    other.begin()
    other.read(page)
    host.carry(client)


def interrupted(host: Host, link: Link, end: Cut, kind: int, count: int) -> None:
    """The link sends a frame of the kind, and is interrupted behind so many bytes."""

    def arm() -> None:
        end.count, end.kind = count, kind

    if kind == GIVE_BACK:
        wanted(host, 6, HELD[0])
        arm()
        link.serve()
    elif kind == DOWNGRADED:
        link.run(write(PAGE, WRITTEN))
        looked_at(host, 6, PAGE)
        arm()
        link.serve()
    with link.transaction() as transaction:
        if kind == IN_USE:
            transaction.read(HELD[0])
            wanted(host, 6, HELD[0])
            arm()
            link.serve()
        arm()
        transaction.read(UNREAD)
        transaction[PAGE] = WRITTEN
        if kind == DROP:
            transaction.drop()


def go_on(host: Host, link: Link) -> list[type]:
    """What a program may do with its link afterwards; how each call of it ended."""
    for place, page in enumerate(HELD):
        with contextlib.suppress(Error):
            wanted(host, 1 + place, page)
    link._socket.settimeout(0.0)  # no call waits: what is to come has come
    ended = []
    for call in [*[link.serve] * 5, lambda: link.run(write(PAGE, LATER)), link.serve]:
        try:
            call()
            ended.append(type(None))
        except (Error, OSError) as why:
            ended.append(type(why))
    return ended


class Steps:
    """Raises `Interrupted` before a step of the package's code, by its place from 0. A step is a
    line, or an instruction of one."""

    def __init__(self, place: int) -> None:
        self.left = place
        """How many steps are still to be made before it; below 0 once it was raised."""

    def __enter__(self) -> None:
        sys.settrace(self.trace)

    def __exit__(self, *_: object) -> None:
        sys.settrace(None)

    def trace(self, frame: FrameType, event: str, _argument: object) -> Optional[Callable]:
        if Path(frame.f_code.co_filename).parent != PACKAGE:
            return None
        frame.f_trace_opcodes = True
        if event in ("opcode", "line"):  # some versions tell of lines alone
            self.left -= 1
            if self.left < 0:
                sys.settrace(None)
                raise Interrupted
        return self.trace


def committed(_host: Host, link: Link, steps: Steps) -> None:
    with steps:
        link.run(write(PAGE, WRITTEN))


def answered(host: Host, link: Link, steps: Steps) -> None:
    wanted(host, 6, HELD[0])
    with steps:
        link.serve()


def dropped(_host: Host, link: Link, steps: Steps) -> None:
    with steps, link.transaction() as transaction:
        transaction.read(HELD[1])
        transaction.drop()


class Interrupting:
    """In place of what a link waits by: a signal comes in one of the waits, by its place."""

    def __init__(self, place: int) -> None:
        self.left = place

    def poll(self, _milliseconds: Optional[int]) -> bool:
        self.left -= 1
        if self.left < 0:
            signal.raise_signal(signal.SIGALRM)
        return True


class Interrupts(unittest.TestCase):
    def setUp(self) -> None:
        before = signal.signal(signal.SIGALRM, lambda *_: None)
        self.addCleanup(signal.signal, signal.SIGALRM, before)

    def check_disk(self, host: Host) -> None:
        """Each page is as it was, or as one transaction wrote it."""
        whole = {bytes(16), WRITTEN, LATER}
        self.assertEqual({data for _, data in host.disk} - whole, set())

    def cut(self, kind: int, count: int) -> Optional[int]:
        """Interrupts a link; how long the frame was."""
        host = Host(LIMITS)
        end = host.socket(0, Cut)
        Cut.lengths.clear()
        link: Optional[Link] = None
        try:
            end.kind, end.count = (kind, count) if kind == HELLO else (0, 0)
            with contextlib.suppress(Interrupted):
                link = Link(LIMITS, 0, 1, end)
                link.run(hold)
                interrupted(host, link, end, kind, count)
            ended = go_on(host, link) if link else []
            self.check_disk(host)
            self.assertEqual(set(ended) - {Closed}, set(), "a link is gone once interrupted")
            return Cut.lengths[0] if Cut.lengths else None
        finally:
            end.close()
            host.close()

    def test_each_kind_at_each_byte(self) -> None:
        def sweep() -> None:
            for kind in ALL_KINDS:
                for count in range(LONGEST):
                    with self.subTest(kind=kind, count=count):
                        length = self.cut(kind, count)
                        self.assertIsNotNone(length, "nothing was interrupted")
                    if length is not None and count == length:
                        break
                else:
                    self.fail("a frame is longer")

        with_handler(sweep)

    def test_at_the_steps_of_the_package(self) -> None:
        """An exception comes before a step of the package's own code, each third in turn, as it
        commits, answers and drops. The link is gone then, or works, and no stream is spoiled."""
        for part in (committed, answered, dropped):
            ended, place = set(), 0
            while self.is_stepped(part, place, ended):
                place += 3
            self.assertGreater(place, 0, "it has no step")
            # What began right before its `with` has nobody who drops it.
            self.assertLessEqual(ended, {Closed, type(None), TimeoutError, TransactionOpen})

    def is_stepped(self, part: Callable[..., None], place: int, ended: set[type]) -> bool:
        """Interrupts a part at a step; false where it has fewer."""
        host = Host(LIMITS)
        end = host.socket(0)
        link = Link(LIMITS, 0, 1, end)
        link.run(hold)
        steps = Steps(place)
        with contextlib.suppress(Interrupted):
            part(host, link, steps)
        ended.update(go_on(host, link))
        self.check_disk(host)
        end.close()
        host.close()
        return steps.left < 0

    def test_a_send_that_blocks_is_ended_by_an_alarm(self) -> None:
        limits = Limits(clients=2, pages=8, page_size=1 << 16, slots=8)
        host, data = Host(limits), bytes([0x11]) * (1 << 16)

        def job(transaction) -> None:
            for page in range(limits.pages):
                transaction[page] = data

        class Unread(Wire):
            """The host takes nothing of a Commit, so no more of it goes than the system keeps."""

            def send(self, data, *flags: int) -> int:  # type: ignore[override]
                if bytes(data[:2])[1] == COMMIT or len(data) > 1000:
                    # Again and again, for the first may come before the system's call.
                    signal.setitimer(signal.ITIMER_REAL, 0.05, 0.05)
                    return socket.socket.send(self, data, *flags)
                return super().send(data, *flags)

        def commit_and_go_on() -> None:
            end = host.socket(0, Unread)
            link = Link(limits, 0, 1, end)
            with self.assertRaises(Interrupted):
                link.run(job)
            self.assertRaises(Closed, link.run, job)
            end.close()
            host.pump()

        with_handler(commit_and_go_on)
        self.assertEqual(host.last_commit, 0)
        host.close()

    def test_a_wait_that_is_interrupted_leaves_the_link(self) -> None:
        place, waits = 0, -1
        while waits < 0:
            host = Host(LIMITS)
            link = host.link(0)
            poll, link._poll = link._poll, Interrupting(place)  # type: ignore[assignment]
            with contextlib.suppress(Interrupted):
                with_handler(lambda: link.run(write(PAGE, WRITTEN)))
                waits = place
            link._poll = poll
            self.assertIn(host.disk[PAGE][1], {bytes(16), WRITTEN})
            link.run(write(PAGE, LATER))
            self.assertEqual(host.disk[PAGE][1], LATER)
            link._socket.close()
            host.close()
            place += 1
        self.assertEqual(waits, 3, "it waits for a page, a permission and a commit")


class AsyncInterrupts(Interrupts):
    """The same for a link of asyncio."""

    def cut(self, kind: int, count: int) -> Optional[int]:
        return asyncio.run(self.cut_async(kind, count))

    async def cut_async(self, kind: int, count: int) -> Optional[int]:
        asyncio.get_running_loop().set_exception_handler(lambda *_: None)
        host = Host(LIMITS)
        end = host.socket(0, Cut)
        Cut.lengths.clear()
        link: Optional[aio.Link] = None
        try:
            end.kind, end.count = (kind, count) if kind == HELLO else (0, 0)
            with contextlib.suppress(Interrupted, Closed):
                link = await aio.Link.open(LIMITS, 0, 1, end)
                await link.run(hold_async)
                await interrupted_async(host, link, end, kind, count)
            if link:
                await self.go_on_async(host, link)
            self.check_disk(host)
            return Cut.lengths[0] if Cut.lengths else None
        finally:
            if link:
                link.close()
            end.close()
            host.close()

    async def go_on_async(self, host: Host, link: aio.Link) -> None:
        for place, page in enumerate(HELD):
            with contextlib.suppress(Error):
                wanted(host, 1 + place, page)
        for _ in range(3):
            await asyncio.sleep(0)

        async def write_later(transaction: aio.Transaction) -> None:
            await transaction.read(PAGE)
            await transaction.write(PAGE, LATER)

        with self.assertRaises(Closed):
            await link.run(write_later)

    # Of blocking calls alone.
    test_at_the_steps_of_the_package = None  # type: ignore[assignment]
    test_a_send_that_blocks_is_ended_by_an_alarm = None  # type: ignore[assignment]
    test_a_wait_that_is_interrupted_leaves_the_link = None  # type: ignore[assignment]


async def hold_async(transaction: aio.Transaction) -> None:
    for page in HELD:
        await transaction.read(page)


async def interrupted_async(
    host: Host, link: aio.Link, end: Cut, kind: int, count: int
) -> None:
    """As `interrupted`; what comes is taken as the loop runs."""

    async def write_it(transaction: aio.Transaction) -> None:
        await transaction.read(PAGE)
        await transaction.write(PAGE, WRITTEN)

    def arm() -> None:
        end.count, end.kind = count, kind

    async def answered() -> None:
        arm()
        while end.kind:
            await asyncio.sleep(0)

    if kind == GIVE_BACK:
        wanted(host, 6, HELD[0])
        await answered()
    elif kind == DOWNGRADED:
        await link.run(write_it)
        looked_at(host, 6, PAGE)
        await answered()
    async with link.transaction() as transaction:
        if kind == IN_USE:
            await transaction.read(HELD[0])
            wanted(host, 6, HELD[0])
            await answered()
        arm()
        await transaction.read(UNREAD)
        await write_it(transaction)
        if kind == DROP:
            transaction.drop()


if __name__ == "__main__":
    unittest.main()
