"""A server and clients in one process."""

from __future__ import annotations

import pickle
import re
import threading
import unittest
from collections import deque
from pathlib import Path
from typing import Optional

from host import Host
from rughvadi import (
    Client,
    Ended,
    Fault,
    FaultNumber,
    Frame,
    FrameFault,
    FrameShort,
    LimitFault,
    Limits,
    Link,
    NoTransaction,
    Server,
    Status,
    read_frame,
    version,
)

LIMITS = Limits(clients=2, pages=4, page_size=64, slots=4, kin=1, kout=4)


def counted(transaction) -> int:
    page = bytearray(transaction.read(2))
    was = page[0]
    page[0] += 1
    transaction[2] = page
    return was


def exchange(server: Server, client: Client, *late: Frame) -> None:
    """Hands these frames, and all that either says, to the other."""
    sent = deque(late)
    while True:
        for answer in [*server.frames()]:
            client.take(answer.data)  # of one that is another's nothing comes
            sent += client.frames()
        sent += client.frames()
        if not sent:
            return
        server.take(sent.popleft().data)


def written(server: Server, client: Client, value: int) -> None:
    """The client reads page 2 in a transaction, and fills it with bytes of this value."""
    client.begin()
    client.read(2)
    exchange(server, client)
    client.want(2)
    exchange(server, client)
    client.write(2, bytes([value]) * 64)


class OneProcess(unittest.TestCase):
    def setUp(self) -> None:
        self.hosts: list[Host] = []
        self.links: list[Link] = []

    def tearDown(self) -> None:
        for link in self.links:
            link._socket.close()
        for host in self.hosts:
            host.close()

    def host(self, server: Server | None = None) -> Host:
        self.hosts.append(Host(LIMITS, server))
        return self.hosts[-1]

    def link(self, host: Host, client: int) -> Link:
        self.links.append(host.link(client))
        return self.links[-1]

    def test_a_client_counts_and_the_disk_has_it(self) -> None:
        host = self.host()
        link = self.link(host, 0)
        self.assertEqual([link.run(counted) for _ in range(5)], [0, 1, 2, 3, 4])
        self.assertEqual(host.disk[2][1][0], 5)
        self.assertFalse(host.server.can_flush(5))
        self.assertEqual(link.client.last, (Ended.COMMITTED, 5))
        self.assertEqual(link.client.peek(2)[0], 5)
        self.assertIsNone(link.client.peek(3))

    def test_two_clients_see_each_others_commits(self) -> None:
        host = self.host()
        one, other = self.link(host, 0), self.link(host, 1)
        self.assertEqual(one.run(counted), 0)
        with other.transaction() as transaction:
            self.assertEqual(transaction.read(2)[0], 1)
            # The ask calls the first client's copy back, which gives it up as it is served.
            self.assertFalse(other.client.want(2))
            other._say()
            self.assertTrue(one.serve())
            self.assertIsNone(one.client.peek(2))
            counted(transaction)
        self.assertEqual(transaction.number, 2)
        with one.transaction() as transaction:
            self.assertEqual(transaction[2][0], 2)

    def test_a_transaction_first_takes_what_came(self) -> None:
        host = self.host()
        one, other = self.link(host, 0), self.link(host, 1)
        one.run(counted)
        with other.transaction() as transaction:
            transaction.read(2)
            self.assertFalse(other.client.want(2))
            other._say()
            self.assertIsNotNone(one.client.peek(2))
            with one.transaction() as looking:
                self.assertIsNone(one.client.peek(2))
                looking.drop()
            counted(transaction)
        self.assertEqual(transaction.number, 2)

    def test_an_exception_undoes_the_transaction(self) -> None:
        link = self.link(self.host(), 0)
        with self.assertRaises(KeyError):
            with link.transaction() as transaction:
                counted(transaction)
                raise KeyError
        self.assertEqual(link.client.last, (Ended.DROPPED, 0))
        self.assertEqual(link.run(counted), 0)

    def test_a_transaction_that_only_looks_is_dropped(self) -> None:
        host = self.host()
        link = self.link(host, 0)
        link.run(counted)
        with link.transaction() as transaction:
            self.assertEqual(transaction.read(2)[0], 1)
            transaction.drop()
        self.assertIsNone(transaction.number)
        self.assertEqual(link.client.last, (Ended.DROPPED, 0))
        self.assertEqual((host.last_commit, link.run(counted)), (1, 1))

    def test_a_drop_of_held_reads_waits_for_the_next_send(self) -> None:
        host = self.host()
        link = self.link(host, 0)
        link.run(counted)
        sent: list[bytes] = []
        link._send = sent.append  # type: ignore[assignment]
        for _ in range(3):
            with link.transaction() as transaction:
                transaction.read(2)
                transaction.drop()
        self.assertEqual(sent, [])
        link._say()
        self.assertEqual([read_frame(LIMITS, frame).kind for frame in sent], [7])

    def test_a_drop_goes_out_before_what_comes_is_answered(self) -> None:
        host = self.host()
        one, other = self.link(host, 0), self.link(host, 1)
        one.run(counted)
        with one.transaction() as transaction:
            transaction.read(2)
            transaction.drop()
        other.client.begin()
        other.client.read(2)
        other._say()
        other._receive()
        other.client.read(2)
        other.client.want(2)
        other._say()
        kinds: list[int] = []
        send = one._send

        def noted(data: bytes) -> None:
            kinds.append(read_frame(LIMITS, data).kind)
            send(data)

        one._send = noted  # type: ignore[method-assign]
        one.serve()
        self.assertEqual(kinds, [7, 4])

    def test_a_permission_that_was_kept_goes_with_a_late_drop(self) -> None:
        limits = Limits(clients=2, pages=4, page_size=64, slots=4, keep_write=True)
        for wants in (False, True):
            self.hosts.append(Host(limits))
            host = self.hosts[-1]
            link, other = self.link(host, 0), host.bare_client(1)
            link.run(counted)
            with link.transaction() as transaction:
                transaction.read(2)
                transaction.drop()
            other.begin()
            self.assertIsNone(other.read(2))
            host.carry(1)
            self.assertIs(other.status, Status.WAITING, "the server asks for the permission")
            self.assertTrue(link.serve())
            self.assertEqual(other.read(2)[0], 1)
            if wants and not other.want(2):
                host.carry(1)
                self.assertTrue(link.serve())
                self.assertTrue(other.want(2))

    def test_a_server_opens_over_what_was_written(self) -> None:
        host = self.host()
        self.link(host, 0).run(counted)
        again = self.host(Server(LIMITS, host.last_commit, host.disk))
        self.assertEqual(self.link(again, 0).run(counted), 1)

    def test_a_server_and_a_client_move_between_threads(self) -> None:
        host = self.host()
        link = self.link(host, 0)
        seen: list[int] = []
        for _ in range(3):
            thread = threading.Thread(target=lambda: seen.append(link.run(counted)))
            thread.start()
            thread.join()
        self.assertEqual(seen, [0, 1, 2])
        self.assertEqual(link.run(counted), 3)
        self.assertEqual(host.disk[2][1][0], 4)

    def test_a_client_that_went_away_is_left(self) -> None:
        host = self.host()
        self.link(host, 1)
        self.assertEqual(host.server.next_incarnation(1), 2)
        host.server.leave(1)
        self.assertEqual([frame.client for frame in host.server.frames()], [1])
        self.assertEqual(host.server.next_incarnation(1), 3)


class Threads(unittest.TestCase):
    def test_calls_of_threads_at_once_are_made_one_at_a_time(self) -> None:
        """Threads make calls of one client at the same time: each is made whole, or refused."""
        client, wrong = Client(LIMITS, 0, 1), []

        def call() -> None:
            for _ in range(2000):
                try:
                    client.hello()
                except Fault:
                    pass
                for frame in client.frames():
                    if len(frame.data) != 16:
                        wrong.append(frame)

        threads = [threading.Thread(target=call) for _ in range(4)]
        for each in threads:
            each.start()
        for each in threads:
            each.join()
        self.assertEqual(wrong, [])


class Refusals(unittest.TestCase):
    def test_faults_have_numbers_texts_and_classes(self) -> None:
        with self.assertRaises(LimitFault) as raised:
            Server(Limits(2, 4, 64, 4, 4, 4))
        self.assertIs(raised.exception.number, FaultNumber.LIMIT_KIN)
        self.assertEqual(raised.exception.number, 0x205)
        self.assertEqual(str(raised.exception), "kin: 1 to one less than the slots")
        again = pickle.loads(pickle.dumps(raised.exception))
        self.assertEqual((type(again), again.number, str(again)),
                         (LimitFault, 0x205, str(raised.exception)))

    def test_each_fault_of_the_header_has_a_name(self) -> None:
        for folder in Path(__file__).resolve().parents:
            if (header := folder / "include/rughvadi.h").exists():
                break
            if (header := folder / "hosts/c/rughvadi.h").exists():
                break
        else:
            self.skipTest("the header isn't beside the tests")
        first = header.read_text().partition("RUGHVADI_DONE = 0,")[2].partition("};")[0]
        found = re.findall(r"RUGHVADI_(\w+) = (\w+),?", first)
        self.assertEqual({name: int(number, 0) for name, number in found},
                         {it.name: it.value for it in FaultNumber})

    def test_limits_have_the_defaults_of_everywhere_else(self) -> None:
        for slots, kin, kout in ((2, 1, 1), (3, 1, 1), (9, 2, 4), (32, 8, 16), (1024, 256, 512)):
            limits = Limits(clients=2, pages=4, page_size=64, slots=slots)
            self.assertEqual((limits.kin, limits.kout), (kin, kout))
        self.assertEqual(Limits(2, 4, 64, 8), Limits(2, 4, 64, 8, 2, 4, False))
        self.assertEqual(pickle.loads(pickle.dumps(LIMITS)), LIMITS)
        for number in (-1, 1 << 64):
            self.assertRaises(ValueError, Limits, number, 4, 64, 4)

    def test_calls_that_are_refused_change_nothing(self) -> None:
        client = Client(LIMITS, 0, 1)
        self.assertIs(client.status, Status.NOT_WELCOME)
        with self.assertRaises(Fault):
            client.begin()
        client.hello()
        with self.assertRaises(Fault):
            client.hello()
        (frame,) = client.frames()
        head = read_frame(LIMITS, frame.data)
        self.assertEqual((head.length, head.client, head.kind, head.incarnation), (16, 0, 1, 1))
        with self.assertRaises(FrameShort):
            read_frame(LIMITS, frame.data[:15])
        with self.assertRaises(FrameFault):
            read_frame(LIMITS, b"\xff" * 16)
        for wrong in (-1, 1 << 32, 1 << 64):
            self.assertRaises(ValueError, client.peek, wrong)
        client.close()
        self.assertIsNone(client.status)

    def test_arguments_of_other_types_are_refused(self) -> None:
        client, server = Client(LIMITS, 0, 1), Server(LIMITS)
        self.assertRaises(TypeError, client.read, "2")
        self.assertRaises(TypeError, client.write, 2)
        self.assertRaises(TypeError, client.write, 2, "text")
        self.assertRaises(TypeError, client.take, 5)
        self.assertRaises(TypeError, Client, (2, 4, 64, 4, 1, 4), 0, 1)
        self.assertRaises(TypeError, Server, LIMITS, 0, [5])
        self.assertRaises(TypeError, Server, LIMITS, 0, [(0, "text")])
        self.assertRaises(Fault, Server, LIMITS, 0, [(0, bytes(64))])
        self.assertRaises(KeyError, Server, LIMITS, 0, ({}[it] for it in "a"))
        self.assertEqual(server.next_incarnation(0), 1)

    def test_a_server_in_a_life_takes_nothing_below_its_floor(self) -> None:
        server = Server(LIMITS, floor=5)
        self.assertEqual([server.next_incarnation(it) for it in (0, 1)], [6, 6])
        for incarnation, is_welcome in ((4, False), (6, True)):
            client = Client(LIMITS, 0, incarnation)
            client.hello()
            exchange(server, client)
            self.assertEqual(client.status is Status.IDLE, is_welcome)
        rows = [(1, bytes(64))] * 4
        self.assertEqual(Server(LIMITS, 1, rows, floor=8).next_incarnation(0), 9)
        self.assertEqual(Server(LIMITS, 1, rows, floor=0).next_incarnation(0), 1)

    def test_floors_that_no_incarnation_has_are_refused(self) -> None:
        most = (1 << 62) - 1
        self.assertEqual(Server(LIMITS, floor=most - 1).next_incarnation(0), most)
        for floor in (most + 1, (1 << 64) - 1):
            with self.assertRaises(Fault) as raised:
                Server(LIMITS, floor=floor)
            self.assertIs(raised.exception.number, FaultNumber.RANGE)
        self.assertRaises(ValueError, Server, LIMITS, floor=-1)
        self.assertRaises(TypeError, Server, LIMITS, 0, None, 5)

    def late_commit(self, former: Server, server: Server) -> tuple[Optional[Ended], int]:
        """How a transaction ended whose greeting and commit came to the next server. It had read a
        page that another wrote there since."""
        late, other = Client(LIMITS, 0, 2), Client(LIMITS, 1, 20)
        late.hello()
        (greeting,) = late.frames()
        exchange(former, late, greeting)
        late.begin()
        late.read(2)
        exchange(former, late)
        late.finish()
        (commit,) = late.frames()
        other.hello()
        exchange(server, other)
        written(server, other, 5)
        other.finish()
        exchange(server, other)
        self.assertEqual(other.status, Status.COMMITTING)
        exchange(server, late, greeting, commit)
        if batch := server.batch():
            server.flushed(batch.number)
        exchange(server, late)
        return late.last

    def test_a_late_commit_of_a_former_life_is_let_go(self) -> None:
        with Server(LIMITS, floor=1) as former, Server(LIMITS, floor=3) as server:
            self.assertEqual(self.late_commit(former, server), (None, 0))

    def test_without_lives_it_commits_what_had_changed(self) -> None:
        with Server(LIMITS) as former, Server(LIMITS) as server:
            self.assertEqual(self.late_commit(former, server), (Ended.COMMITTED, 2))

    def test_a_handle_is_let_go_at_the_end_of_a_with(self) -> None:
        with Server(LIMITS) as server:
            self.assertEqual(server.next_incarnation(0), 1)
        with self.assertRaises(Fault) as raised:
            server.again()
        self.assertIs(raised.exception.number, FaultNumber.OTHER_KIND)

    def test_a_call_outside_of_a_transaction(self) -> None:
        host = Host(LIMITS)
        link = host.link(0)
        with self.assertRaises(NoTransaction):
            link.client.read(0)
        link._socket.close()
        host.close()

    def test_the_version(self) -> None:
        self.assertEqual(version(), 1)


if __name__ == "__main__":
    unittest.main()
