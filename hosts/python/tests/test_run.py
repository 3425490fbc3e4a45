"""How often `run` tries, how long it waits between, and that it serves others meanwhile."""

from __future__ import annotations

import unittest
from unittest import mock

from host import Host, until_given_back
from rughvadi import Aborted, Closed, Limits, Link
from rughvadi._tries import FIRST, MOST, waits

LIMITS = Limits(clients=2, pages=4, page_size=64, slots=4)


class Waits(unittest.TestCase):
    def test_they_are_drawn_up_to_a_most_that_doubles(self) -> None:
        with mock.patch("random.uniform", side_effect=lambda _least, most: most):
            drawn = [wait for wait, _ in zip(waits(None, None), range(12))]
        self.assertEqual(drawn[:8], [FIRST * 2**place for place in range(8)])
        self.assertEqual(drawn[8:], [MOST] * 4)
        with mock.patch("random.uniform", side_effect=lambda least, _most: least):
            self.assertEqual(list(waits(4, None)), [0.0, 0.0, 0.0])

    def test_they_end_with_the_tries(self) -> None:
        self.assertEqual(len(list(waits(1, None))), 0)
        self.assertEqual(len(list(waits(20, None))), 19)
        self.assertRaises(ValueError, waits, 0, None)

    def test_they_end_with_the_time(self) -> None:
        at = [0.0]
        with mock.patch("time.monotonic", side_effect=lambda: at[0]):
            further = waits(None, 1.0)
            for at[0] in (0.1, 0.5, 0.9):
                self.assertIsNotNone(next(further, None))
            at[0] = 1.01
            self.assertIsNone(next(further, None))


class Runs(unittest.TestCase):
    def setUp(self) -> None:
        self.host = Host(LIMITS)
        self.addCleanup(self.host.close)
        self.link: Link = self.host.link(0)
        self.addCleanup(self.link._socket.close)

    def test_a_job_is_tried_so_many_times(self) -> None:
        tried: list[bytes] = []

        def job(transaction) -> None:
            tried.append(transaction.read(1))
            raise Aborted

        self.assertRaises(Aborted, self.link.run, job, tries=5)
        self.assertEqual(len(tried), 5)
        self.assertRaises(Aborted, self.link.run, job, seconds=0.0)
        self.assertEqual(len(tried), 6)
        self.assertEqual(self.link.run(lambda transaction: transaction.read(1)[0], tries=1), 0)

    def test_others_are_served_between_tries(self) -> None:
        other = self.host.bare_client(1)

        def job(transaction) -> None:
            transaction.read(1)
            if self.link.client.peek(2) is None:
                transaction.read(2)
            other.begin()
            other.read(1)
            self.host.carry(1)
            other.read(1)
            other.want(1)
            self.host.carry(1)
            raise Aborted

        self.assertRaises(Aborted, self.link.run, job, tries=1)
        self.assertFalse(other.may_write(1))
        self.link._serve_for(0.05)
        self.assertTrue(other.want(1), "the page was given back meanwhile")

    def test_a_deadlock_is_tried_again(self) -> None:
        other, tries = self.host.bare_client(1), []

        def job(transaction) -> None:
            """The first try and the other client wait for each other."""
            tries.append(transaction.read(2))
            if len(tries) == 1:
                other.begin()
                for page in (1, 2):
                    other.read(page)
                    self.host.carry(1)
                    other.read(page)
                other.want(2)
                self.host.carry(1)
            transaction[1] = bytes([7]) * 64
            if len(tries) == 1:
                raise AssertionError("it was no deadlock")

        def give_up() -> None:
            other.drop()
            self.host.carry(1)

        with mock.patch.object(self.link, "_serve_for", side_effect=lambda _wait: give_up()):
            self.link.run(job)
        self.assertEqual((len(tries), self.host.disk[1][1][0]), (2, 7))

    def test_a_commit_that_has_ended_is_told_whatever_fails_behind_it(self) -> None:
        with mock.patch.object(self.link, "_send", side_effect=until_given_back(self.link._send)):
            with self.link.transaction() as transaction:
                transaction[1] = bytes([7]) * len(transaction[2])
                self.host.want_bare(1, 2)
            self.assertEqual((transaction.number, self.host.disk[1][1][0]), (1, 7))
            self.assertRaises(Closed, self.link.serve)


if __name__ == "__main__":
    unittest.main()
