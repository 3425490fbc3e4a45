"""Judges from outside whether commits were strictly serial: by the logs of their clients.

    python3 scripts/serial.py LOG..

The commits' numbers are their order. Each read has to see the last write before it. Who ended
before another began has the lower number. A commit that wasn't answered may have been done: where a
later one saw what it wrote, it has to fit in at a number that no other has.
"""
from __future__ import annotations

import json
import sys
from collections.abc import Iterable
from dataclasses import dataclass, field
from pathlib import Path

ZERO = bytes(8).hex()
# So often another place is tried for a commit that wasn't answered.
MOST_TRIES = 100_000


@dataclass
class Commit:
    """What a transaction did; without an end it wasn't answered."""

    begun: int
    ended: int | None
    reads: list[tuple[int, str]] = field(default_factory=list)
    writes: dict[int, str] = field(default_factory=dict)


@dataclass
class Verdict:
    """What came of the logs."""

    commits: int = 0
    unanswered: int = 0
    seen: int = 0
    faults: list[str] = field(default_factory=list)

    def __str__(self) -> str:
        said = f"{self.commits} commits, {self.unanswered} unanswered, {self.seen} of them seen"
        return "\n".join([said, *self.faults[:10]])


def commit_of(begun: int, ended: int | None, operations: Iterable) -> Commit:
    commit = Commit(begun, ended)
    for page, kind, value in operations:
        if kind == "w":
            commit.writes[page] = value
        elif page not in commit.writes:
            commit.reads.append((page, value))
    return commit


def read_logs(logs: Iterable[Path], verdict: Verdict) -> tuple[dict[int, Commit], list[Commit]]:
    """The commits by number, and those with writes that weren't answered."""
    done: dict[int, Commit] = {}
    asked: dict[tuple[Path, int], Commit] = {}
    for log, line in ((log, line) for log in logs for line in log.read_text().splitlines()):
        try:
            begun, ended, number, operations = json.loads(line)
        except ValueError:
            continue  # the last line of a client that was killed
        if number == 0:
            asked[log, begun] = commit_of(begun, None, operations)
            continue
        asked.pop((log, begun), None)
        if number in done:
            verdict.faults.append(f"two commits have number {number}")
        if number > 0:
            done[number] = commit_of(begun, ended, operations)
    return done, [commit for commit in asked.values() if commit.writes]


def seen_ones(done: dict[int, Commit], asked: list[Commit]) -> list[Commit]:
    """Those without an answer whose writes others saw, or that such a one saw."""
    by_write = {(page, value): it for it in asked for page, value in it.writes.items()}
    seen: list[Commit] = []
    left = [*done.values()]
    while left:
        for read in left.pop().reads:
            found = by_write.get(read)
            if found and not any(found is it for it in seen):
                seen.append(found)
                left.append(found)
    return seen


def room_of(commit: Commit, done: dict[int, Commit], gaps: list[int]) -> list[int]:
    """The free numbers at which an unanswered commit may stand: above what it saw, and above all
    that ended before it began; below those that saw it."""
    sources = set(commit.reads)
    writes = set(commit.writes.items())
    least = max((number for number, it in done.items()
                 if sources & set(it.writes.items()) or (it.ended or 0) < commit.begun), default=0)
    most = min((number for number, it in done.items() if writes & set(it.reads)),
               default=sys.maxsize)
    return [gap for gap in gaps if least < gap < most]


def misread(number: int, commit: Commit, state: dict[int, str]) -> str:
    """The first read that didn't see the last write before it."""
    for page, value in commit.reads:
        if value != state.get(page, ZERO):
            return f"commit {number}: page {page} read {value}, not {state.get(page, ZERO)}"
    return ""


@dataclass
class Choice:
    """A free number, what there was before it, and who may still be tried there."""

    number: int
    state: dict[int, str]
    left: frozenset[int]
    options: list[int | None]


class Search:
    """Goes through the numbers in order. At a free one, a commit that was seen may stand, or none
    that wrote what others saw; the one whose room ends first is tried first."""

    def __init__(self, done: dict[int, Commit], seen: list[Commit]) -> None:
        self.done, self.seen = done, seen
        self.last = max(done, default=0) + len(seen)
        gaps = [number for number in range(1, self.last + 1) if number not in done]
        self.rooms = [room_of(commit, done, gaps) for commit in seen]
        self.ends = [max(room, default=0) for room in self.rooms]
        self.number, self.state, self.left = 1, {}, frozenset(range(len(seen)))
        self.choices: list[Choice] = []

    def options(self) -> list[int | None]:
        fitting = [it for it in self.left if self.number in self.rooms[it]
                   and not misread(self.number, self.seen[it], self.state)]
        return [None, *sorted(fitting, key=lambda it: -self.ends[it])]

    def choose(self, choice: Choice) -> None:
        """Goes on behind a free number with the next one that may stand there."""
        chosen = choice.options.pop()
        self.number, self.state, self.left = choice.number + 1, dict(choice.state), choice.left
        if chosen is not None:
            self.state.update(self.seen[chosen].writes)
            self.left -= {chosen}
        if choice.options:
            self.choices.append(choice)

    def step(self) -> str:
        """One number; what is wrong with it."""
        if any(self.ends[it] < self.number for it in self.left):
            return "no number is free for a commit that was seen"
        if self.number not in self.done:
            self.choose(Choice(self.number, self.state, self.left, self.options()))
            return ""
        wrong = misread(self.number, self.done[self.number], self.state)
        self.state.update(self.done[self.number].writes)
        self.number += 1
        return wrong

    def faults(self) -> list[str]:
        """What is wrong where it came furthest."""
        furthest, why, tries = 0, "", 0
        while self.number <= self.last:
            wrong = self.step()
            if wrong and self.number > furthest:
                furthest, why = self.number, wrong
            if wrong and (not self.choices or tries == MOST_TRIES):
                return [why]
            if wrong:
                tries += 1
                self.choose(self.choices.pop())
        return []


def out_of_time(done: dict[int, Commit]) -> list[str]:
    """Commits that began after one of a greater number had ended."""
    soonest, wrong = sys.maxsize, []
    for number in sorted(done, reverse=True):
        if soonest < done[number].begun:
            wrong.append(f"commit {number} began after a later one had ended")
        soonest = min(soonest, done[number].ended or sys.maxsize)
    return wrong


def judge(logs: Iterable[Path]) -> Verdict:
    """Whether all is strictly serial: then there are no faults."""
    verdict = Verdict()
    done, asked = read_logs(logs, verdict)
    seen = seen_ones(done, asked)
    verdict.commits, verdict.unanswered, verdict.seen = len(done), len(asked), len(seen)
    verdict.faults += Search(done, seen).faults() + out_of_time(done)
    return verdict


def main(words: list[str]) -> int:
    verdict = judge(map(Path, words))
    print(verdict)
    print("not strictly serial" if verdict.faults else "strictly serial")
    return 1 if verdict.faults else 0


if __name__ == "__main__":
    sys.exit(main(sys.argv[1:]))
