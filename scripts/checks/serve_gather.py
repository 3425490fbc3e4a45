"""How commits go together, for `scripts/check serve`: by the gateway's own code (gather.c) and by
that of `rughvadi-serve` (pace.c), over a clock that is no machine's.
"""
from __future__ import annotations

from pathlib import Path

import building
from checks.trying import Tries, ran

# Clients, microseconds of a sync, of each commit at the server, between two that come and of a
# drawn delay; and how many commits a second there are at least. Where a sync takes 3 ms the gateway
# waits for all; where it takes 0.15 ms, for few.
GATHERED = {
    (1, 3150, 25, 30, 20): 300, (4, 3150, 25, 30, 20): 1170, (16, 3150, 25, 30, 20): 3900,
    (32, 3150, 25, 30, 20): 6400, (32, 3150, 25, 60, 20): 5300, (32, 3150, 25, 60, 300): 4800,
    (2, 3150, 25, 30, 3000): 260, (16, 150, 25, 30, 20): 18000, (32, 150, 25, 30, 20): 27500,
}

# The same of `rughvadi-serve`, whose clients are behind a gateway that hands a frame on in 3.3 us:
# the third number is of each commit, and the last the mean of a drawn delay. Where a sync takes 3
# ms it waits for all, and where it takes 0.1 ms for nobody, if that is better.
PACED = {
    (2, 100, 5, 3.3, 5): 12400, (4, 100, 5, 3.3, 5): 22200, (16, 100, 5, 3.3, 5): 54000,
    (32, 100, 5, 3.3, 5): 82000, (16, 500, 5, 3.3, 5): 21600, (32, 500, 5, 3.3, 5): 34300,
    (2, 3000, 5, 3.3, 5): 615, (16, 3000, 5, 3.3, 5): 4700, (32, 3000, 5, 3.3, 5): 8900,
    (32, 100, 5, 3.3, 300): 54000, (16, 3000, 5, 3.3, 300): 3640, (32, 3000, 5, 3.3, 300): 6770,
}

# Steps at the gateway's own code, as scripts/programs/c/gather_cases.c tells them; and the batches
# that go, with the microseconds for which others are waited for.
BATCHES = {
    # While some are out others wait; then for half as long as those took for whoever was with them,
    "c0 c1 p t3000 a p t500 p c0": "0 - 1500 1000 1,0",
    # for ten milliseconds at most, and no longer than each of those that wait costs;
    "c0 c1 t19000 a c0 t60000 c0 a p": "0 1,0 10000",
    "c0 c1 c2 c3 c4 t3000 a p t300 c5 p": "0 750 660",
    # for those of the batch before, too,
    "c0 c1 t3000 a c0 t3000 a c0 t3000 a c0 p t750 t1500 a c0": "0 1,0 0 750 0 0",
    # but not of an older one, nor for who left.
    "c0 t1000 a c1 s t1000 a c1 s t1000 a c1": "0 1 1 1",
    "c0 c1 t3000 a l0": "0 1",
    "c0 c1 t3000 a c0 t3000 a c0 t3000 a c0 l1": "0 1,0 0 0",
    # No more go together than the server reads at once, and then nobody is waited for.
    "c0 b1 b2 t1000 a t1000 a": "0 1 2",
    "c0 h1 h2 t1000 a": "0 1,2",
    "c2 b1 b2 t1000 a c4 t1000 a c1": "2 1 2,4,1",
    "c0 b1 b2 s": "0 1 2",
    # Behind the second wait in vain nobody is waited for; one that wasn't begins that anew.
    "c0 t1000 a t30000 c0 c1 t1000 a p t500 c0 t1000 a p c1 t1000 a c0 t500 t1000 a c0 p":
        "0 0 500 1 500 0,1 0 500",
    "c0 c1 t1000 a t500 c0 t1000 a t500 c0 t1000 a": "0 1 0 0",
    # The server ignores those that are out, or answers none.
    "c0 t20000 c1": "0 1",
    "c0 t3000 a t50000 a c1": "0 1",
    # Another server begins.
    "c0 x c1": "0 1",
    "c0 c1 t1000 a t500 c0 t1000 a t500 x c0 c1 t1000 a p": "0 1 0 0 500",
    "c0 c1 c2 c3 c4 x c0 c1 t1000 a p": "0 0 500",
    "c5 t1000 a x c0 t1000 a c0": "5 0 0",
    "c0 t15000 a x c0 c1 t20000": "0 0 1",
    # Without a clock nobody is waited for.
    "clockless c0 c1 t3000 a": "0 1",
    "clockless c0 c1 k p t20000 k p t1 k": "0 - - 1",
}

# Steps at `rughvadi-serve`'s, as scripts/programs/c/pace_cases.c tells them; and the microseconds
# for which the next batch is to wait.
LONE, BOTH = "c0 b d200 ", "c0 c1 b d200 "
PATIENCE = {
    # Half a sync for whoever was in one of the last two batches, ten milliseconds at most.
    "c0 c1 b d2000 p c0 p t400 p t700 p": "0 1000 600 0",
    "c0 c1 b d2000 c0 c1 p": "0",
    "c0 c1 b d2000 c0 b d2000 c0 p b d2000 c0 p": "1000 0",
    "c0 c1 b d60000 c0 p": "10000",
    # Who left isn't waited for.
    "c0 c1 b d2000 l1 c0 p": "0",
    "c0 c1 b d2000 c0 b d2000 l1 c0 p": "0",
    # Where syncs are fast, as long as one.
    "c0 c1 b d200 c0 p": "200",
    # Behind the second wait in vain nobody is waited for in two batches.
    "c0 c1 b d2000 c0 p t1000 b d2000 c0 p t1000 b d2000 c0 c1 b d2000 c0 p b d2000 c0 p":
        "1000 1000 0 1000",
    # A wait that wasn't in vain begins that anew.
    "c0 c1 c2 b d2000 c0 p t1000 b d2000 c0 p c1 b d2000 c0 p t1000 b d2000 c0 p":
        "1000 1000 1000 1000",
    # Of both ways the one that gave more commits in a time stays. One in which nobody commits
    # says nothing.
    LONE * 16 + BOTH * 16 + BOTH + "c0 p": "0",
    BOTH * 8 + "t1000000 " + BOTH * 8 + LONE * 16 + BOTH + "c0 p": "200",
}


def runs(tries: Tries, model: Path, wanted: dict[tuple, int], where: str) -> None:
    """A model's runs, each with so many commits a second at least."""
    for words, least in wanted.items():
        said = ran(model, *words).stdout.decode().strip()
        name = f"commits of {words[0]} go together at {where}, syncs of {words[1]} us"
        tries.told(name, int((said or "0").split()[0]) >= least, said)


def cases(tries: Tries, program: Path, wanted: dict[str, str], where: str) -> None:
    """Lists of steps, each with what is printed."""
    wrong = []
    for steps, lines in wanted.items():
        said = ran(program, *steps.split(), timeout=60).stdout.decode().split()
        wrong += [] if said == lines.split() else [f"{steps}: {said}"]
    tries.told(f"for whom commits wait at {where}", not wrong, "\n".join(wrong))


def clockless(tries: Tries, model: Path) -> None:
    """A gateway that got no clock, one of whose commits the server ignores."""
    said = ran(model, 4, 150, 25, 30, 20, "clockless", timeout=60).stdout.decode().strip()
    right = int((said or "0").split()[0]) >= 5000
    tries.told("commits go on without a clock, and one unanswered", right, said)


def room_kept(tries: Tries, model: Path) -> None:
    """How much room the gateway's buffers keep."""
    said = ran(model).stdout.decode().strip()
    first, second, third = map(int, said.split())
    right = first <= 1 << 16 and second <= 1 << 16 and 5 << 20 <= third <= 20 << 20
    tries.told("room that isn't used is given back", right, said)


def tried(tries: Tries, room: Path) -> None:
    """Runs all of it."""
    flags = ["-D_GNU_SOURCE", f"-I{building.TOP}/hosts/gateway", "-lm"]
    model = building.in_c("gather_model", room, *flags)
    runs(tries, model, GATHERED, "the gateway")
    clockless(tries, model)
    cases(tries, building.in_c("gather_cases", room, *flags), BATCHES, "the gateway")
    room_kept(tries, building.in_c("room_model", room, *flags))
    flags = [f"-I{building.TOP}/hosts/serve", "-lm"]
    runs(tries, building.in_c("pace_model", room, *flags), PACED, "the server")
    cases(tries, building.in_c("pace_cases", room, *flags), PATIENCE, "the server")
