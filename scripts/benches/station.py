"""Measures what the calls of a station cost.

    scripts/bench station [RUNS]      the least of three runs

A transaction of one client reads two pages and writes both (`commit`), with the copies given back;
one that holds all pages and writes two (`keep`); and one whose commit is written behind all others,
in one batch to a shelf in memory, and reported (`flush`). It prints microseconds of processor time,
less that of runs that have the same commits before and none of what is measured.

It needs the program of scripts/programs/station_speed, which is built first unless PROGRAM names a
built one. Three runs take some minutes.
"""
import building
from costs import cost

# Pages, their size, and the commits before.
SETTINGS = [
    (64, 16, 10), (64, 16, 100_000), (4096, 16, 10), (4096, 16, 100_000), (64, 4096, 10),
]
LIBRARIES = [
    "cb_page", "cb_frame", "cb_commit", "cb_hands", "cb_shelf", "cb_station", "sqlite",
    "sqlite_disk",
]


def main(words):
    runs = int((words or ["3"])[0])
    with building.a_room() as room:
        program = building.program("station_speed", LIBRARIES, [], room)
        for case in ("commit", "keep", "flush"):
            for pages, size, before in SETTINGS:
                times = 100_000 if size == 16 else 20_000
                seconds, _ = cost(program, f"{case} {pages} {size} {before}", times, runs)
                took = f"{seconds / times * 1e6:.2f} us, {times / seconds:,.0f} a second"
                where = f"{pages} pages of {size} bytes, after {before} commits"
                print(f"{case}, {where}: {took}", flush=True)
    return 0
