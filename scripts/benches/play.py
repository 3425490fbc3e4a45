"""Times the play of a million events: reads alone of 32 clients over 4,096 pages.

    scripts/bench play [EVENTS [TURNS]]      1,000,000 events, three turns

Every client says hello and begins; then, client after client and page after page, a read that asks,
the server takes the ask, the client takes the grant, and a read that hits. It prints the processor
time and the most memory of each turn. Schedules of your own are timed by `scripts/check schedules
FILE..`.

It needs `cb_play`, which is built first unless PROGRAM names a built one. A turn takes about two
seconds.
"""
import os
import subprocess

import building

CONFIG = "clients = 32\npages = 4096\npage_size = 16\nslots = 1024\n"


def reads(events, clients=32, pages=4096):
    """The schedule's lines."""
    lines = [f"hello {client}" for client in range(clients)]
    lines += [f"take {packet}" for packet in range(2 * clients)]
    lines += [f"begin {client}" for client in range(clients)]
    sent, turn = 2 * clients, 0
    while len(lines) < events:
        client, page = turn % clients, turn // clients % pages
        read = f"read {client} {page}"
        lines += [read, f"take {sent}", f"take {sent + 1}", read]
        sent, turn = sent + 2, turn + 1
    return lines[:events]


def main(words):
    events, turns = map(int, (words + ["1000000", "3"][len(words) :])[:2])
    with building.a_room() as room:
        program = building.play()
        (room / "reads.toml").write_text(CONFIG)
        (room / "reads.schedule").write_text("\n".join(reads(events)) + "\n")
        for turn in range(1, turns + 1):
            words = [program, "play", room / "reads.toml", room / "reads.schedule"]
            play = subprocess.Popen(words, stdout=subprocess.DEVNULL)
            _, status, used = os.wait4(play.pid, 0)
            took = f"{used.ru_utime + used.ru_stime:.2f} s of processor time, {used.ru_maxrss} KB"
            print(f"turn {turn}: {took if status == 0 else 'FAILED'}", flush=True)
    return 0
