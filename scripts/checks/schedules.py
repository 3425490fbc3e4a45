"""Plays schedules with the built program, and compares what it prints.

    scripts/check schedules FILE..   of each NAME.schedule (or .schedule.gz) beside NAME.toml: what
                                     it prints is NAME.stdout (or .stdout.gz), with status 0; says
                                     the processor time and the most memory of each
    scripts/check schedules          draws a hundred seeds, from 0 on, with 2,000 events each for 3
                                     clients, 4 pages of 16 bytes and 2 slots, with keep_write 0 and
                                     1, and plays each: the last line is `serial: yes`
    scripts/check schedules lives [COUNT [SEED]]
                                     draws schedules over several lives of the server, from that
                                     seed on (1,000 from 0 without numbers), and plays each: what it
                                     prints is what a model of the protocol in Python does
                                     (scripts/checks/world_model.py)

It needs `cb_play`, which is built first unless PROGRAM names a built one. The two hundred plays
take well under a minute, a thousand of lives about one. The status is 1 where one prints something
else.
"""
import gzip
import subprocess
import sys
from collections import Counter
from pathlib import Path

import building
from checks import drawn_lives

CONFIG = "clients = 3\npages = 4\npage_size = 16\nslots = 2\nkeep_write = {}\n"
# What a restart of the server is answered.
ANSWERS = ["restarted", "refused 1 Floor", "refused 2 Number"]
# What a process used that is the only child of its own.
USED = """
import resource, subprocess, sys
done = subprocess.run(sys.argv[2:], stdout=open(sys.argv[1], "wb"))
used = resource.getrusage(resource.RUSAGE_CHILDREN)
print(f"{used.ru_utime:.2f} s and {used.ru_stime:.2f} s, {used.ru_maxrss} KB")
sys.exit(done.returncode)
"""


def unpacked(path):
    """The bytes of a file, or of the one that gzip made of it."""
    packed = Path(f"{path}.gz")
    return gzip.decompress(packed.read_bytes()) if packed.exists() else Path(path).read_bytes()


def play_file(program, room, file):
    """Plays one schedule of a file, and compares; whether it is right."""
    name = file.removesuffix(".gz").removesuffix(".schedule")
    try:
        schedule, wanted = unpacked(f"{name}.schedule"), unpacked(f"{name}.stdout")
    except FileNotFoundError as none:
        print(f"{Path(name).name}: FAILED, there is no {none.filename}")
        return False
    (room / "schedule").write_bytes(schedule)
    words = [program, "play", f"{name}.toml", room / "schedule"]
    words = [sys.executable, "-c", USED, room / "out", *words]
    done = subprocess.run(words, capture_output=True, text=True, check=False)
    right = done.returncode == 0 and not done.stderr and (room / "out").read_bytes() == wanted
    failed = f"FAILED, status {done.returncode}, said: {done.stderr[:200]}"
    came = f"ok, {done.stdout.strip()}" if right else failed
    print(f"{Path(name).name}: {came}", flush=True)
    return right


def play_drawn(program, room, seed, keep):
    """Draws a schedule of a seed and plays it; whether it is serial."""
    config = room / "config"
    config.write_text(CONFIG.format(keep))
    words = ["draw", config, "--seed", str(seed), "--events", "2000"]
    drawn = subprocess.run([program, *words], capture_output=True, text=True, check=False)
    (room / "schedule").write_text(drawn.stdout)
    words = ["play", config, room / "schedule"]
    played = subprocess.run([program, *words], capture_output=True, text=True, check=False)
    lines = played.stdout.splitlines()
    counts = drawn.stdout.count("\n"), len(lines)
    if played.returncode == 0 and counts == (2000, 2002) and lines[-1] == "serial: yes":
        return True
    said = f"status {played.returncode}, said: {drawn.stderr}{played.stderr}"
    print(f"seed {seed}, keep_write {keep}: FAILED, {said}")
    return False


def play_lives(program, room, seed, seen):
    """Draws a schedule of lives and plays it; whether it is what the model says."""
    config, schedule, wanted = drawn_lives.drawn(seed)
    (room / "config").write_text(config)
    (room / "schedule").write_text(schedule)
    words = [program, "play", room / "config", room / "schedule"]
    done = subprocess.run(words, capture_output=True, text=True, check=False)
    seen.update(line.partition(" ")[2] for line in wanted.splitlines())
    if done.returncode == 0 and not done.stderr and done.stdout == wanted:
        return True
    pairs = enumerate(zip(done.stdout.splitlines(), wanted.splitlines()), 1)
    first = next((f"{n}: {came!r}, not {due!r}" for n, (came, due) in pairs if came != due), "")
    print(f"seed {seed}: FAILED, status {done.returncode}, {done.stderr}line {first}")
    return False


def all_lives(program, room, count=1000, seed=0):
    """Plays so many drawn schedules of lives; whether each is what the model says."""
    seen = Counter()
    right = sum(play_lives(program, room, at, seen) for at in range(seed, seed + count))
    kinds = ", ".join(f"{seen[it]} {it}" for it in ANSWERS)
    print(f"{right} of {count} drawn schedules of lives are as the model plays them")
    print(f"restarts of the server: {kinds}")
    return right == count


def main(words):
    with building.a_room() as room:
        program = building.play()
        if words[:1] == ["lives"]:
            return 0 if all_lives(program, room, *map(int, words[1:])) else 1
        if words:
            return 0 if all([play_file(program, room, file) for file in words]) else 1
        right = sum(play_drawn(program, room, seed, keep) for keep in (0, 1) for seed in range(100))
        print(f"{right} of 200 drawn schedules are serial")
        return 0 if right == 200 else 1
