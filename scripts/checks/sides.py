"""Plays lists of frames and calls to one side alone, and compares each answer with the list's own.

    scripts/check sides FILE..

A FILE is a list of a client or of a server as docs/FORMATS.md says, packed by gzip where its name
ends in .gz. For each it prints how many lines were compared and how many differ.

It needs `cb_play`, which is built first unless PROGRAM names a built one. A list of ten thousand
lines takes about a second. The status is 1 where a line differs, or where a client's references
aren't those that its answers tell of.
"""
import gzip
import subprocess
from itertools import zip_longest
from pathlib import Path

import building


def is_right(program, room, file):
    """Plays a list, and says how many of its lines differ; whether none does."""
    data = Path(file).read_bytes()
    played = room / "list"
    played.write_bytes(gzip.decompress(data) if file.endswith(".gz") else data)
    words = [program, "sides", played]
    done = subprocess.run(words, stdout=subprocess.PIPE, text=True, check=False)
    answers = done.stdout.splitlines()
    same = done.returncode == 0 and not any(it.startswith("references differ") for it in answers)
    # What is said of references stands in no list that is handed in.
    answers = [it for it in answers if not it.startswith("references ")]
    lines = played.read_text().splitlines()
    differ = sum(line != answer for line, answer in zip_longest(lines, answers, fillvalue=""))
    print(f"{file}: {len(lines)} lines compared, {differ} differ", flush=True)
    return same and bool(lines) and differ == 0


def main(files):
    if not files:
        raise building.WrongWords("scripts/check sides FILE..")
    with building.a_room() as room:
        program = building.play()
        return 0 if all([is_right(program, room, file) for file in files]) else 1
