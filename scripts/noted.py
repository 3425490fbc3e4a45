"""Runs `rt` in this process, with each call of the prover noted in a file.

    python3 scripts/noted.py LOG RT WORD..

RT is the program `rt` of a kit, which is a Python program beside its `rattle`. The kit is as it is,
so what is proved here is kept for later runs, and what earlier ones kept is taken over. A line of
LOG is a JSON list: the crate, the part (`build`, `check`, `tests`, `edit`, ..), the processor and
the clock seconds, and when it began. The status is rt's.
"""
import json
import os
import runpy
import signal
import subprocess
import sys
import time
from pathlib import Path

CALL = "--call"


def part_of(words: list[str]) -> str:
    """What a call of the prover is for."""
    if "--incremental" in words or "rt-edit-" in os.getcwd():
        return "edit"
    return "tests" if "--test" in words else words[0]


def call(log: str, words: list[str]) -> int:
    """Makes a call, passes on what ends it, and notes it; its status."""
    start = time.time()
    made = subprocess.Popen(words)
    for it in (signal.SIGTERM, signal.SIGINT):
        signal.signal(it, lambda number, _: made.send_signal(number))
    _, status, used = os.wait4(made.pid, 0)
    name = words[words.index("--crate-name") + 1] if "--crate-name" in words else ""
    seconds = used.ru_utime + used.ru_stime
    with open(log, "a", encoding="utf-8") as file:
        noted = [name, part_of(words[1:]), seconds, time.time() - start, start]
        file.write(json.dumps(noted) + "\n")
    return os.waitstatus_to_exitcode(status)


def run(log: str, rt: str, words: list[str]) -> None:
    """Runs rt, whose calls of the prover go through `call`."""
    rattle, began = str(Path(rt).with_name("rattle")), subprocess.Popen.__init__
    noter = [sys.executable, __file__, CALL, log, rattle]

    def begin(self, args, *given, **named):
        if isinstance(args, (list, tuple)):
            args = [word for it in args for word in (noter if it == rattle else [it])]
        began(self, args, *given, **named)

    subprocess.Popen.__init__ = begin
    sys.argv = [rt, *words]
    runpy.run_path(rt, run_name="__main__")


def main(words: list[str]) -> int:
    if words[:1] == [CALL]:
        status = call(words[1], words[2:])
        if status < 0:
            if -status != signal.SIGKILL:
                signal.signal(-status, signal.SIG_DFL)
            os.kill(os.getpid(), -status)
        return status
    run(os.path.abspath(words[0]), os.path.realpath(words[1]), words[2:])
    return 0


if __name__ == "__main__":
    sys.exit(main(sys.argv[1:]))
