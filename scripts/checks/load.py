"""Runs each test of the gate many times on a busy machine.

    scripts/check load RUNS [WORD]    so many runs of each test whose name has the word in it

What a test says may not depend on who comes first, on time, or on how many processors there are.
The busy machine is this one, with twice as many endless loops as it has processors, and as many
tests at once as it has processors. Each run is a process of its own, with the gate's limit of 60
seconds. Tests that start threads have `running::` or `stops::` in their names.

A line for each test: its name, how many of its runs failed, and the longest in seconds. Of a run
that failed the last lines that it wrote stand above.

It needs the tests that the gate or `rt test` built in this checkout: those of cb_layer_tests,
cb_shelf_tests and cb_tests, in the folder `out` of each crate. PROGRAM names others, with a colon
between two. It takes more than RUNS times as long as the tests do, since the machine is busy. The
status is 1 where a run failed, and 2 where there is no test to run.
"""
import os
import subprocess
import sys
import time
from concurrent.futures import ThreadPoolExecutor
from contextlib import contextmanager
from pathlib import Path

import building

LIMIT = 60
CRATES = ["cb_layer_tests", "cb_shelf_tests", "cb_tests"]


def names_in(program):
    """The names of the tests, of which the program lists one a line."""
    said = subprocess.run([program, "--list"], stdout=subprocess.PIPE, text=True, check=True)
    lines = said.stdout.splitlines()
    return [line.removesuffix(": test") for line in lines if line.endswith(": test")]


@contextmanager
def busy_loops(count):
    """So many endless loops, while the body runs."""
    loops = [subprocess.Popen(["sh", "-c", "while :; do :; done"]) for _ in range(count)]
    try:
        yield
    finally:
        for loop in loops:
            loop.kill()
            loop.wait()


def run_once(program, name):
    """How long a run took, and what it wrote where it failed, else None."""
    begun = time.monotonic()
    try:
        both = {"stdout": subprocess.PIPE, "stderr": subprocess.STDOUT}
        ran = subprocess.run([program, name], **both, timeout=LIMIT, check=False)
        failed = ran.stdout if ran.returncode else None
    except subprocess.TimeoutExpired as late:
        failed = (late.stdout or b"") + f"not ended after {LIMIT} seconds".encode()
    return time.monotonic() - begun, failed


def show(name, runs):
    """Writes the test's line, below the last lines of failed runs; answers how many these were."""
    failed = [said for _, said in runs if said is not None]
    for said in failed:
        print("\n".join(said.decode(errors="replace").splitlines()[-3:]))
    longest = max(seconds for seconds, _ in runs)
    print(f"{name}: {len(failed)} of {len(runs)} failed, the longest {longest:.1f} s", flush=True)
    return len(failed)


def built_tests():
    """The programs that run tests: those that PROGRAM names, else those of both crates."""
    if given := os.environ.get("PROGRAM"):
        return [Path(it).resolve() for it in given.split(os.pathsep)]
    return [building.TOP / f"crates/{crate}/out/{crate}_tests" for crate in CRATES]


def main(words):
    if not words or not words[0].isdecimal() or int(words[0]) == 0:
        print(__doc__, file=sys.stderr)
        return 2
    runs, word = int(words[0]), words[1] if len(words) > 1 else ""
    programs = built_tests()
    for program in programs:
        if not os.access(program, os.X_OK):
            raise building.NotBuilt(f"no tests are built: {program}")
    tests = [(it, name) for it in programs for name in names_in(it) if word in name]
    processors = os.cpu_count()
    failed = 0
    with busy_loops(2 * processors), ThreadPoolExecutor(processors) as pool:
        for it, name in tests:
            ran = list(pool.map(lambda _, it=it, name=name: run_once(it, name), range(runs)))
            failed += show(name, ran)
    print(f"tests {len(tests)}, runs of each {runs}, failed {failed}")
    return 2 if not tests else int(failed > 0)
