"""What calls cost: a program reads a line `SETTING TIMES`, and does the setting so many times."""
import resource
import subprocess
from pathlib import Path


def once(program: Path, line: str) -> tuple[float, str]:
    """The seconds of processor time of a run, with the system's for it, and what it printed."""
    before = resource.getrusage(resource.RUSAGE_CHILDREN)
    done = subprocess.run([program], input=f"{line}\n", capture_output=True, text=True, check=True)
    after = resource.getrusage(resource.RUSAGE_CHILDREN)
    return after.ru_utime + after.ru_stime - before.ru_utime - before.ru_stime, done.stdout


def least(program: Path, line: str, runs: int) -> tuple[float, str]:
    """The least time of so many runs, and what the first printed."""
    each = [once(program, line) for _ in range(runs)]
    return min(seconds for seconds, _ in each), each[0][1]


def cost(program: Path, setting: str, times: int, runs: int) -> tuple[float, str]:
    """The seconds of what is measured alone: less those of runs that do it no time."""
    whole, printed = least(program, f"{setting} {times}", runs)
    none, _ = least(program, f"{setting} 0", runs)
    return whole - none, printed
