"""What `scripts/check library` tries of the Python package.

- Its module in C is compiled without a warning, and shows nothing but where it begins.
- The tests of the package, a file at a time: sends that are interrupted by a signal at every byte,
  waits between tries and their bounds, eight clients on one loop of asyncio, greetings, threads.
- The wheel has the tag of every Python from 3.11 on, and is installed by pip into an environment of
  its own, where no variable but PATH is set: it counts there, and its tests pass.
- The speed that the package's goals ask for isn't tried here: `scripts/bench library` measures it.
"""
import os
import platform
import subprocess
import sys

import building
import python_wheel

SILENT = ["-std=c11", "-O2", "-fPIC", "-fsyntax-only"]
SILENT += ["-Wall", "-Wextra", "-Wconversion", "-Werror"]
LIMITED = "-DPy_LIMITED_API=0x030B0000"
INCLUDE = "import sysconfig; print(sysconfig.get_path('include'))"


def tried(tries, it):
    """Tries the package and its wheel, as they are installed."""
    module_is_silent(tries, it)
    module_shows_its_beginning_alone(tries, it)
    for path in sorted((it.python / "tests").glob("test_*.py")):
        words = [sys.executable, "-W", "error", "-m", "unittest", path.stem]
        name = f"package: {path.stem.removeprefix('test_').replace('_', ' ')}"
        tries.command(name, *words, PYTHONPATH=f"{it.python}:{it.python / 'tests'}")
    wheel_is_installed(tries, it)


def module_is_silent(tries, it):
    """Compiles each file of the module, where each warning is an error."""
    said = subprocess.run([python_wheel.builder(), "-c", INCLUDE], capture_output=True, text=True)
    words = [os.environ.get("CC", "cc"), *SILENT, LIMITED]
    words += [f"-I{said.stdout.strip()}", f"-I{it.top}/include"]
    sources = sorted((it.python / "core").glob("*.c"))
    tries.command("package's module in C is compiled in silence", *words, *sources)


def module_shows_its_beginning_alone(tries, it):
    module = it.python / "rughvadi/_core.abi3.so"
    words = ["nm", "-D", "--defined-only", "--format=just-symbols", module]
    said = subprocess.run(words, capture_output=True, text=True, check=False).stdout
    tries.told("package's module shows its beginning alone", said == "PyInit__core\n", said)


def alone(path, *words):
    """The words of a command that runs with no variable but PATH."""
    return ["env", "-i", f"PATH={path}", *words]


def wheel_is_installed(tries, it):
    """The wheel in an environment of its own: its name, an example, and its tests."""
    wheels = [path.name for path in it.python.parent.glob("*.whl")]
    right = wheels == [f"rughvadi-1.1.0-cp311-abi3-linux_{platform.machine()}.whl"]
    tries.told("wheel's name", right, "\n".join(wheels) or "none is there")
    if not right:
        return
    environment, system = it.room / "environment", "/usr/bin:/bin"
    path = f"{environment}/bin:{system}"
    make = [sys.executable, "-m", "venv", environment]
    tries.command("wheel: an environment", *alone(system, *make))
    given = ["-q", "--disable-pip-version-check", "--no-index", it.python.parent / wheels[0]]
    tries.command("wheel: pip installs it", *alone(path, "pip", "install", *given))
    found = "import rughvadi; print(rughvadi.__file__)"
    said = subprocess.run(alone(path, "python", "-c", found), capture_output=True, text=True)
    tries.told("wheel: it is what is imported", f"{environment}/lib" in said.stdout,
               said.stdout or said.stderr)
    example = building.TOP / "hosts/python/examples/one_process.py"
    tries.command("wheel: an example", *alone(path, "python", example, "50"))
    words = ["python", "-m", "unittest", "discover", "-s", it.python / "tests"]
    tries.command("wheel: the package's tests", *alone(path, *words))
