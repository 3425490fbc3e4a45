"""Makes the Python package's wheel over a library that is installed.

    scripts/python_wheel.py DIR

It compiles what stands in DIR/share/rughvadi/python over DIR/include and DIR/lib, and puts the
wheel into DIR/share/rughvadi; its module in C is put beside the package's sources too, for who
names that folder by PYTHONPATH. `scripts/library` calls it.

That takes a Python from 3.11 on with pip, setuptools, wheel and Python.h; the wheel is for each
version from 3.11 on. PYTHON names one. If it isn't set, the one that runs this is taken, else
Debian's (python3-dev, python3-pip and python3-wheel). The status is 1 where there is none, or the
module isn't compiled.
"""
import os
import shutil
import subprocess
import sys
import tempfile
import zipfile
from pathlib import Path

TOP = Path(__file__).resolve().parent.parent
CAN_BUILD = """
import importlib.util as modules, os, sys, sysconfig
wheels = modules.find_spec("wheel") or modules.find_spec("setuptools.command.bdist_wheel")
tools = modules.find_spec("pip") and modules.find_spec("setuptools") and wheels
header = os.path.join(sysconfig.get_path("include"), "Python.h")
sys.exit(not (sys.version_info >= (3, 11) and tools and os.path.exists(header)))
"""
DEBIANS = "/usr/bin/python3"


def builder() -> str | None:
    """A Python that can make the wheel."""
    given = os.environ.get("PYTHON")
    for python in [given] if given else [sys.executable, DEBIANS]:
        words = [python, "-c", CAN_BUILD]
        if shutil.which(python) and not subprocess.run(words, stderr=subprocess.DEVNULL).returncode:
            return python
    return None


def wheel_of(package: Path, lib: Path, python: str, room: Path) -> Path | None:
    """The wheel, made in a copy of the package's sources; none where that failed."""
    sources = room / "sources"
    shutil.copytree(package, sources, ignore=shutil.ignore_patterns("__pycache__", "*.so"))
    shutil.copy(TOP / "LICENSE", sources)
    words = [python, "-m", "pip", "--disable-pip-version-check", "-q", "wheel", "--no-index"]
    words += ["--no-build-isolation", "--no-deps", "-w", room / "made", sources]
    env = {**os.environ, "RUGHVADI_LIB_DIR": str(lib)}
    if subprocess.run(words, env=env, check=False).returncode:
        return None
    return next((room / "made").glob("rughvadi-*.whl"), None)


def main(words: list[str]) -> int:
    if len(words) != 1:
        print("scripts/python_wheel.py DIR", file=sys.stderr)
        return 2
    top = Path(words[0]).resolve()
    share = top / "share/rughvadi"
    if (python := builder()) is None:
        print("no Python has pip, setuptools, wheel and Python.h", file=sys.stderr)
        return 1
    with tempfile.TemporaryDirectory() as room:
        made = wheel_of(share / "python", top / "lib", python, Path(room))
        if made is None:
            print("the wheel isn't made", file=sys.stderr)
            return 1
        for old in share.glob("rughvadi-*.whl"):
            old.unlink()
        shutil.copy(made, share)
        with zipfile.ZipFile(made) as files:
            names = [name for name in files.namelist() if name.endswith(".so")]
            files.extractall(share / "python", names)
    return 0


if __name__ == "__main__":
    sys.exit(main(sys.argv[1:]))
