"""What the two tools share: where the repository is, and how programs are built."""
import os
import shutil
import subprocess
import sys
import tempfile
from collections.abc import Iterable, Iterator, Mapping
from contextlib import contextmanager
from pathlib import Path

TOP = Path(__file__).resolve().parent.parent
PROGRAMS = TOP / "scripts/programs"
# The command that proves.
RT = os.environ.get("RT", "rt").split()
# What programs stand on.
SHELF = ["cb_page", "cb_frame", "cb_commit", "cb_shelf", "cb_test_parts"]
KILLED = [
    "cb_page", "cb_commit", "cb_console", "cb_shelf", "cb_station", "cb_office",
    "sqlite", "anyhow",
]
DATABASE = ["sqlite", "sqlite_disk", "sqlite_store", "anyhow"]


class NotBuilt(Exception):
    """A program isn't built: the text says which, and the last lines of why."""


class WrongWords(Exception):
    """The words of a command line are wrong: the text says which there may be."""


@contextmanager
def a_room(folder: str | None = None) -> Iterator[Path]:
    """A folder of its own while the body runs: in that of ROOM, else in the system's."""
    with tempfile.TemporaryDirectory(dir=folder or os.environ.get("ROOM")) as room:
        yield Path(room)


def named(variable: str) -> Path | None:
    """The built program that a variable of the environment names."""
    path = os.environ.get(variable)
    return Path(path).resolve() if path else None


def ran_by_rt(crate: Path, words: Iterable[str], command: str = "run") -> str:
    """Proves, builds and runs a crate; what was said."""
    done = subprocess.run(
        [*RT, command, *(["--", *words] if command == "run" else [])],
        cwd=crate,
        stdin=subprocess.DEVNULL,
        stdout=subprocess.PIPE,
        stderr=subprocess.STDOUT,
        text=True,
        check=False,
    )
    return done.stdout


def built(program: Path, said: str) -> Path:
    """The program, once it is there."""
    if not os.access(program, os.X_OK):
        last = "\n".join(said.splitlines()[-20:])
        raise NotBuilt(f"{last}\n{program.name} isn't built")
    return program


def play(variable: str = "PROGRAM") -> Path:
    """The program `cb_play`: the one that the variable names, else built."""
    crate = TOP / "crates/cb_play"
    return named(variable) or program_of(crate, libraries_of("cb_play"), ["--version"])


def listed() -> dict[str, str]:
    """The lines of crates.txt by crate."""
    lines = {}
    for line in (TOP / "crates.txt").read_text().splitlines():
        head, colon, _ = line.partition("#")[0].partition(":")
        if colon:
            lines[head.split()[0]] = line
    return lines


def stands_on(names: Iterable[str]) -> list[str]:
    """Crates and the crates of the repository below them."""
    lines, found, left = listed(), [], list(names)
    while left:
        it = left.pop()
        if it in lines and it not in found:
            found.append(it)
            left += lines[it].partition(":")[2].split()
    return found


def copy_of(names: Iterable[str], room: Path, *but: str) -> Path:
    """The crates and those below in a repository of its own, but for folders of these names."""
    lines, below, left_out = listed(), stands_on(names), shutil.ignore_patterns(*but)
    subprocess.run(["git", "init", "-q", room], check=True)
    shutil.copy(TOP / "HANDLES", room)
    (room / "crates.txt").write_text("".join(f"{lines[it]}\n" for it in below))
    for each in below:
        to = room / "crates" / each
        shutil.copytree(TOP / "crates" / each, to, symlinks=True, ignore=left_out)
    return room


def new_crate(room: Path, name: str, libraries: Iterable[str]) -> Path:
    """The folder of a program in such a copy, with the texts of scripts/programs/NAME."""
    crate = room / "crates" / name
    (crate / "src").mkdir(parents=True)
    with (room / "crates.txt").open("a") as lines:
        lines.write(f"{name}: {' '.join(libraries)}\n")
    for text in (PROGRAMS / name).glob("*.txt"):
        shutil.copy(text, crate / f"src/{text.stem}.rt")
    return crate


def program_of(crate: Path, libraries: list[str], words: Iterable[str]) -> Path:
    """A crate's program: over what is built in the clone that BELOW names, else by `rt`, which runs
    it once."""
    if below := named("BELOW"):
        return linked(crate, libraries, below)
    return built(crate / f"out/{crate.name}", ran_by_rt(crate, words))


def program(
    name: str, libraries: list[str], words: Iterable[str], room: Path, variable: str = "PROGRAM"
) -> Path:
    """A program of scripts/programs: the one that the variable names, else built in a copy of the
    crates below it, and run once."""
    if given := named(variable):
        return given
    copy = copy_of(libraries, room / name)
    return program_of(new_crate(copy, name, libraries), libraries, words)


def replace_in(folder: Path, old: str, new: str) -> None:
    """Changes a text wherever it stands in the files of a folder."""
    for path in folder.rglob("*"):
        if path.is_file():
            path.write_text(path.read_text().replace(old, new))


def killed_runs(room: Path) -> Path:
    """The program that runs workers and writes a byte for each job that is answered as done."""
    copy = copy_of(KILLED, room / "killed_runs")
    crate, play_crate = new_crate(copy, "killed_runs", KILLED), TOP / "crates/cb_play"
    for part in ("specs", "proofs"):
        (crate / part).mkdir()
    # It has cb_play's runs over a file, with what is said of them.
    for text in ("store_file", "store_run"):
        shutil.copy(play_crate / f"src/{text}.rt", crate / "src")
    for text in ("StoreFiles", "StoreRuns"):
        shutil.copy(play_crate / f"specs/{text}.antt", crate / "specs")
    shutil.copy(play_crate / "proofs/Told.antt", crate / "proofs")
    shutil.copytree(play_crate / "proofs/store_run", crate / "proofs/store_run")
    (crate / "specs/Lib.antt").write_text("pub mod StoreFiles\npub mod StoreRuns\n")
    (crate / "proofs/Lib.antt").write_text("mod Told\n")
    replace_in(crate, "cb_play", "killed_runs")
    return program_of(crate, KILLED, ["none", "none"])


def shelf_files(room: Path) -> Path:
    """The program that opens shelves over real files: the one that PROGRAM names, else built."""
    if given := named("PROGRAM"):
        return given
    copy = copy_of(SHELF, room / "shelf_files")
    crate = new_crate(copy, "shelf_files", [*SHELF, *DATABASE])
    # It commits, and looks at what a shelf holds, as the tests do.
    bench = (TOP / "crates/cb_tests/src/running/commits.rt").read_text()
    bench = bench.replace("crate::commits::", "cb_test_parts::commits::")
    (crate / "src/bench.rt").write_text(bench)
    return program_of(crate, [*SHELF, *DATABASE], ["none", "none"])


def toolchain() -> Path:
    """The folder of the toolchain, in which `rt doc` has its first page."""
    said = subprocess.run([*RT, "doc"], stdout=subprocess.PIPE, text=True, check=True).stdout
    return Path(said.strip()).parent


def libraries_of(name: str) -> list[str]:
    """The libraries that a crate names, without `std`."""
    return listed()[name].partition(":")[2].split()


def over(
    libraries: Iterable[str], below: Path, kit: Path, sources: Mapping[str, Path] = {}
) -> list[str]:
    """The words by which the prover reads a crate over libraries that were built below it, but for
    those that it reads as sources, in these folders."""
    named = ["std", *libraries]
    used = {it: ["core", "std", *libraries_of(it)] for it in sources}
    built = [it for it in stands_on(named) if it not in sources]
    rlib = {it: below / f"crates/{it}/out/rlib/{it}.rlib" for it in built}
    named = dict.fromkeys(it for it in sum(used.values(), named) if it not in sources)
    words = [f"{it}={rlib.get(it, kit / f'rlibs/{it}.rlib')}" for it in named]
    folders = [kit / "rlibs", *(it.parent for it in rlib.values())]
    logic = [f"--antt-project={kit}/rattle/logic/antt-project.json"]
    libraries = [f"{it}:{','.join(used[it])}={sources[it]}/src/lib.rt" for it in sources]
    return [
        *(part for it in words for part in ("--extern", it)),
        *(part for it in libraries for part in ("--lib", it)),
        *(part for it in folders for part in ("-L", f"dependency={it}")),
        *logic, f"--logic-built={kit}/logic_built",
    ]


def linked(crate: Path, libraries: Iterable[str], below: Path, *flags: str) -> Path:
    """The program of a crate, or with `--test` its tests, proved over libraries that were built in
    a clone; it stands in the crate's folder `out`."""
    kit, is_program = toolchain(), (crate / "src/main.rt").exists()
    made = crate / f"out/{crate.name}{'_tests' if '--test' in flags else ''}"
    made.parent.mkdir(exist_ok=True)
    tools = ["--toolchain", kit / "toolchain"]
    words = [kit / "bin/rattle", "build", "--crate-name", crate.name]
    words += ["src/main.rt" if is_program else "src/lib.rt", "--links", f"{crate.name}=", *flags]
    words += [*over(libraries, below, kit), *tools, "--backend", "llvm"]
    link = [kit / "bin/rattle-link", "--target", "x86_64-unknown-linux-gnu", *tools, "-o", made]
    link += [f"{made}.o", kit / "c/libos_c.a", kit / "c/liblibc_c.a"]
    said = ""
    both = {"stdout": subprocess.PIPE, "stderr": subprocess.STDOUT, "text": True}
    for each in ([*words, "-o", f"{made}.o"], link):
        done = subprocess.run(each, cwd=crate, **both, check=False)
        said += done.stdout
        if done.returncode:
            break
    return built(made, said)


def below_library(room: Path) -> Path:
    """Where the crates below `rughvadi` are built: the clone that BELOW names, in which `rt ci` ran
    over these sources, else a repository of its own without edits, in which it runs now."""
    if given := named("BELOW"):
        return given
    below = copy_of(libraries_of("rughvadi"), room, "out", "must-fail")
    if subprocess.run([*RT, "ci"], cwd=below, stdout=sys.stderr, check=False).returncode:
        raise NotBuilt("what stands below rughvadi isn't proved")
    return below


def library(room: Path) -> Path:
    """The archive of `rughvadi`, in its folder: the one that ARCHIVE names. Else it is built. `rt
    lib` doesn't take over what `rt ci` proved, so the crate is built over what that leaves, which
    proves it."""
    name, kit = "rughvadi", toolchain()
    crate = TOP / "crates" / name
    archive = crate / f"out/lib{name}.a"
    archive.parent.mkdir(exist_ok=True)
    if given := named("ARCHIVE"):
        return Path(shutil.copy(given, archive))
    below = below_library(room / "below")
    words = [kit / "bin/rattle", "build", "--crate-name", name, "src/lib.rt"]
    words += ["--crate-type", "staticlib", "--links", f"{name}="]
    words += over(libraries_of(name), below, kit)
    words += ["--toolchain", kit / "toolchain", "--backend", "llvm", "-o", archive]
    if subprocess.run(words, cwd=crate, stdout=sys.stderr, check=False).returncode:
        raise NotBuilt(f"{name} isn't built")
    return archive


def in_c(name: str, room: Path, *flags: str) -> Path:
    """A program of scripts/programs/c, compiled."""
    made = room / name
    compiled(name, made, *flags)
    return made


def library_in_c(name: str, room: Path, *flags: str) -> Path:
    """A library of scripts/programs/c, which a program is begun with by LD_PRELOAD."""
    made = room / f"{name}.so"
    compiled(name, made, "-shared", "-fPIC", *flags)
    return made


def compiled(name: str, made: Path, *flags: str) -> None:
    """Compiles a text in C."""
    compiler = os.environ.get("CC", "cc")
    words = [compiler, "-O2", "-o", made, PROGRAMS / f"c/{name}.c", *flags]
    if subprocess.run(words, check=False).returncode:
        raise NotBuilt(f"{name}.c isn't compiled")


def main(words: list[str]) -> int:
    """For shells: `building.py (play|shelf_files|library) ROOM` prints where what it built is."""
    known = {"play": lambda _: play(), "shelf_files": shelf_files, "library": library}
    try:
        print(known[words[0]](Path(words[1])))
    except NotBuilt as why:
        print(why, file=sys.stderr)
        return 2
    return 0


if __name__ == "__main__":
    sys.exit(main(sys.argv[1:]))
