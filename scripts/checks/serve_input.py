"""Bad input and faults at a server of frames, for `scripts/check serve`: by files and pipes. It is
`cb_play serve`, or `rughvadi-serve`.

Three clients commit on a page each: the transaction's number is on the page. So what was answered
as Done can be looked for in the store, however the server ended.
"""
from __future__ import annotations

import contextlib
import fcntl
import os
import resource
import shutil
import signal
import struct
import subprocess
import tempfile
import termios
import threading
import time
from collections.abc import Iterator
from dataclasses import dataclass
from pathlib import Path

import building
from checks.frames import (
    ABORT_NOW, AGAIN, ASK_READ, ASK_WRITE, CALLBACK, COMMIT, DONE, GRANTED, HEADER, HELLO, WELCOME,
    frame, of_commit, of_page, of_read, of_write,
)
from checks.trying import PIPES, opened, ran, rows_of

CLIENTS, PAGES = 3, 4
# So many incarnations are in a life, if its bound isn't raised: the next one's first is as far on.
LIFE = 1 << 20
CONFIG = "clients = {}\npages = {}\npage_size = {}\nslots = 4\n{}"
# How a server may end that was refused memory.
MEMORY = [(4, ["memory"]), (0, [])]


@dataclass
class Ended:
    """How a server ended: its status, the frames that it put out, a rest, and what it said."""

    status: int
    frames: list[tuple[int, int, bytes]]
    rest: bytes
    said: list[str]

    @property
    def how(self) -> tuple[int, list[str]]:
        return self.status, self.said

    def kinds(self) -> list[tuple[int, int]]:
        return [(kind, client) for kind, client, _ in self.frames]

    def dones(self) -> list[tuple[int, int, int]]:
        """Client, transaction and number of each Done."""
        found = [(client, body) for kind, client, body in self.frames if kind == DONE]
        return [(client, *struct.unpack(">QQ", body)) for client, body in found]


def cut(out: bytes) -> tuple[list[tuple[int, int, bytes]], bytes]:
    """The frames that bytes are of, and the rest behind them."""
    frames = []
    while len(out) >= HEADER.size:
        _, kind, client, _, size = HEADER.unpack(out[: HEADER.size])
        if len(out) < HEADER.size + size:
            break
        frames.append((kind, client, out[HEADER.size : HEADER.size + size]))
        out = out[HEADER.size + size :]
    return frames, out


class Scene:
    """A server's files, in a folder of their own. Clients greet each server over them by a later
    incarnation, above the floor of its life."""

    def __init__(self, room: Path, server: tuple, size: int = 64, more: str = "") -> None:
        self.room = Path(tempfile.mkdtemp(dir=room))
        self.server, self.size, self.incarnation = server, size, 2
        self.config, self.store = self.room / "config", self.room / "store.db"
        self.config.write_text(CONFIG.format(CLIENTS, PAGES, size, more))

    def words(self) -> list[str]:
        return [str(it) for it in (*self.server, self.config, self.store)]

    def serve(self, given: bytes, **how) -> Ended:
        """Serves what is given to its end."""
        done = ran(*self.words(), input=given, timeout=120, **how)
        self.incarnation += LIFE
        return self.ended(done.returncode, done.stdout, done.stderr)

    def ended(self, status: int, out: bytes, said: bytes) -> Ended:
        return Ended(status, *cut(out), said.decode().splitlines())

    # ---- frames ----

    def say(self, kind: int, client: int, body: bytes = b"") -> bytes:
        return frame(kind, client, self.incarnation, body)

    def commit(self, client: int, number: int, grant: int, later: int = 0) -> bytes:
        page = of_page(client, grant, number.to_bytes(self.size, "big"))
        return frame(COMMIT, client, self.incarnation + later, of_commit(number, page))

    def begins(self) -> bytes:
        """Each client greets and reads its page: the grants are 1, 2 and 3."""
        asks = [self.say(ASK_READ, it, of_read(1, it)) for it in range(CLIENTS)]
        return b"".join([*(self.say(HELLO, it) for it in range(CLIENTS)), *asks])

    def commits(self, first: int, last: int) -> list[bytes]:
        """The frames by which each client commits these transactions, in turn."""
        frames = []
        for number in range(first, last + 1):
            for client in range(CLIENTS):
                frames.append(self.say(ASK_WRITE, client, of_write(number, client, client + 1)))
                frames.append(self.commit(client, number, client + 1))
        return frames

    def given(self, last: int) -> bytes:
        return b"".join([self.begins(), *self.commits(1, last)])

    # ---- what is stored ----

    def is_made(self) -> bool:
        """Whether the store has its tables, which are made in one transaction."""
        text = "SELECT count(*) FROM sqlite_schema WHERE name = 'mark2'"
        return self.store.exists() and rows_of(self.store, text) == [(1,)]

    def stored(self) -> tuple[int, list[int]]:
        """The number of the last commit, and the number on each client's page."""
        ((number,),) = rows_of(self.store, "SELECT commits FROM mark2")
        text = "SELECT body FROM part WHERE no < ? ORDER BY no, place"
        bodies = [body for (body,) in rows_of(self.store, text, CLIENTS)]
        each = max(1, len(bodies) // CLIENTS)
        bytes_of = [b"".join(bodies[at : at + each]) for at in range(0, len(bodies), each)]
        return number, [int.from_bytes(it, "big") for it in bytes_of]

    def holds(self, ended: Ended, last: int | None = None) -> bool:
        """Whether the store has first commits, each that was answered among them; just so many of
        each client, if that is said."""
        if not self.is_made():
            return last is None and not ended.dones()
        number, counters = self.stored()
        dones = ended.dones()
        answered = all(number >= of and counters[client] >= txn for client, txn, of in dones)
        in_turn = counters == sorted(counters, reverse=True) and counters[0] - counters[-1] <= 1
        exact = last is None or counters == CLIENTS * [last]
        return answered and in_turn and sum(counters) == number and exact


# ---- frames that come ----


def whole_input(it: Scene) -> bool:
    """Every commit is answered, and stored; a later server goes on from there."""
    ended = it.serve(it.given(20))
    right = ended.how == (0, []) and len(ended.dones()) == 60 and it.holds(ended, 20)
    # The new server knows no client, and its commits go on from 60.
    again = it.serve(it.given(21))
    return right and again.dones()[0][2] == 61 and again.how == (0, []) and it.stored()[0] == 123


def closed_file(it: Scene) -> bool:
    """The store is closed at the end: every commit is in the file alone, with no log beside it."""
    ended = it.serve(it.given(20))
    alone = Scene(it.room, it.server)
    shutil.copyfile(it.store, alone.store)
    return ended.how == (0, []) and alone.holds(ended, 20)


def byte_by_byte(it: Scene) -> bool:
    """What comes a byte at a time is what comes at once."""
    with subprocess.Popen(it.words(), **PIPES) as process:
        for byte in it.given(2):
            os.write(process.stdin.fileno(), bytes([byte]))
        process.stdin.close()
        out, said = process.stdout.read(), process.stderr.read()
    ended = it.ended(process.returncode, out, said)
    return ended.how == (0, []) and len(ended.dones()) == 6 and it.holds(ended, 2)


def damaged_frames(it: Scene) -> bool:
    """What has a header and is no frame is passed over, and counted: each between two commits."""
    page = of_page(0, 1, bytes(it.size))
    size = struct.pack(">QHIQI", 2, 1, 0, 1, it.size + 16) + bytes(it.size)
    falls, count = of_commit(2, page, page), of_commit(2, page, b"")
    wrong = [
        it.say(COMMIT, 0, size), it.say(COMMIT, 0, falls), it.say(COMMIT, 0, count),
        it.say(ASK_READ, 0, of_read(2, PAGES)), it.say(ASK_READ, 0, of_read(0, 0)),
        frame(HELLO, 0, 0),
        frame(HELLO, 0, 1 << 62), frame(HELLO, CLIENTS, 1), frame(HELLO, 65535, 1),
    ]
    right = it.commits(1, 5)
    mixed = [each for pair in zip(right, wrong) for each in pair] + right[len(wrong) :]
    ended = it.serve(it.begins() + b"".join(mixed))
    counted = ended.how == (0, [f"passed over {len(wrong)}"])
    return counted and len(ended.dones()) == 15 and it.holds(ended, 5)


def strangers(it: Scene) -> bool:
    """Frames of other incarnations, of who never greeted, and of kinds for clients are let go."""
    granted = struct.pack(">IQQI", 0, 9, 9, it.size) + bytes(it.size)
    others = [
        it.commit(0, 9, 1, later=1),
        it.commit(0, 9, 7), frame(ASK_READ, 1, 9, of_read(1, 0)),
        it.say(WELCOME, 0), it.say(GRANTED, 0, granted),
        it.say(DONE, 0, struct.pack(">QQ", 1, 1)), it.say(ABORT_NOW, 1, struct.pack(">Q", 1)),
        it.say(CALLBACK, 1, struct.pack(">IQ", 0, 1)),
    ]
    ended = it.serve(b"".join(others) + it.given(1))
    right = ended.how == (0, []) and len(ended.dones()) == 3 and it.holds(ended, 1)
    # A grant that isn't the client's commits nothing.
    stolen = it.serve(it.begins() + it.commit(0, 1, 2) + frame(HELLO, 0, it.incarnation + 1))
    return right and stolen.how == (0, []) and not stolen.dones()


def no_header(it: Scene) -> bool:
    """A header that no frame has ends it; what came before is answered, what follows isn't."""
    ends = [
        HEADER.pack(3, HELLO, 0, 1, 0), HEADER.pack(0, HELLO, 0, 1, 0),
        HEADER.pack(2, 9, 0, 1, 0), HEADER.pack(2, 200, 0, 1, 0), HEADER.pack(2, 0, 1, 0, 0),
        HEADER.pack(2, 0, 0, 1, 0), HEADER.pack(2, 0, 0, 0, 1), HEADER.pack(2, HELLO, 0, 1, 1),
        HEADER.pack(2, COMMIT, 0, 1, 11), HEADER.pack(2, COMMIT, 0, 1, (1 << 32) - 1),
        HEADER.pack(1, 8, 0, 1, 20), b"GET / HTTP/1.1\r\n\r\n",
    ]
    right = []
    for end in ends:
        scene = Scene(it.room, it.server)
        ended = scene.serve(scene.given(2) + end + b"".join(scene.commits(3, 3)))
        right.append(ended.how == (3, ["input: no frame"]) and len(ended.dones()) == 6
                     and scene.holds(ended, 2))
    return all(right)


def cut_input(it: Scene) -> bool:
    """The input ends within a frame, at each byte of it: what came before is answered."""
    right, last = [], it.commit(0, 3, 1)
    for count in (1, 15, 16, 17, len(last) - 1):
        scene = Scene(it.room, it.server)
        ended = scene.serve(scene.given(2) + last[:count])
        right.append(ended.how == (3, ["input: frame cut"]) and len(ended.dones()) == 6
                     and scene.holds(ended, 2))
    return all(right)


def says_again(it: Scene) -> bool:
    """What may be lost is said again: a Callback that isn't answered; and nothing else."""
    read, ask = it.say(ASK_READ, 0, of_read(1, 1)), it.say(ASK_WRITE, 1, of_write(1, 1, 2))
    ended = it.serve(AGAIN + it.begins() + AGAIN + read + ask + AGAIN + AGAIN)
    calls = [each for each in ended.kinds() if each == (CALLBACK, 0)]
    return ended.how == (0, []) and len(calls) == 3 and len(ended.frames) == 10


def kept_writes(it: Scene) -> bool:
    """Kept write permission is allowed; jobs count for nothing."""
    scene = Scene(it.room, it.server, more="keep_write = 1\njobs = 7\n")
    # The second transaction of each client commits with no ask.
    second = b"".join(scene.commit(client, 2, client + 1) for client in range(CLIENTS))
    ended = scene.serve(scene.given(1) + second)
    return ended.how == (0, []) and len(ended.dones()) == 6 and scene.holds(ended, 2)


# ---- what is refused ----


def wrong_configs(it: Scene) -> bool:
    right = []
    for more, line in (("kin = 4\n", "config: limit 5 Kin"), ("x = 1\n", "config: unknown x"),
                       ("keep_write = 2\n", "config: keep_write"), ("[", "config: text")):
        scene = Scene(it.room, it.server, more=more)
        ended = scene.serve(scene.given(1))
        right.append(ended.how == (2, [line]) and not ended.frames and not scene.store.exists())
    return all(right)


def stores_that_refuse(it: Scene) -> bool:
    """A file that is none, tables of other limits, a folder, and a store that another holds."""
    given, right = it.given(1), []
    for name, line in (("text", "store: Store"), ("folder", "store: Store"),
                       ("other", "store: Shape"), ("held", "store: Store")):
        scene = Scene(it.room, it.server)
        with prepared(scene, name):
            ended = scene.serve(given)
        right.append(ended.how == (3, [line]) and not ended.frames)
    return all(right)


def stores_that_are_no_file(it: Scene) -> bool:
    """What the library of SQLite would keep in memory, or in a file that goes as it is closed."""
    given, right = it.given(1), []
    for name in (":memory:", ""):
        done = ran(*it.words()[:-1], name, input=given, cwd=it.room, timeout=120)
        right.append((done.returncode, done.stdout, done.stderr) == (3, b"", b"store: Store\n"))
    return all(right)


@contextlib.contextmanager
def prepared(scene: Scene, name: str) -> Iterator[None]:
    """A store that is refused while the body runs."""
    if name == "text":
        scene.store.write_text(1000 * "no database\n")
    elif name == "folder":
        scene.store.mkdir()
    else:
        scene.serve(scene.begins())
    if name == "other":
        scene.config.write_text(CONFIG.format(CLIENTS, PAGES + 1, scene.size, ""))
    if name != "held":
        yield
        return
    with opened(scene.store) as other:
        other.execute("PRAGMA locking_mode = EXCLUSIVE")
        other.execute("BEGIN EXCLUSIVE")
        yield


def small_files(most: int):
    """Before the program: a write past so many bytes of a file is refused."""

    def limit() -> None:
        signal.signal(signal.SIGXFSZ, signal.SIG_IGN)
        resource.setrlimit(resource.RLIMIT_FSIZE, (most, most))

    return limit


def full_disk(it: Scene) -> bool:
    """Files that can't grow beyond a size, each size in turn: what was answered is stored, and a
    server over the same file goes on once there is room."""
    ended_how = set()
    for most in (0, 1 << 12, 1 << 15, 1 << 16, 1 << 17, 1 << 18, 1 << 19, 1 << 20):
        scene = Scene(it.room, it.server, 4096)
        ended = scene.serve(scene.given(50), preexec_fn=small_files(most))
        ended_how.add(ended.status)
        if ended.how not in ((0, []), (3, ["store: Store"])) or not scene.holds(ended):
            return False
        before = scene.stored()[0] if ended.dones() else 0
        later = scene.serve(scene.given(1))
        if later.how != (0, []) or [of for _, _, of in later.dones()][0] <= before:
            return False
    return ended_how == {0, 3} and on_a_small_disk(it)


def on_a_small_disk(it: Scene) -> bool:
    """The same where a file system is full; only root can make one."""
    scene = Scene(it.room, it.server, 4096)
    small = scene.room / "small"
    small.mkdir()
    mount = ["mount", "-t", "tmpfs", "-o", "size=512k", "tmpfs", small]
    if subprocess.run(mount, stderr=subprocess.DEVNULL, check=False).returncode:
        return True
    try:
        scene.store = small / "store.db"
        ended = until_it_ends(scene)
        # It is looked at where there is room, with the log that lies beside it.
        shutil.copytree(small, scene.room / "copy")
    finally:
        subprocess.run(["umount", small], check=True)
    scene.store = scene.room / "copy/store.db"
    right = ended.how == (3, ["store: Store"]) and scene.holds(ended)
    return right and bool(ended.dones())


def until_it_ends(scene: Scene) -> Ended:
    """Commits one after another, each once the one before is answered, until the server ends."""
    with subprocess.Popen(scene.words(), **PIPES) as process:
        out, number, given = b"", 1, [scene.begins(), *scene.commits(1, 1)]
        with contextlib.suppress(BrokenPipeError):
            process.stdin.write(b"".join(given))
            process.stdin.flush()
            while got := process.stdout.read1():
                out += got
                if len(Ended(0, *cut(out), []).dones()) == CLIENTS * number:
                    number += 1
                    process.stdin.write(b"".join(scene.commits(number, number)))
                    process.stdin.flush()
        out += process.stdout.read()
        said = process.stderr.read()
        with contextlib.suppress(BrokenPipeError):
            process.stdin.close()
    return scene.ended(process.returncode, out, said)


def closed_outputs(it: Scene) -> bool:
    """An output that is closed at once or amid what is said, and one that is full."""
    right = []
    for taken in (0, 1, 500, 5000):
        scene = Scene(it.room, it.server)
        (scene.room / "given").write_bytes(scene.given(1000))
        given, (reader, writer) = (scene.room / "given").open("rb"), os.pipe()
        with given, subprocess.Popen(scene.words(), stdin=given, stdout=writer,
                                     stderr=subprocess.PIPE) as process:
            os.close(writer)
            out = read_some(reader, taken)
            os.close(reader)
            said = process.stderr.read()
        ended = scene.ended(process.returncode, out, said)
        right.append(ended.how == (5, []) and scene.holds(ended))
    scene = Scene(it.room, it.server)
    with open("/dev/full", "wb") as full:
        done = subprocess.run(scene.words(), input=scene.given(3), stdout=full,
                              stderr=subprocess.PIPE, check=False)
    right.append((done.returncode, done.stderr) == (5, b"cannot write\n"))
    return all(right)


def reader_goes(it: Scene) -> bool:
    """Who reads its output is gone before a round: one of Commits alone is written, though no Done
    goes out; one with something to answer isn't. A gateway that is killed leaves it so."""
    right = []
    for has_answers, commits in ((False, 6), (True, 3)):
        scene = Scene(it.room, it.server, more="keep_write = 1\n")
        ask = scene.say(ASK_READ, 0, of_read(3, 3)) if has_answers else b""
        with subprocess.Popen(scene.words(), **PIPES) as process:
            os.write(process.stdin.fileno(), scene.given(1))
            frames: list = []
            while sum(kind == DONE for kind, _, _ in frames) < CLIENTS:
                frames += cut(frames_of(process.stdout.fileno()))[0]
            process.stdout.close()
            # Written at once, it is one round; and with a kept permission a Commit needs no ask.
            second = b"".join(scene.commit(client, 2, client + 1) for client in range(CLIENTS))
            os.write(process.stdin.fileno(), ask + second)
            process.stdin.close()
            said = process.stderr.read()
        right.append((process.returncode, said, scene.stored()[0]) == (5, b"", commits))
    return right == [True, True]


def waiting_output(it: Scene) -> bool:
    """An output that doesn't block, and is full for now, is waited for: nothing is lost."""
    (it.room / "given").write_bytes(it.begins() * 1000)
    reader, writer = os.pipe()
    size = fcntl.fcntl(writer, fcntl.F_SETPIPE_SZ, 4096)
    os.set_blocking(writer, False)
    given = (it.room / "given").open("rb")
    with given, subprocess.Popen(it.words(), stdin=given, stdout=writer,
                                 stderr=subprocess.PIPE) as process:
        os.close(writer)
        end = threading.Timer(120, process.kill)
        end.start()
        while process.poll() is None and (waiting(reader) < size or not is_asleep(process.pid)):
            time.sleep(0.01)
        out = read_some(reader, 1 << 30)
        os.close(reader)
        said = process.stderr.read()
        end.cancel()
    wanted = Scene(it.room, it.server).serve((it.room / "given").read_bytes())
    return it.ended(process.returncode, out, said) == wanted and len(out) > size


def waiting(reader: int) -> int:
    """How many bytes are in a pipe."""
    return struct.unpack("i", fcntl.ioctl(reader, termios.FIONREAD, bytes(4)))[0]


def is_asleep(process: int) -> bool:
    """Whether each thread of a process waits for something."""
    stats = [it.read_text() for it in Path(f"/proc/{process}/task").glob("*/stat")]
    return all(it.rpartition(")")[2].split()[0] == "S" for it in stats)


def frames_of(reader: int) -> bytes:
    """The next bytes, up to the end of a frame."""
    found = read_some(reader, HEADER.size)
    return found + read_some(reader, HEADER.unpack(found)[4])


def read_some(reader: int, count: int) -> bytes:
    found = b""
    while len(found) < count and (got := os.read(reader, count - len(found))):
        found += got
    return found


def unreadable_input(it: Scene) -> bool:
    """The input is a folder."""
    folder = os.open(it.room, os.O_RDONLY)
    done = ran(*it.words(), stdin=folder)
    os.close(folder)
    return (done.returncode, done.stdout, done.stderr) == (3, b"", b"input: cannot read\n")


# ---- memory ----


def growth_count(said: list[str]) -> int:
    return int(said[-1])


def refused_growths(it: Scene) -> bool:
    """Growths are refused in turn, the first hundred and some 400 behind them: the server ends by
    it, or goes on. EVERY=1 in the environment refuses each."""
    library = building.library_in_c("refuse", it.room, "-ldl")
    env = {**os.environ, "LD_PRELOAD": str(library), "REFUSED": "0"}
    growths = growth_count(it.serve(it.given(3), env=env).said)
    step = int(os.environ.get("EVERY", 1 + growths // 400))
    ended_how = set()
    for refused in [*range(1, 100), *range(100, growths + 1, step)]:
        scene = Scene(it.room, it.server)
        ended = scene.serve(scene.given(3), env={**env, "REFUSED": str(refused)})
        ended.said.pop()
        ended_how.add(ended.status)
        if ended.how not in MEMORY or not scene.holds(ended, None if ended.status else 3):
            return False
    return 4 in ended_how


def limits_of_memory(it: Scene) -> bool:
    """Less and less memory in all, with large pages: the same."""
    ended_how = set()
    for limit in range(4, 64, 2):
        scene = Scene(it.room, it.server, 65536)
        most = limit << 20
        ended = scene.serve(
            scene.given(20), preexec_fn=lambda: resource.setrlimit(resource.RLIMIT_AS, (most, most))
        )
        if ended.status >= 126 or ended.status < 0:
            continue  # too little to start a process at all
        ended_how.add(ended.status)
        if ended.how not in MEMORY or not scene.holds(ended, None if ended.status else 20):
            return False
    return ended_how == {0, 4}


SCENES = [
    whole_input, closed_file, byte_by_byte, damaged_frames, strangers, no_header, cut_input,
    says_again, kept_writes, wrong_configs, stores_that_refuse, stores_that_are_no_file, full_disk,
    closed_outputs, reader_goes, unreadable_input, refused_growths, limits_of_memory,
]


def tried(tries, room: Path, name: str, server: tuple, more: tuple = ()) -> None:
    """Plays each scene, and these more, at servers of its own, that these words start."""
    room.mkdir()
    for scene in (*SCENES, *more):
        tries.scene(name, scene, Scene(room, server))
