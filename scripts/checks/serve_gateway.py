"""Strangers and faults at the gateway, for `scripts/check serve`: each scene has gateways of its
own. Where no store is needed that keeps its promise, a program stands in for its server."""
from __future__ import annotations

import fcntl
import os
import select
import signal
import socket
import stat
import struct
import subprocess
import sys
import tempfile
import termios
import time
from dataclasses import dataclass, field
from pathlib import Path

import building
from checks.bad_input import Peer, refused, token_of
from checks.frames import (
    ABORT_NOW, ASK_READ, ASK_WRITE, CALLBACK, COMMIT, DOWNGRADE, DOWNGRADED, DROP, GIVE_BACK,
    GRANTED, HEADER, HELLO, IN_USE, MAY_WRITE, WELCOME, frame, of_read, of_write,
)
from checks.serve_input import is_asleep
from checks.trying import ran
from serving import Gateway, wait_for

LIMITS = (8, 64, 256, 32, 1)
STRANGERS = 200
ASKS = 8000  # whose answers fill more than a socket has room for


@dataclass
class Scene:
    """Where a scene begins its gateways, which end with it."""

    room: Path
    it: object
    begun: list[Gateway] = field(default_factory=list)

    def stand_in(self, *words: object) -> tuple[object, ...]:
        return (sys.executable, building.PROGRAMS / "python/stand_in.py", *words)

    def served(self, *words: str, **more) -> Gateway:
        """The same, once its store is served."""
        gateway = self.gateway(*words, **more)
        wait_for(lambda: comes(gateway), 60)
        return gateway

    def gateway(self, *words: str, command: tuple[object, ...] = (), **more) -> Gateway:
        """A gateway with these options; over the stand-in, if no command is said."""
        room = Path(tempfile.mkdtemp(dir=self.room))
        more = {"limits": LIMITS, **more}
        gateway = Gateway(room, self.it.gateway, self.it.play, words=words,
                          command=command or self.stand_in(), **more)
        self.begun.append(gateway)
        gateway.start()
        return gateway

    def end(self) -> str:
        """Ends all of them; their logs."""
        for each in self.begun:
            each.stop()
        return "".join(each.log() for each in self.begun)


def is_served(gateway: Gateway, client: int, source: str | None = None) -> bool:
    """Whether a client is welcomed by the server."""
    with Peer(gateway, client, source) as peer:
        return peer.welcome() is peer


# ---- strangers ----


def sources(count: int) -> list[str]:
    """So many addresses of this machine."""
    return [f"127.0.0.{2 + at}" for at in range(count)]


def with_strangers(gateway: Gateway, addresses: list[str | None], client: int) -> bool:
    """Connections that never greet come from these addresses: the next clients are welcomed, and
    who had been goes on."""
    strangers: list[Peer] = []
    with Peer(gateway, client, addresses[0]) as before:
        before.welcome()
        try:
            for at in range(STRANGERS):
                strangers.append(Peer(gateway, None, addresses[at % len(addresses)]))
            by_socket = is_served(gateway, client + 1)
            by_port = is_served(gateway, client + 2, addresses[0]) and before.welcome() is before
        finally:
            for peer in strangers:
                peer.socket.close()
    return by_socket and by_port


def strangers_at_the_port(scene: Scene) -> bool:
    gateway = scene.served("--patience", "60", "--greeting", "60", has_port=True)
    one = with_strangers(gateway, ["127.0.0.1"], 0)
    return one and with_strangers(gateway, sources(32), 4)


def strangers_at_the_socket(scene: Scene) -> bool:
    gateway = scene.served("--patience", "60", "--greeting", "60")
    return with_strangers(gateway, [None], 0)


def places_for_strangers(scene: Scene) -> bool:
    """So many may be about to greet, of one address and in all. With one more the first goes."""
    right = []
    for most, addresses in ((32, sources(1)), (64, sources(4))):
        gateway = scene.served("--patience", "60", "--greeting", "60", has_port=True)
        strangers = [Peer(gateway, None, addresses[at % len(addresses)]) for at in range(most + 1)]
        right.append(strangers[0].is_closed() and not strangers[1].is_closed(1))
        for peer in strangers:
            peer.socket.close()
    return right == [True, True]


def names_of_others(scene: Scene) -> bool:
    """A number that no client of the store has is answered so, and a name that no store has."""
    gateway = scene.served()
    answers = [answer_to(gateway, client)[0] for client in (0, LIMITS[0] - 1, LIMITS[0], 31)]
    for name in (b"mai", b"mains", b"Main", b""):
        with Peer(gateway) as peer:
            answers.append(peer.greeted(token_of(gateway, 0), name)[1])
    return answers == [0, 0, 4, 4, 3, 3, 3, 3]


def with_full_output(scene: Scene, patience: int) -> tuple[Gateway, Peer, int]:
    """A client that asks for pages and reads none, and how many bytes were said to it."""
    gateway = scene.served("--patience", str(patience))
    peer = Peer(gateway, 1)
    ask = frame(ASK_READ, peer.welcome().client, peer.incarnation, of_read(1, 3))
    peer.socket.sendall(ask * ASKS)
    wait_for(lambda: is_quiet(gateway, peer), 60)
    return gateway, peer, ASKS * (HEADER.size + 24 + LIMITS[2])


def is_quiet(gateway: Gateway, peer: Peer) -> bool:
    """Whether all that the client said was read, and gateway and server wait for more."""
    unread = fcntl.ioctl(peer.socket, termios.TIOCOUTQ, bytes(4))
    return unread == bytes(4) and all(map(is_asleep, 2 * [gateway.process.pid, *gateway.servers()]))


def stops_beside_a_full_output(scene: Scene) -> bool:
    """A gateway that stops waits for a client that reads nothing, and not for ever."""
    gateway, peer, _ = with_full_output(scene, 2)
    begun = time.monotonic()
    status = gateway.stop()
    peer.socket.close()
    return status == 0 and time.monotonic() - begun < 20


def hears_all_as_it_stops(scene: Scene) -> bool:
    """A client that reads slowly gets all that was said to it, also once the server has ended."""
    gateway, peer, size = with_full_output(scene, 60)
    gateway.process.send_signal(signal.SIGTERM)
    wait_for(lambda: not gateway.servers(), 60)
    time.sleep(0.5)
    heard = 0
    while some := peer.socket.recv(1 << 16):
        heard += len(some)
    peer.socket.close()
    return heard == size and gateway.process.wait(60) == 0


def comes(gateway: Gateway, client: int = 7) -> bool:
    """Whether the store is served."""
    try:
        return is_served(gateway, client)
    except (EOFError, OSError):
        return False


def greetings_that_are_there(scene: Scene) -> bool:
    """Who has sent its greeting is welcomed, however many strangers come behind it before the
    gateway looks."""
    gateway = scene.served("--patience", "60", "--greeting", "60", has_port=True)
    gateway.process.send_signal(signal.SIGSTOP)
    peers = []
    try:
        first = Peer(gateway, None, "127.0.0.1")
        first.socket.sendall(first.greeting(gateway, 1))
        peers = [Peer(gateway, None, source) for source in 4 * sources(50)]
    finally:
        gateway.process.send_signal(signal.SIGCONT)
    answer = first.exactly(40)
    for peer in [first, *peers]:
        peer.socket.close()
    return answer[:2] == b"\x01\x00"


def slow_greeting(scene: Scene) -> bool:
    """A greeting has a time of its own, which no byte of it renews."""
    gateway = scene.gateway("--greeting", "1", "--patience", "600")
    with Peer(gateway) as silent, Peer(gateway) as slow:
        greeting, said = slow.greeting(gateway, 1), 0
        while said < len(greeting) and not slow.is_closed(0.4):
            said += slow.says(greeting[said : said + 1])
        return silent.is_closed() and said < len(greeting)


def told_of_strangers(scene: Scene) -> bool:
    """Lines name the address; a flood of bad greetings has a line a second, with a count."""
    gateway = scene.served(has_port=True)
    for _ in range(400):
        with Peer(gateway, None, "127.0.0.9") as peer:
            peer.greeted(bytes(32))
    wait_for(lambda: " more connections refused; " in gateway.log(), 20)
    lines = [line for line in gateway.log().splitlines() if "127.0.0.9:" in line]
    counts = [line.split(" more ")[0].split()[-1] for line in lines if " more " in line]
    return 0 < len(lines) < 100 and sum(map(int, counts)) > 0 and "no such token" in lines[0]


# ---- silence ----

SILENCE = 2


def called_back(peer: Peer, page: int) -> bytes:
    """It reads a page that is wanted back at once; the page and the grant, as bytes."""
    peer.say(ASK_READ, of_read(1, page))
    kinds = [peer.hear() for _ in range(2)]
    assert [kind for kind, _ in kinds] == [GRANTED, CALLBACK]
    return kinds[1][1]


def goes_on_saying(peer: Peer, said: bytes, seconds: float) -> bool:
    """It says that again and again: whether it is closed before the time is over."""
    end = time.monotonic() + seconds
    while time.monotonic() < end:
        if peer.is_closed(0.2) or not peer.says(said):
            return True
    return False


def bytes_are_no_answer(scene: Scene) -> bool:
    """One that owes an answer is closed, whatever else it says: also answers of another page or
    grant."""
    gateway = scene.served("--silence", str(SILENCE), command=scene.stand_in("--recall"))
    closed = []
    for place in range(4):
        with Peer(gateway, place) as peer:
            named = called_back(peer.welcome(), 3)
            other = named[:11] + bytes([named[11] ^ 1])
            said = [
                frame(HELLO, peer.client, peer.incarnation),
                frame(GIVE_BACK, peer.client, peer.incarnation, b"\0\0\0\4" + named[4:]),
                frame(GIVE_BACK, peer.client, peer.incarnation, other),
                frame(ASK_READ, peer.client, peer.incarnation, of_read(1, 5)),
            ][place]
            closed.append(goes_on_saying(peer, said, 20))
    return closed == 4 * [True] and gateway.log().count("it doesn't answer") == 4


def answers_count(scene: Scene) -> bool:
    """One that gave its answers may say nothing more: that a page is in use, that it goes, that a
    transaction is dropped; and one that goes on with its next transaction."""
    gateway = scene.served("--silence", str(SILENCE), command=scene.stand_in("--recall"))
    peers = [Peer(gateway, client) for client in range(4)]
    try:
        for peer in peers:
            named = called_back(peer.welcome(), 3)
            peer.say(*[(GIVE_BACK, named), (IN_USE, struct.pack(">Q", 1) + named)][peer.client % 2])
            if peer.client >= 2:
                peer.say(ASK_WRITE, struct.pack(">Q", 1) + named)
                if peer.hear()[0] != ABORT_NOW:
                    return False
                peer.say(*[(DROP, struct.pack(">Q", 1)), (ASK_WRITE, struct.pack(">Q", 2) + named)]
                         [peer.client - 2])
        peers[3].hear()
        peers[3].say(DROP, struct.pack(">Q", 2))
        stay = [not peers[0].is_closed(3 * SILENCE), *(not it.is_closed(0.1) for it in peers[1:])]
        return all(stay)
    finally:
        for peer in peers:
            peer.socket.close()


def aborts_are_owed(scene: Scene) -> bool:
    """One that is to abort and only says that it is alive is closed."""
    gateway = scene.served("--silence", str(SILENCE), command=scene.stand_in("--recall"))
    with Peer(gateway, 1) as peer:
        peer.welcome().say(ASK_WRITE, of_read(1, 3) + bytes(7) + b"\1")
        right = peer.hear()[0] == ABORT_NOW
        return right and goes_on_saying(peer, frame(HELLO, peer.client, peer.incarnation), 20)


def drops_that_cross(scene: Scene) -> bool:
    """The abort of a transaction that was dropped before it came wants no answer."""
    gateway = scene.served("--silence", str(SILENCE), command=scene.stand_in("--recall"))
    with Peer(gateway, 1) as peer:
        ask = of_read(1, 3) + struct.pack(">Q", 1)
        both = (ASK_WRITE, ask), (DROP, struct.pack(">Q", 1))
        client, incarnation = peer.welcome().client, peer.incarnation
        peer.says(b"".join(frame(kind, client, incarnation, body) for kind, body in both))
        return peer.hear()[0] == ABORT_NOW and not peer.is_closed(3 * SILENCE)


def downgrades_are_owed(scene: Scene) -> bool:
    """One that is to give up its permission to write, and only says that it is alive, is closed;
    one that did so in time isn't."""
    gateway = scene.served("--silence", str(SILENCE), command=scene.stand_in("--downgrade"))
    with Peer(gateway, 1) as peer, Peer(gateway, 2) as other:
        end = 0.0
        for each in (peer.welcome(), other.welcome()):
            end = time.monotonic() + SILENCE
            each.say(ASK_WRITE, of_write(1, 3, 7))
            if [each.hear()[0] for _ in range(2)] != [MAY_WRITE, DOWNGRADE]:
                return False
        other.say(DOWNGRADED, struct.pack(">IQQ", 3, 7, 0))
        is_late = time.monotonic() >= end
        is_gone = goes_on_saying(peer, frame(HELLO, peer.client, peer.incarnation), 20)
        return is_gone and (is_late or not other.is_closed(SILENCE))


def unheard_answers(scene: Scene) -> bool:
    """While the server takes nothing clients aren't heard, and no answer of theirs is late."""
    came = (answers_unheard(scene, silence) for silence in (5, 20, 60))
    return next(filter(None, came), "") == "ok"


def answers_unheard(scene: Scene, silence: int) -> str:
    """So at a gateway that waits so long for answers: `ok`, `closed`, or nothing where the time was
    over before the server's input was full."""
    words = ("--silence", str(silence), "--server-silence", "0")
    gateway = scene.served(*words, command=scene.stand_in("--recall"))
    (server,) = gateway.servers()
    with Peer(gateway, 1) as peer, Peer(gateway, 2) as other:
        said = frame(HELLO, other.client, other.incarnation)
        end, named = time.monotonic() + silence, called_back(peer.welcome(), 3)
        os.kill(server, signal.SIGSTOP)
        other.socket.setblocking(False)
        while select.select([], [other.socket], [], 1)[1]:
            other.says(said * 4096)
        peer.say(GIVE_BACK, named)
        is_late = time.monotonic() >= end
        is_gone = not is_late and peer.is_closed(silence + 3)
        os.kill(server, signal.SIGCONT)
        if is_late:
            return ""
        return "closed" if is_gone or peer.is_closed(silence + 3) else "ok"


def one_large_frame(scene: Scene) -> bool:
    """A frame that is longer than what may wait goes all the same, where nothing waits."""
    gateway = scene.served("--buffer", "100")
    with Peer(gateway, 1) as peer:
        peer.welcome().say(ASK_READ, of_read(1, 3))
        return peer.hear()[0] == GRANTED


def former_incarnations(scene: Scene) -> bool:
    """What a server says to a client's former incarnation doesn't come to the present one."""
    gateway = scene.served(command=scene.stand_in("--stale"))
    with Peer(gateway, 1) as peer:
        peer.say(HELLO)
        heard = HEADER.unpack(peer.exactly(HEADER.size))
        peer.say(ASK_READ, of_read(1, 3))
        return heard[1:4] == (WELCOME, 1, peer.incarnation) and peer.hear()[0] == GRANTED


def slow_frame(scene: Scene) -> bool:
    """A frame has its time from its first byte: no later one renews it."""
    gateway = scene.served("--patience", "2")
    with Peer(gateway, 1) as peer:
        said = frame(ASK_READ, peer.welcome().client, peer.incarnation, of_read(1, 3))
        sent = 0
        while sent < len(said) and not peer.is_closed(0.4):
            sent += peer.says(said[sent : sent + 1])
        return sent < len(said) and "its frame isn't whole in time" in gateway.log()


# ---- servers that announce their lives, and silent ones ----


def answer_to(gateway: Gateway, client: int) -> tuple[int, int]:
    """What a greeting is answered, and the incarnation."""
    with Peer(gateway) as peer:
        answer = peer.greeted(token_of(gateway, client))
        return answer[1], int.from_bytes(answer[4:12], "big")


def announced_lives(scene: Scene) -> bool:
    """Nobody is served before a server has announced its life; then each incarnation is above its
    floor, the clock and the last one."""
    answers = []
    for floor in (1 << 61, 5):
        wait = scene.room / f"wait_{floor}"
        command = scene.stand_in("--floor", floor, "--wait", wait)
        gateway = scene.gateway("--announced", command=command)
        before = [answer_to(gateway, 1) for _ in range(3)]
        clock = time.time_ns() // 1000
        wait.touch()
        wait_for(lambda: answer_to(gateway, 2)[0] == 0, 60)
        served = [answer_to(gateway, 1) for _ in range(3)]
        rise = [number for _, number in served]
        answers.append(before == 3 * [(5, 0)] and {what for what, _ in served} == {0}
                       and rise == sorted(set(rise)) and rise[0] > max(floor, clock)
                       and (floor < clock or rise[0] < floor + 10))
    return all(answers)


def unannounced_servers(scene: Scene) -> bool:
    """A server that says other things first isn't served, nor one that announces a life that has
    no incarnation."""
    first = scene.gateway("--announced")
    second = scene.gateway("--announced", command=scene.stand_in("--floor", (1 << 62) - 1))
    ends = wait_for(lambda: "puts out no frames" in second.log(), 60)
    return ends and [answer_to(each, 1)[0] for each in (first, second)] == [5, 5]


def announced_later(scene: Scene) -> bool:
    """Where nobody waits for it a server may announce its life all the same: who came before with
    an incarnation of a former one is disconnected, and the next one's is above the floor."""
    floor, wait = 1 << 61, scene.room / "later"
    gateway = scene.gateway(command=scene.stand_in("--floor", floor, "--wait", wait))
    with Peer(gateway) as peer:
        early = peer.greeted(token_of(gateway, 1))
        wait.touch()
        gone = peer.is_closed(60)
    what, number = answer_to(gateway, 1)
    return early[1] == 0 and gone and (what, floor < number < floor + 10) == (0, True)


def announced_twice(scene: Scene) -> bool:
    """A server that announces another life amid its frames puts out no frames, and is ended."""
    gateway = scene.gateway(command=scene.stand_in("--floor", 5, "--floor", 6))
    return wait_for(lambda: "its server puts out no frames" in gateway.log(), 60)


def rests_between_starts(scene: Scene) -> bool:
    """A server that ends at once is started again, each time after twice as long."""
    starts = scene.room / "starts"
    scene.gateway(command=("sh", "-c", f"date +%s%N >> {starts}"))
    wait_for(lambda: starts.exists() and len(starts.read_text().splitlines()) >= 5, 60)
    times = [int(it) for it in starts.read_text().splitlines()]
    return len(times) >= 5 and times[4] - times[0] >= 3_000_000_000


def ends_as_its_server(scene: Scene) -> bool:
    """A gateway that stops ends with 1 where its server then ends with a fault, else with 0."""
    statuses = []
    for status in (0, 3):
        gateway = scene.gateway(command=("sh", "-c", f"cat > {scene.room}/taken; exit {status}"))
        wait_for(gateway.servers, 60)
        statuses.append(gateway.stop())
    return statuses == [0, 1]


def stops_while_it_waits(scene: Scene) -> bool:
    """A gateway whose server waits for its store ends at once."""
    gateway = scene.gateway("--announced", command=scene.stand_in("--wait", scene.room / "never"))
    begun = time.monotonic()
    gateway.stop()
    return time.monotonic() - begun < 20


def silent_servers(scene: Scene) -> bool:
    """A server that owes an answer and says nothing is ended, whether it owes a Welcome or
    something else; an idle one isn't."""
    mute = scene.room / "mute"
    gateway = scene.served("--server-silence", "2", command=scene.stand_in("--mute", mute))
    first = gateway.servers()
    with Peer(gateway, 1) as peer:
        if peer.welcome().is_closed(8) or gateway.servers() != first:
            return False
        mute.touch()
        peer.say(ASK_READ, of_read(1, 3))
        asked = peer.is_closed(30)
    wait_for(lambda: gateway.servers() not in ([], first), 60)
    second = gateway.servers()
    with Peer(gateway, 2) as peer:
        peer.say(HELLO)
        greeted = peer.is_closed(30)
    mute.unlink()
    served = wait_for(lambda: comes(gateway), 60)
    return asked and greeted and served and gateway.servers() not in (first, second)


def one_server_a_store(scene: Scene) -> bool:
    """A gateway waits for a file that another one serves, and serves it once that one has ended."""
    first = scene.served()
    second = scene.gateway(database_word=str(first.database()))
    told = wait_for(lambda: "another server has it; waiting" in second.log(), 60)
    before = answer_to(second, 1)[0]
    first.stop()
    return told and before == 5 and wait_for(lambda: answer_to(second, 1)[0] == 0, 60)


def databases_elsewhere(scene: Scene) -> bool:
    """A URI or conninfo stands in quotes in a file of stores. No file is locked for it, and none
    with a password is taken, nor said."""
    note, seen = scene.room / "note", []
    for database in ("host=a dbname='b c'", "postgresql://me@a,b:5432/c?x=y"):
        how = {"command": scene.stand_in("--note", note), "database_word": f'"{database}"'}
        gateway, other = scene.gateway(**how), scene.gateway(**how)
        both = all(wait_for(lambda: comes(each), 60) for each in (gateway, other))
        locks = [*gateway.room.glob("*.lock"), *other.room.glob("*.lock")]
        seen.append(both and note.read_text() == database and not locks)
    refused = []
    for database in ("postgresql://me:secret@a/c", "host=a password = secret",
                     "x://a/?PASSWORD=secret", "'postgresql://me@a/c' more", '"postgresql://me@a'):
        quoted = database if database[0] in "'\"" else f"'{database}'"
        (gateway.room / "stores").write_text(f"main {gateway.room}/config {quoted}\n")
        words = [gateway.program, "--unix", gateway.room / "other", "--tokens", gateway.tokens]
        done = ran(*words, "--stores", gateway.room / "stores", text=True, timeout=60)
        refused.append(done.returncode == 2 and done.stderr and "secret" not in done.stderr)
    return all(seen) and all(refused)


# ---- files ----


def owned_files(scene: Scene) -> bool:
    """What a gateway or its server makes is its owner's alone, whoever's umask it was begun with;
    tokens that another owns aren't taken."""
    note = scene.room / "made_by_a_server"
    gateway = scene.served(command=scene.stand_in("--note", note))
    lock = Path(f"{gateway.database()}.lock")
    private = [stat.S_IMODE(path.stat().st_mode) for path in (note, lock, gateway.socket)]
    return private == 3 * [0o600] and (os.geteuid() != 0 or owner_counts(gateway))


def owner_counts(gateway: Gateway) -> bool:
    others = gateway.room / "others"
    others.write_bytes(gateway.tokens.read_bytes())
    others.chmod(0o600)
    os.chown(others, 65534, -1)
    status, said = refused(gateway, "--tokens", others, "--unix", gateway.room / "other")
    return status == 2 and "the gateway's user has to own it" in said


# ---- ends ----


def with_held_output(scene: Scene, *words: str) -> tuple[Gateway, Path]:
    """A gateway whose server was killed while a process of its own holds its output."""
    hold = Path(tempfile.mkdtemp(dir=scene.room)) / "hold"
    hold.touch()
    gateway = scene.served(command=scene.stand_in("--hold", hold, *words))
    gateway.kill_servers()
    wait_for(lambda: "its server ended" in gateway.log(), 60)
    return gateway, hold


def held_outputs(scene: Scene) -> bool:
    """A child that holds a server's output, or says frames on it, keeps neither the gateway from
    ending nor the store from being served again."""
    ends, serves = [], []
    for words in ((), ("--chatter",)):
        gateway, hold = with_held_output(scene, *words)
        try:
            # The server was killed, so that is its status.
            ends.append(gateway.stop() == 0 and "doesn't end" not in gateway.log())
        except subprocess.TimeoutExpired:
            return False
        finally:
            hold.unlink()
        gateway, hold = with_held_output(scene, *words)
        serves.append(wait_for(lambda: comes(gateway), 30))
        hold.unlink()
    return all(ends) and all(serves)


# ---- memory and places ----


def commit_head(peer: Peer, pages: int) -> bytes:
    size = 10 + pages * (16 + LIMITS[2])
    return HEADER.pack(2, COMMIT, peer.client, peer.incarnation, size)


def bounded_commits(scene: Scene) -> bool:
    """A Commit of more pages than a transaction writes is refused by its header; one of as many
    isn't."""
    gateway = scene.served("--patience", "60")
    with Peer(gateway, 1) as right, Peer(gateway, 2) as wrong:
        right.says(commit_head(right.welcome(), LIMITS[3]))
        wrong.says(commit_head(wrong.welcome(), LIMITS[3] + 1))
        closed = wrong.is_closed() and not right.is_closed(0.5)
    return closed and "a frame that is none" in gateway.log()


def files_limit(gateway: Gateway) -> list[str]:
    """How many files may be open, softly and at most."""
    text = Path(f"/proc/{gateway.process.pid}/limits").read_text()
    line = next(it for it in text.splitlines() if it.startswith("Max open files"))
    return line.split()[3:5]


def open_files(scene: Scene) -> bool:
    """As many files may be open as stores and clients need, or it is said that they can't."""
    found = []
    for soft, most in ((64, 4096), (64, 128)):
        limits = (32, *LIMITS[1:])
        gateway = scene.served(stores=("main", "a", "b"), limits=limits, files=(soft, most))
        found.append((int(files_limit(gateway)[0]), "files may be open" in gateway.log()))
    return 3 * 32 + 128 < found[0][0] <= 4096 and not found[0][1] and found[1] == (128, True)


# ---- who listens there ----


def waits_for_a_listener(scene: Scene) -> bool:
    """Whether a gateway waits while another process listens at its socket."""
    gateway = scene.served()
    gateway.stop(signal.SIGKILL)
    gateway.socket.unlink()
    with socket.socket(socket.AF_UNIX) as held:
        held.bind(str(gateway.socket))
        held.listen()
        held.settimeout(60)
        gateway.spawn()
        held.accept()[0].close()  # it has looked who listens
    # The killed gateway's server may have the store for a moment longer.
    is_ready = gateway.process.stdout.readline() == b"ready\n"
    return is_ready and wait_for(lambda: comes(gateway), 60)


def listener_left(scene: Scene) -> bool:
    """Who has the listener of a killed gateway goes soon: the next one waits, and listens. On a
    machine so busy that a second passes before he goes it is tried again."""
    return any(waits_for_a_listener(scene) for _ in range(5))


SCENES = [
    strangers_at_the_port, strangers_at_the_socket, greetings_that_are_there, slow_greeting,
    places_for_strangers, names_of_others, told_of_strangers, bytes_are_no_answer, answers_count,
    aborts_are_owed, drops_that_cross, downgrades_are_owed, unheard_answers, one_large_frame,
    former_incarnations, slow_frame, announced_lives, unannounced_servers, announced_later,
    announced_twice, rests_between_starts, ends_as_its_server, stops_while_it_waits,
    stops_beside_a_full_output, hears_all_as_it_stops, silent_servers, one_server_a_store,
    databases_elsewhere, owned_files, held_outputs, bounded_commits, open_files, listener_left,
]


def tried(tries, it, scenes=None, name: str = "serve_gateway") -> None:
    """Plays each scene with gateways of its own, in whose logs no sanitizer may have a line."""
    room = it.room / name
    room.mkdir()
    for play in scenes or SCENES:
        scene = Scene(room, it)
        tries.scene("gateway", play, scene, log=scene.end)
