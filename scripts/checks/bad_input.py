"""Bad input at the gateway, for `scripts/check serve`: raw connections beside one that works."""
from __future__ import annotations

import os
import random
import signal
import socket
import stat
import struct
import time
from pathlib import Path
from typing import Callable

from checks.frames import (
    ASK_READ, ASK_WRITE, CALLBACK, COMMIT, GRANTED, HEADER, HELLO, MAY_WRITE, WELCOME, frame,
    of_commit, of_page, of_read,
)
from checks.trying import ran, sanitizer_fault
from serving import LONG, Gateway, wait_for

PATIENCE, SILENCE = 1, 3


class Peer:
    """A raw connection."""

    def __init__(
        self, gateway: Gateway, client: int | None = None, source: str | None = None
    ) -> None:
        """A connection to the socket, or to the port from an address of this machine."""
        if source is None:
            self.socket = socket.socket(socket.AF_UNIX)
            self.socket.connect(str(gateway.socket))
        else:
            to = ("127.0.0.1", gateway.port)
            self.socket = socket.create_connection(to, 20, source_address=(source, 0))
        self.socket.settimeout(LONG)
        self.client = self.incarnation = 0
        if client is not None:
            answer = self.greeted(token_of(gateway, client))
            self.client, self.incarnation = struct.unpack(">HQ", answer[2:12])

    def greeting(self, gateway: Gateway, client: int, store: bytes = b"main") -> bytes:
        return b"rughvadi" + bytes([1, len(store)]) + token_of(gateway, client) + store

    def greeted(self, token: bytes, store: bytes = b"main") -> bytes:
        self.socket.sendall(b"rughvadi" + bytes([1, len(store)]) + token + store)
        return self.exactly(40)

    def says(self, some: bytes) -> int:
        """How many bytes went; 0 where the connection is closed."""
        try:
            return self.socket.send(some)
        except OSError:
            return 0

    def exactly(self, count: int) -> bytes:
        found = b""
        while len(found) < count:
            got = self.socket.recv(count - len(found))
            if not got:
                raise EOFError(found)
            found += got
        return found

    def say(self, kind: int, body: bytes = b"", **other) -> None:
        numbers = {"client": self.client, "incarnation": self.incarnation, **other}
        self.socket.sendall(frame(kind, body=body, **numbers))

    def hear(self) -> tuple[int, bytes]:
        """The kind and the body of the next frame."""
        head = HEADER.unpack(self.exactly(HEADER.size))
        return head[1], self.exactly(head[4])

    def welcome(self) -> Peer:
        self.say(HELLO)
        while self.hear()[0] != WELCOME:
            pass
        return self

    def is_closed(self, seconds: float = LONG) -> bool:
        """Whether the gateway closes it, whatever comes before."""
        self.socket.settimeout(seconds)
        try:
            while self.socket.recv(1 << 16):
                pass
        except socket.timeout:
            return False
        except OSError:
            pass
        return True

    def __enter__(self) -> Peer:
        return self

    def __exit__(self, *_) -> None:
        self.socket.close()


def token_of(gateway: Gateway, client: int) -> bytes:
    lines = [line.split() for line in gateway.tokens.read_text().splitlines()]
    return next(bytes.fromhex(token) for number, token in lines if int(number) == client)


def wrote(gateway: Gateway, client: int, page: int) -> bool:
    """Whether a client gets to write a page that others may hold: it asks until it may."""
    with Peer(gateway, client) as peer:
        peer.welcome()
        peer.say(ASK_READ, of_read(1, page))
        kind, body = peer.hear()
        grant = body[4:12]
        peer.say(ASK_WRITE, of_read(1, page) + grant)
        return kind == GRANTED and peer.hear()[0] == MAY_WRITE


# ---- before it is greeted ----


def no_greeting(gateway: Gateway) -> bool:
    with Peer(gateway) as silent, Peer(gateway) as half, Peer(gateway) as other:
        half.socket.sendall(b"rughvadi\x01\x04")
        other.socket.sendall(b"GET / HTTP/1.1\r\n\r\n")
        closed = other.is_closed() and silent.is_closed() and half.is_closed()
    log = gateway.log()
    return closed and "no greeting" in log and "it doesn't greet" in log


def wrong_tokens(gateway: Gateway) -> bool:
    answers = []
    right = token_of(gateway, 1)
    near = right[:-1] + bytes([right[-1] ^ 1])
    for token, store in ((bytes(32), b"main"), (near, b"main"), (right, b"other")):
        with Peer(gateway) as peer:
            answers.append((peer.greeted(token, store)[:2], peer.is_closed()))
    with Peer(gateway) as peer:
        answers.append((peer.greeted(token_of(gateway, 20))[:2], peer.is_closed()))
    return answers == [(bytes([1, number]), True) for number in (2, 2, 3, 4)]


def many_greet(gateway: Gateway) -> bool:
    peers = [Peer(gateway) for _ in range(300)]
    closed = [peer.is_closed() for peer in peers]
    return all(closed) and wrote(gateway, 2, 3)


# ---- frames ----


def long_header(peer: Peer) -> bytes:
    return HEADER.pack(2, COMMIT, peer.client, peer.incarnation, (1 << 32) - 1)


def wrong_frames(gateway: Gateway) -> bool:
    commit = of_commit(1, *65 * [of_page(0, 1, bytes(4096))])
    wrong: list[Callable[[Peer], None]] = [
        lambda peer: peer.say(HELLO, client=peer.client + 1),
        lambda peer: peer.say(HELLO, incarnation=peer.incarnation + 1),
        lambda peer: peer.say(HELLO, b"x"),
        lambda peer: peer.say(WELCOME),
        lambda peer: peer.say(0),
        lambda peer: peer.say(200),
        lambda peer: peer.say(HELLO, version=3),
        lambda peer: peer.say(8, bytes(20), version=1),
        lambda peer: peer.say(COMMIT, commit),
        lambda peer: peer.socket.sendall(long_header(peer)),
        lambda peer: peer.socket.sendall(os.urandom(1 << 16)),
    ]
    closed = []
    for each in wrong:
        with Peer(gateway, 1) as peer:
            peer.welcome()
            try:
                each(peer)
            except OSError:
                pass
            closed.append(peer.is_closed())
    return all(closed)


def cut_frames(gateway: Gateway) -> bool:
    """A frame byte by byte is a frame; half of one, and then silence, is the end."""
    with Peer(gateway, 1) as peer:
        for byte in frame(HELLO, peer.client, peer.incarnation):
            peer.socket.sendall(bytes([byte]))
        if peer.hear()[0] != WELCOME:
            return False
        peer.say(ASK_READ, of_read(1, 5))
        peer.hear()
        peer.socket.sendall(frame(ASK_READ, peer.client, peer.incarnation, of_read(1, 6))[:20])
        # What it held goes to another once it was left.
        return wrote(gateway, 2, 5) and peer.is_closed()


def flood(gateway: Gateway) -> bool:
    """Frames as fast as they go, and what is answered is read by nobody."""
    with Peer(gateway, 1) as peer:
        peer.welcome()
        frames = 1000 * frame(HELLO, peer.client, peer.incarnation)
        try:
            peer.socket.settimeout(10)
            for _ in range(200):
                peer.socket.sendall(frames)
        except OSError:
            pass
        return wrote(gateway, 2, 7) and gateway.size() < 500_000


def never_reads(gateway: Gateway) -> bool:
    with Peer(gateway, 1) as peer:
        peer.welcome()
        peer.socket.setsockopt(socket.SOL_SOCKET, socket.SO_RCVBUF, 4096)
        ask = frame(ASK_READ, peer.client, peer.incarnation, of_read(1, 9))
        try:
            for _ in range(2000):
                peer.socket.sendall(ask)
        except OSError:
            pass
        # Nobody asks for what it holds before: so it isn't closed for want of an answer.
        slow = wait_for(lambda: "reads too slowly" in gateway.log(), 60)
        return slow and wrote(gateway, 2, 9)


def never_answers(gateway: Gateway) -> bool:
    """One that reads a page, and says nothing as it is called back."""
    with Peer(gateway, 1) as peer:
        peer.welcome()
        peer.say(ASK_READ, of_read(1, 11))
        peer.hear()
        begun = time.monotonic()
        right = wrote(gateway, 2, 11)
        return right and peer.is_closed() and time.monotonic() - begun >= SILENCE - 1


def comes_anew(gateway: Gateway) -> bool:
    """Who connects with a token that is connected takes its place."""
    with Peer(gateway, 1) as first:
        first.welcome()
        with Peer(gateway, 1) as second:
            second.welcome()
            return first.is_closed() and second.incarnation > first.incarnation


def idle_stays(gateway: Gateway) -> bool:
    """One that has nothing to answer may be silent."""
    with Peer(gateway, 1) as peer:
        peer.welcome()
        return not peer.is_closed(2 * SILENCE) and peer.welcome() is peer


# ---- its server, and its end ----


def drawn_peer(gateway: Gateway, drawn: random.Random) -> None:
    """A connection that says drawn frames, some of them wrong, and goes without a word."""
    with Peer(gateway, drawn.randrange(8)) as peer:
        for _ in range(drawn.randrange(60)):
            kind = drawn.choice([HELLO, ASK_READ, drawn.randrange(9), drawn.randrange(256)])
            body = {ASK_READ: of_read(1, drawn.randrange(64))}.get(kind, b"")
            said = frame(kind, peer.client, peer.incarnation, body)
            if drawn.random() < 0.02:
                said = drawn.randbytes(len(said))
            peer.socket.sendall(said * drawn.choice([1, 1, 30]))


def drawn_input(gateway: Gateway) -> bool:
    drawn = random.Random(1)
    for _ in range(400):
        try:
            with Peer(gateway) as peer:
                # What is answered to this finds nobody.
                peer.socket.sendall(drawn.randbytes(drawn.randrange(1, 50)))
            drawn_peer(gateway, drawn)
        except (OSError, EOFError):
            pass
    return wrote(gateway, 2, 13)


def sent_by(peer: Peer, seconds: float) -> int:
    """How many bytes of frames a connection takes, of 160 MB, until it takes none for so long."""
    frames, sent = 1000 * frame(HELLO, peer.client, peer.incarnation), 0
    try:
        peer.socket.settimeout(seconds)
        for _ in range(10_000):
            sent += peer.socket.send(frames)
    except OSError:
        pass
    return sent


def server_halts(gateway: Gateway) -> bool:
    """While the server takes nothing clients aren't read, not those either who come then, and none
    is taken for silent."""
    with Peer(gateway, 1) as peer:
        peer.welcome()
        server = gateway.servers()[0]
        os.kill(server, signal.SIGSTOP)
        try:
            sent = sent_by(peer, 2 * SILENCE)
            with Peer(gateway, 3) as later:
                sent += sent_by(later, 2)
        finally:
            os.kill(server, signal.SIGCONT)
        return sent < 1 << 25 and gateway.size() < 500_000 and wrote(gateway, 2, 2)


def by_tcp(gateway: Gateway) -> bool:
    """A port of this machine serves as a socket does; at the machine's other addresses nobody
    listens."""
    with socket.socket() as elsewhere:
        if elsewhere.connect_ex(("127.0.0.2", gateway.port)) == 0:
            return False
    with Peer(gateway, 3, "127.0.0.1") as peer:
        return peer.welcome().client == 3


def server_dies(gateway: Gateway) -> bool:
    with Peer(gateway, 1) as peer:
        peer.welcome()
        gateway.kill_servers()
        if not peer.is_closed():
            return False
        last = peer.incarnation
    return wait_for(lambda: comes(gateway, last), 60) and wrote(gateway, 2, 1)


def slow_reader_goes(gateway: Gateway) -> bool:
    """Once another server is there, no connection is left of the former, whatever waits for it."""
    with Peer(gateway, 1) as peer:
        last = peer.welcome().incarnation
        # 248,000 bytes: more than a socket takes, and fewer than may wait for a client.
        for page in range(60):
            peer.say(ASK_READ, of_read(1, page))
        with Peer(gateway, 2) as other:
            other.welcome()
        gateway.kill_servers()
        if not wait_for(lambda: comes(gateway, last, 3), 60):
            return False
        try:
            peer.socket.send(b"x")
        except OSError:
            return True
    return False


def gateway_dies(gateway: Gateway) -> bool:
    """Its server ends by itself; a new gateway serves the store once it has."""
    with Peer(gateway, 1) as peer:
        last = peer.welcome().incarnation
        gateway.stop(signal.SIGKILL)
        gateway.start()
        if not peer.is_closed():
            return False
    return wait_for(lambda: comes(gateway, last), 60)


def says_again(gateway: Gateway) -> bool:
    """What the server wants back is said again, while nobody else says anything."""
    with Peer(gateway, 1) as peer, Peer(gateway, 2) as other:
        for each in (peer, other):
            each.welcome().say(ASK_READ, of_read(1, 3))
            body = each.hear()[1]
        other.say(ASK_WRITE, of_read(1, 3) + body[4:12])
        return [peer.hear()[0] for _ in range(3)] == 3 * [CALLBACK]


def comes(gateway: Gateway, last: int, client: int = 1) -> bool:
    try:
        with Peer(gateway, client) as peer:
            return peer.welcome().incarnation > last
    except (EOFError, OSError):
        return False


def ends_in_order(gateway: Gateway) -> bool:
    with Peer(gateway, 1) as peer, Peer(gateway) as other:
        peer.welcome()
        is_private = stat.S_IMODE(gateway.socket.stat().st_mode) == 0o600
        status = gateway.stop()
        ended = status == 0 and not gateway.socket.exists()
        return is_private and ended and peer.is_closed() and other.is_closed()


def refused(gateway: Gateway, *words: object) -> tuple[int, str]:
    """How a gateway ends that is started with other words."""
    store = [gateway.room / "config", gateway.database()]
    command = (gateway.program, *words, *store, "--", gateway.play, "serve")
    done = ran(*command, text=True, timeout=120)
    return done.returncode, done.stderr


def wrong_files(gateway: Gateway) -> bool:
    """Files and words that it doesn't begin with, and a socket that another listens on."""
    right, socket_words = gateway.tokens.read_text(), ["--unix", gateway.room / "other"]
    same = f"0 {32 * 'ab'}\n1 {32 * 'AB'}\n"
    files = {
        "wide": (right, 0o644), "short": ("0 abcd\n", 0o600), "twice": (right + right, 0o600),
        "high": (right.replace("0 ", "32 ", 1), 0o600), "none": (None, 0), "same": (same, 0o600),
    }
    ended = []
    for name, (text, mode) in files.items():
        path = Path(gateway.room / f"tokens_{name}")
        if text is not None:
            path.write_text(text)
            path.chmod(mode)
        ended.append(refused(gateway, "--tokens", path, *socket_words))
    ended.append(refused(gateway, "--tokens", gateway.tokens))
    for port in ("0", "70000", "x"):
        ended.append(refused(gateway, "--tokens", gateway.tokens, "--tcp", port))
    for place in ("0", "70000", ""):
        words = ["--tokens", gateway.tokens, *socket_words, "--metrics", place]
        ended.append(refused(gateway, *words))
    right_ones = all(status == 2 and said for status, said in ended)
    # The last is a file of another kind, which stays.
    places = [gateway.socket, gateway.room / ("long" * 40), gateway.room / "no" / "folder"]
    for path in (*places, gateway.tokens):
        status, said = refused(gateway, "--tokens", gateway.tokens, "--unix", path)
        right_ones = right_ones and status == 1 and "cannot listen" in said
    return right_ones and gateway.tokens.read_text() == right


SCENES = [
    wrong_files, no_greeting, wrong_tokens, many_greet, wrong_frames, cut_frames, flood,
    never_reads, never_answers, comes_anew, idle_stays, drawn_input, server_halts, by_tcp,
    server_dies, slow_reader_goes, gateway_dies, ends_in_order,
]


def tried(tries, it) -> None:
    """Plays each scene at one gateway, in whose log no sanitizer may have a line."""
    words = ["--patience", str(PATIENCE), "--silence", str(SILENCE), "--buffer", "262144"]
    gateway = it.served("bad_input", *words, limits=(8, 64, 4096, 32, 1), has_port=True)
    patient = it.served("again", "--silence", "0", limits=(8, 64, 4096, 32, 0))
    for scene in [*SCENES, says_again]:
        at = patient if scene is says_again else gateway
        tries.scene("gateway", scene, at, log=at.log)
    gateway.stop()
    patient.stop()
    found = sanitizer_fault(gateway.log() + patient.log())
    tries.told("gateway: the sanitizers", not found, found or "nothing found")
