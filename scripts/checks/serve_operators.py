"""What operators of a gateway see and do, for `scripts/check serve`: what is counted, lines of the
log, tokens that are read again, and the service manager."""
from __future__ import annotations

import os
import re
import shutil
import signal
import socket
from pathlib import Path

import building
from checks.bad_input import Peer, token_of
from checks.frames import ASK_WRITE, COMMIT, DONE, GIVE_BACK, of_commit, of_read
from checks.serve_gateway import LIMITS, Scene, answer_to, called_back, comes
from checks.trying import ran, said
from serving import Gateway, free_port, wait_for

UNIT = building.TOP / "examples/rughvadi-gateway.service"


# ---- what is counted ----


def scraped(place: str | int, request: str = "GET /metrics HTTP/1.1\r\n\r\n") -> str:
    """What is answered at a port, or a Unix socket."""
    with socket.socket(socket.AF_INET if isinstance(place, int) else socket.AF_UNIX) as one:
        one.settimeout(20)
        one.connect(("127.0.0.1", place) if isinstance(place, int) else str(place))
        one.sendall(request.encode())
        answer = b""
        while got := one.recv(1 << 16):
            answer += got
    return answer.decode()


def numbers_of(text: str) -> dict[str, float]:
    """The series and their numbers."""
    lines = [line for line in text.split("\r\n\r\n", 1)[1].splitlines() if line[:1] != "#"]
    return {line.rsplit(" ", 1)[0]: float(line.rsplit(" ", 1)[1]) for line in lines}


def committed(peer: Peer, transaction: int) -> None:
    """Commits nothing, and waits for the answer."""
    peer.say(COMMIT, of_commit(transaction))
    while peer.hear()[0] != DONE:
        pass


def counted(gateway: Gateway, place: str | int) -> bool:
    """Whether the numbers are those of what a client did."""
    with Peer(gateway, 1) as peer:
        named = called_back(peer.welcome(), 3)
        peer.say(GIVE_BACK, named)
        peer.say(ASK_WRITE, of_read(1, 3) + named[4:])
        peer.hear()
        committed(peer, 2)
        committed(peer, 3)
        while_there = numbers_of(scraped(place))
    wait_for(lambda: not numbers_of(scraped(place))[f"rughvadi_client_connected{label(1)}"], 20)
    with Peer(gateway) as stranger:
        stranger.greeted(bytes(32))
    now = numbers_of(scraped(place))
    wanted = {
        f"asks_total{label(1, 'read')}": 1, f"asks_total{label(1, 'write')}": 1,
        f"grants_total{label(1, 'read')}": 1, f"grants_total{label(1, 'write')}": 0,
        f"callbacks_total{label(1)}": 1, f"aborts_total{label(1)}": 1,
        f"commits_total{label(1)}": 2, f"commit_seconds_count{label(1)}": 2,
        f"received_bytes_total{label(1)}": 16 + 28 + 28 + 36 + 2 * 26,
        f"sent_bytes_total{label(1)}": 16 + 40 + LIMITS[2] + 28 + 24 + 2 * 32,
        'server_up{store="main"}': 1, 'refused_greetings_total{reason="token"}': 1,
        'server_restarts_total{store="main"}': 0, f"client_connected{label(1)}": 0,
    }
    there = while_there[f"rughvadi_client_connected{label(1)}"] == 1
    return there and all(now[f"rughvadi_{name}"] == number for name, number in wanted.items())


def label(client: int, kind: str = "") -> str:
    more = f',kind="{kind}"' if kind else ""
    return f'{{store="main",client="{client}"{more}}}'


def metrics(scene: Scene) -> bool:
    """By a port and by a socket: each number is right, `promtool` finds no fault, others find
    nothing, and those who say nothing keep nobody out."""
    right = []
    for port in (True, False):
        place = free_port() if port else scene.room / "metrics"
        gateway = scene.served("--metrics", str(place), command=scene.stand_in("--recall"))
        silent = [socket.socket(socket.AF_INET if port else socket.AF_UNIX) for _ in range(20)]
        for each in silent:
            each.connect(("127.0.0.1", place) if port else str(place))
        right.append(counted(gateway, place) and "404" in scraped(place, "GET / HTTP/1.1\r\n\r\n"))
        gateway.kill_servers()
        wait_for(lambda: comes(gateway), 60)
        text = scraped(place).split("\r\n\r\n", 1)[1]
        right.append('server_restarts_total{store="main"} 1\n' in text and is_content(text))
        for each in silent:
            each.close()
    return all(right)


def is_content(text: str) -> bool:
    """Whether Debian's `promtool` finds no fault, where it is there."""
    if not shutil.which("promtool"):
        print("metrics: without promtool (Debian's prometheus)")
        return True
    done = ran("promtool", "check", "metrics", input=text, text=True)
    return done.returncode == 0 and not done.stderr


# ---- tokens that are read again ----


def tokens_again(scene: Scene) -> bool:
    """By SIGHUP: whose line went is cut, whose token is new has to show it, others stay; and where
    the file is wrong all stays as it was."""
    gateway = scene.served()
    peers = [Peer(gateway, client).welcome() for client in range(3)]
    lines, old = gateway.tokens.read_text().splitlines(), token_of(gateway, 2)
    lines[1], lines[2] = "", "2 " + 32 * "ab"
    gateway.tokens.write_text("\n".join(lines))
    gateway.process.send_signal(signal.SIGHUP)
    cut = [peers[1].is_closed(), peers[2].is_closed(), not peers[0].is_closed(0.2)]
    with Peer(gateway) as former:
        cut.append(former.greeted(old)[1] == 2)
    gateway.tokens.write_text("wrong\n")
    gateway.process.send_signal(signal.SIGHUP)
    wait_for(lambda: "stay as they were" in gateway.log(), 20)
    with Peer(gateway) as new:
        cut.append(new.greeted(bytes.fromhex(32 * "ab"))[1] == 0)
    cut.append(peers[0].welcome() is peers[0])
    for peer in peers:
        peer.socket.close()
    return all(cut)


# ---- the service manager, and lines ----


def told_manager(scene: Scene) -> bool:
    """It is told of the beginning and of the end, at a path or an abstract name; a server isn't
    given that socket."""
    right = []
    for place in (str(scene.room / "notify"), f"@rughvadi-{os.getpid()}"):
        with socket.socket(socket.AF_UNIX, socket.SOCK_DGRAM) as manager:
            manager.bind(place.replace("@", "\0"))
            manager.settimeout(20)
            gateway = scene.gateway(env={"NOTIFY_SOCKET": place})
            told = [manager.recv(100)]
            wait_for(lambda: comes(gateway), 60)
            served = Path(f"/proc/{gateway.servers()[0]}/environ").read_bytes()
            gateway.stop()
            told.append(manager.recv(100))
        right.append(told == [b"READY=1", b"STOPPING=1"] and b"NOTIFY_SOCKET" not in served)
    return all(right)


def lines_of_the_log(scene: Scene) -> bool:
    """A line has its time and its level; to the journal the level alone, as that reads it."""
    plain = scene.gateway()
    answer_to(plain, 20)
    pattern = r"\d{4}-\d\d-\d\dT\d\d:\d\d:\d\d\.\d{3}Z gateway (warning|error|info): .*"
    right = [re.fullmatch(pattern, line) is not None for line in plain.log().splitlines()]
    room = Path(scene.room / "journal")
    room.mkdir()
    (room / "log").touch()
    state = (room / "log").stat()
    gateway = Gateway(room, scene.it.gateway, scene.it.play, limits=LIMITS,
                      command=scene.stand_in(),
                      env={"JOURNAL_STREAM": f"{state.st_dev}:{state.st_ino}"})
    scene.begun.append(gateway)
    gateway.start()
    wait_for(lambda: answer_to(gateway, 20)[0] == 4, 60)
    lines = gateway.log().splitlines()
    right += [line.startswith("<4>a connection from process ") for line in lines]
    return bool(lines) and all(right)


def unit_file(scene: Scene) -> bool:
    """`systemd-analyze` accepts the unit, with the programs where they are here."""
    if not shutil.which("systemd-analyze"):
        print("unit: without systemd-analyze")
        return True
    text = UNIT.read_text().replace("/usr/local/bin/gateway", str(scene.it.gateway))
    text = text.replace("/usr/local/bin/cb_play", "/bin/true")
    unit = scene.room / UNIT.name
    unit.write_text(text)
    done = ran("systemd-analyze", "verify", unit, text=True)
    return done.returncode == 0 and UNIT.name not in done.stderr


def warnings(scene: Scene) -> bool:
    """The sources of the gateway and of the server over other engines have no warning of the
    compiler's analyzer; nor of cppcheck and of clang-tidy's bugprone checks, where these are
    there."""
    hosts = building.TOP / "hosts"
    folders = [hosts / "gateway", hosts / "serve"]
    sources = sorted(str(it) for folder in folders for it in folder.glob("*.c"))
    libpq = ran("pkg-config", "--cflags", "libpq", text=True).stdout.split()
    flags = ["-std=c11", "-D_GNU_SOURCE", f"-I{hosts}/c", f"-I{hosts}/gateway", *libpq]
    gcc = ["gcc", *flags, "-O2", "-Wall", "-Wextra", "-Wconversion", "-Werror", "-fanalyzer", "-c"]
    commands = [[*gcc, source, "-o", "/dev/null"] for source in sources]
    checks = "--enable=warning,performance,portability"
    commands.append(["cppcheck", checks, "--inline-suppr", "-q", "--error-exitcode=1",
                     "-D_GNU_SOURCE", *map(str, folders)])
    commands.append(["clang-tidy", "--quiet", "--checks=-*,bugprone-*", "--warnings-as-errors=*",
                     *sources, "--", *flags])
    found = []
    for words in commands:
        if not shutil.which(words[0]):
            print(f"warnings: without {words[0]}")
            continue
        right, text = said(*words)
        found += [] if right else [text]
    print("\n".join(found), end="")
    return not found


SCENES = [metrics, tokens_again, told_manager, lines_of_the_log, unit_file, warnings]
