"""Tries the server that other processes connect to: its gateway, the examples, kills, lost frames.

    scripts/check serve [--built] [KILLS [SEED]]      200 kills without a number

- Bad input and faults at `cb_play serve`, and at `rughvadi-serve` over SQLite: frames cut, damaged,
  of strangers and of kinds for clients, headers that are none, stores that refuse, full disks,
  outputs that are closed, memory refused. Each ends with its line and status, and the store has
  what was answered as done. An output that doesn't block, and is full for now, is waited for by
  `rughvadi-serve`.
- Streams of frames at both, and at `rughvadi-serve` over PostgreSQL: each puts out the same bytes,
  ends alike and leaves the same store, which those with a file go on with in turn.
- Configurations: both servers take and refuse the same, but for TOML of other forms.
- Files that were there before, whole ones and wrong ones: both servers with a file take and refuse
  the same, and leave the same rows.
- Lives at `rughvadi-serve`: killed at drawn moments, each begins above all that was welcome before,
  and who serves in a former life answers nothing.
- Bad input at the gateway, which is built with ASan and UBSan: no token, a wrong one, frames of
  others, frames that are none, half a frame and then silence, floods, clients that don't read or
  don't answer, a server that dies, files that others may read. Each ends in a closed connection, a
  line or a status, while another client goes on.
- Strangers at the gateway, beside clients that go on: connections that never greet, from one
  address and from many, and floods of greetings that are none. Clients that owe the server an
  answer and say other things, or frames byte by byte; what is owed, and what isn't. Servers that
  announce their lives, are silent, or end; stores that are no files, or that another one serves.
  How the gateway ends beside clients that read slowly.
- Commits of too many pages, too few open files, and the mode and owner of files.
- What operators see and do: what is counted (with Debian's `promtool`, where it is there), lines of
  the log, tokens that are read again, what the service manager is told, and its unit.
- How many commits go together, whom they wait for and how long, by the gateway's own code and by
  that of `rughvadi-serve`, over a clock that is no machine's, the gateway's also without that
  clock; and how much room its buffers keep.
- A client of a wrapper that holds a page as the server becomes another: it is gone.
- The host in C, `hosts/served.c`: copies of its store by sqlite3 while it serves, a kill, and
  frames that are none.
- The examples: a counter in C by four processes, transfers and a job board in Python, keys in Rust
  in one store and in four.
- The same over datagrams of which a tenth is lost, repeated or late.
- Clients that fight for the same two pages: few tries are in vain, and each client gets its turns;
  by processes, and by the gateway's own code and the library over a clock that is no machine's.
- Kills of the server, the gateway and clients at drawn moments: no commit that was answered is
  lost, no reader sees another sum, and the work goes on after each.
- Copies by sqlite3's online backup, by `VACUUM INTO` and by a client that reads all pages, while
  others commit: each is right, or refused.

It needs the library (that of LIBRARY, else installed by scripts/library, with what stands in
crates/rughvadi/out after --built), `cb_play` (that of PLAY, else built), a C compiler, the headers
of libuv, SQLite and libpq, rustc and sqlite3. What needs PostgreSQL 15 is left out where that isn't
there. Once all is built it takes some ten minutes. The status is 1 where
something failed.
"""
from __future__ import annotations

import random
import stat
import subprocess
import sys
from pathlib import Path

import building
from checks import bad_input, serve_configs, serve_engines, serve_found, serve_gather
from checks import serve_gateway, serve_host, serve_input, serve_lives, serve_operators
from checks.built import Built
from checks.killing import Workers, kill_often
from checks.trying import Tries, file_faults, numbers, ran, rows_of
from serving import Gateway, wait_for

TEXTS = building.PROGRAMS / "python"
WORKERS = 4


# ---- the examples ----


def together(it: Built, commands: list[list], seconds: float = 300.0) -> tuple[bool, str]:
    """Runs commands at the same time; whether all ended with 0, and what they said."""
    both = {"stdout": subprocess.PIPE, "stderr": subprocess.STDOUT, "text": True}
    both["umask"] = 0  # what they make isn't to rest on who starts them
    begun = [subprocess.Popen(list(map(str, each)), env=it.env, **both) for each in commands]
    right, said = True, ""
    for each in begun:
        try:
            text, _ = each.communicate(timeout=seconds)
        except subprocess.TimeoutExpired:
            each.kill()
            text = each.communicate()[0] + "it didn't end\n"
        right = right and each.returncode == 0
        said += text
    return right, said


def counter_of(gateway: Gateway, page: int = 0) -> int:
    """The number that a page of the main store begins with."""
    text = "SELECT body FROM part WHERE no = ? AND place = 0"
    ((body,),) = rows_of(gateway.database(), text, page)
    return int.from_bytes(body[:8], "little", signed=True)


def examples(
    tries: Tries, it: Built, name: str, address: Path, gateway: Gateway, few: bool
) -> None:
    """All examples at one gateway, one after another."""
    tokens, times = gateway.tokens, 10 if few else 200
    counters = [
        [it.examples / "counter", address, tokens, client, times] for client in range(4)
    ]
    right, said = together(it, counters)
    tries.told(f"{name}: counter in C, by four", right, said)
    # The keys' pages aren't those of the counter and the accounts.
    right, said = together(it, [[it.examples / "kv", address, tokens, 5, "a", "fill", times]])
    tries.told(f"{name}: keys in Rust, in one store", right, said)
    stores = [
        [it.examples / "kv", address, tokens, client, "a,b,c,d", "fill", 2 * times]
        for client in (5, 6)
    ]
    right, said = together(it, stores)
    tries.told(f"{name}: keys in Rust, in four stores, by two", right, said)


def run_examples(tries: Tries, it: Built) -> None:
    gateway = it.served("examples", stores=("main", "a", "b", "c", "d"))
    try:
        examples(tries, it, "examples", gateway.socket, gateway, False)
    finally:
        status = gateway.stop()
    counter = counter_of(gateway)
    tries.told("examples: the counter in the table", counter == 800, f"{counter}")
    tries.told("examples: the gateway ended in order", status == 0, f"status {status}")
    gateway = it.served("transfers")
    try:
        transfers(tries, it, "examples", gateway.socket, gateway, 100)
    finally:
        gateway.stop()
    gateway = it.served("job_board")
    try:
        job_board(tries, it, gateway)
    finally:
        gateway.stop()


def transfers(
    tries: Tries, it: Built, name: str, address: Path, gateway: Gateway, times: int
) -> None:
    words = [sys.executable, building.TOP / "examples/transfers.py", address, gateway.tokens, times]
    right, said = together(it, [words])
    tries.told(f"{name}: transfers in Python", right, said)


def job_board(tries: Tries, it: Built, gateway: Gateway) -> None:
    """One process puts jobs, and four take each once."""
    board = [sys.executable, building.TOP / "examples/job_board.py", gateway.socket, gateway.tokens]
    texts = [f"job-{number}" for number in range(24)]
    put, said = together(it, [[*board, 0, "put", *texts]])
    worked, taken = together(it, [[*board, client, "work", 0.01] for client in range(1, 5)])
    once = sorted(line.split()[-1] for line in taken.splitlines()) == sorted(texts)
    tries.told("examples: a job board in Python, by four", put and worked and once, said + taken)


def run_gone(tries: Tries, it: Built) -> None:
    """The server is killed, and another one serves, while a client holds a page."""
    gateway = it.served("gone")
    words = [sys.executable, TEXTS / "gone.py", gateway.socket, gateway.tokens, "1"]
    pipes = {"stdin": subprocess.PIPE, "stdout": subprocess.PIPE, "text": True}
    with subprocess.Popen(list(map(str, words)), env=it.env, **pipes) as client:
        held = client.stdout.readline()
        gateway.kill_servers()
        wait_for(lambda: bad_input.comes(gateway, 0, 2), 60)
        said, _ = client.communicate("\n", 60)
    gateway.stop()
    tries.told("a held page is gone with its server", (held, said) == ("held\n", "gone\n"), said)


# ---- frames over datagrams ----


def run_lossy(tries: Tries, it: Built, seed: int) -> None:
    for part in ("counts", "transfers"):
        gateway = it.served(f"lossy_{part}", stores=("main", "a", "b", "c", "d"))
        socket = gateway.room / "relay"
        words = [sys.executable, TEXTS / "relay.py", socket, gateway.socket, str(seed)]
        relay = subprocess.Popen(list(map(str, words)), stdout=subprocess.PIPE)
        try:
            relay.stdout.readline()
            if part == "counts":
                examples(tries, it, "over datagrams", socket, gateway, True)
            else:
                transfers(tries, it, "over datagrams", socket, gateway, 10)
        finally:
            relay.kill()
            relay.wait()
            relay.stdout.close()
            gateway.stop()
        if part == "counts":
            counter = counter_of(gateway)
            tries.told("over datagrams: the counter", counter == 40, f"{counter}")


# ---- kills ----


def at_accounts(it: Built, gateway: Gateway) -> Workers:
    """Clients that move amounts between accounts, and count on pages of their own."""
    words = [TEXTS / "worker.py", gateway.socket, gateway.tokens]
    return Workers(gateway.room, it.env, WORKERS, lambda client, log: [*words, client, log])


def answered(work: Workers, client: int) -> int:
    """The last counter that a client was answered: a number of 8 bytes each."""
    log = work.log(client).read_bytes() if work.log(client).exists() else b""
    whole = len(log) // 8 * 8
    return int.from_bytes(log[whole - 8 : whole], "big") if whole else 0


def run_kills(tries: Tries, it: Built, kills: int, seed: int) -> None:
    gateway = it.served("kills", "--silence", "5")
    work = at_accounts(it, gateway)
    work.begin()
    said, wrong = kill_often(gateway, work, random.Random(seed), kills, 0.4)
    # A gateway that sees as it stops that its server was killed ends with 1. So each client commits
    # three times more first.
    if not wrong and not work.all_go_on(16):
        wrong = ["not all clients went on after the last kill"]
    work.end()
    status = gateway.stop()
    wrong += table_faults(work, gateway)
    wrong += [f"the gateway ended with {status}: {gateway.log()[-2000:]}"] if status else []
    said += f", {sum(answered(work, client) for client in range(WORKERS))} commits answered"
    tries.told("kills", not wrong, "\n".join([*wrong, said]))


def table_faults(work: Workers, gateway: Gateway) -> list[str]:
    """What is wrong in the store once all have ended."""
    wrong = []
    for client in range(WORKERS):
        counter, told = counter_of(gateway, 8 + client), answered(work, client)
        if counter < told:
            wrong.append(f"client {client}: {told} answered, {counter} stored")
    if total := sum(counter_of(gateway, account) for account in range(8)):
        wrong.append(f"the sum is {total}")
    return wrong + file_faults(gateway.database())


# ---- copies while it is served ----


def copy_faults(copy: Path) -> list[str]:
    """What is wrong with a copy."""
    bodies = rows_of(copy, "SELECT body FROM part WHERE no < 8 AND place = 0")
    total = sum(int.from_bytes(body[:8], "little", signed=True) for (body,) in bodies)
    private = stat.S_IMODE(copy.stat().st_mode) & 0o077 == 0 or not copy.name.startswith("client")
    right = not file_faults(copy) and total == 0 and len(bodies) == 8 and private
    return [] if right else [f"{file_faults(copy)}, sum {total}, {copy.stat().st_mode:o}"]


def copied_by(it: Built, words: list, copy: Path) -> tuple[bool, list[str]]:
    """Whether a copy came of it, and what is wrong with that; one that is refused is none."""
    right, said = together(it, [words], 120.0)
    refused = "locked" in said
    if right and not refused:
        return True, copy_faults(copy)
    return False, [] if refused else [said]


def run_copies(tries: Tries, it: Built) -> None:
    gateway = it.served("copies")
    work = at_accounts(it, gateway)
    work.begin()
    work.all_go_on(20)
    sqlite = ["sqlite3", "-cmd", ".timeout 2000", gateway.database()]
    copier = [sys.executable, building.TOP / "examples/copy_store.py", gateway.socket]
    for name in ("sqlite3's online backup", "VACUUM INTO", "a client"):
        before, wrong, count = sum(work.sizes()), [], 0
        for place in range(5):
            copy = gateway.room / f"{name.split()[-1]}_{place}.db"
            ways = {
                "sqlite3's online backup": [*sqlite, f".backup '{copy}'"],
                "VACUUM INTO": [*sqlite, f"VACUUM INTO '{copy}'"],
                "a client": [*copier, gateway.tokens, 10 + place, "main", copy],
            }
            came, found = copied_by(it, ways[name], copy)
            count, wrong = count + came, wrong + found
        goes_on = wait_for(lambda: sum(work.sizes()) > before + 160, 300)
        meanwhile = (sum(work.sizes()) - before) // 8
        said = f"{count} copies and {5 - count} refused; {meanwhile} commits meanwhile"
        right = not wrong and goes_on and (count == 5 or name != "a client")
        tries.told(f"copies by {name}", right, "\n".join([*wrong, said]))
    work.end()
    status = gateway.stop()
    wrong = table_faults(work, gateway)
    tries.told("copies: the store itself", not wrong and status == 0, "\n".join(wrong) or "right")


# ---- clients that fight for pages ----

# How the turns are modelled: clients, order of the pages, microseconds of a sync, `keep_write`.
TURNS = [
    *((count, order, 150, 0) for order in ("same", "opposite") for count in (2, 6, 8, 32)),
    (32, "same", 3000, 0), (8, "opposite", 30000, 0), (8, "same", 150, 1), (32, "opposite", 150, 1),
]


def run_turns(tries: Tries, it: Built) -> None:
    """How clients fight, by the library and the gateway's own code over a clock that is no
    machine's; and that without turns it would be worse."""
    flags = [f"-I{building.TOP}/hosts/gateway"]
    model = it.in_c("turns_model", *flags)

    def counts(*words: object) -> list[int]:
        return list(map(int, ran(model, *words).stdout.split()))

    def is_fair(clients: int, order: str, sync: int, keep: int, way: str) -> tuple[bool, str]:
        one = counts(1, order, sync, keep, way)[0]
        commits, tried, longest, least, _ = counts(clients, order, sync, keep, way)
        right = commits >= 0.6 * one and tried <= 2 * commits and longest <= 20
        said = f"{commits / one:.2f} of one client's commits, {tried / commits:.2f} tries a commit"
        said += f", {longest} at most, the fewest {least * clients / commits:.2f} of a share"
        return right and 3 * least * clients >= commits, said

    for words in TURNS:
        tries.told(f"turns: {' '.join(map(str, words))}", *is_fair(*words, "turns"))
    for words in ((8, "same", 150, 0), (6, "opposite", 150, 0)):
        right, said = is_fair(*words, "open")
        tries.told(f"without turns: {' '.join(map(str, words))}", not right, said)
    own = [counts(8, "own", 150, 0, way) for way in ("open", "turns")]
    tries.told("turns: clients on pages of their own aren't slowed", own[0] == own[1], f"{own[1]}")


def run_fights(tries: Tries, it: Built) -> None:
    """Clients add to the counters of the same two pages, in one order and in opposite ones: each
    gets its turns, and few tries are in vain."""
    program = it.in_c("fighters")
    for clients, order in ((8, "same"), (6, "opposite"), (32, "opposite")):
        gateway = it.served(f"fights_{clients}_{order}", limits=(32, 64, 4096, 16, 0))
        done = ran(program, gateway.socket, gateway.tokens, "main", clients, 6, order)
        status = gateway.stop()
        commits, tried, longest, least, most = map(int, (done.stdout or b"0 0 0 0 0").split())
        counters = [counter_of(gateway, page) for page in (0, 1)]
        right = status == 0 and counters == [commits, commits]
        right = right and tried <= 5 * commits and least > 0
        said = f"{commits} commits, {tried} tries, {longest} at most; {least} to {most} of each"
        tries.told(f"{clients} clients fight, in {order} order", right, f"{counters}\n{said}")


def main(words: list[str]) -> int:
    built, (kills, seed) = numbers(words, "serve [--built] [KILLS [SEED]]", 200, 1)
    tries = Tries()
    with building.a_room() as room:
        it = Built(room, built)
        serve_gather.tried(tries, room)
        run_turns(tries, it)
        run_fights(tries, it)
        serve_input.tried(tries, room / "input_play", "serve", (it.play, "serve"))
        more = (serve_input.waiting_output,)
        serve_input.tried(tries, room / "input_sqlite", "over SQLite", (it.serve,), more)
        serve_engines.tried(tries, room / "engines", it.play, it.checked_serve)
        serve_configs.tried(tries, room / "configs", it.play, it.checked_serve)
        serve_found.tried(tries, room / "found", it.play, it.checked_serve)
        serve_lives.tried(tries, room / "lives", it.checked_serve, (it.play, "serve"))
        bad_input.tried(tries, it)
        serve_gateway.tried(tries, it)
        serve_gateway.tried(tries, it, serve_operators.SCENES, "serve_operators")
        run_gone(tries, it)
        serve_host.tried(tries, it)
        run_examples(tries, it)
        run_lossy(tries, it, seed)
        run_copies(tries, it)
        run_kills(tries, it, kills, seed)
    return tries.status("serve")
