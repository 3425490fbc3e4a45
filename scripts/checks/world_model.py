"""A world of the protocol in Python, by docs/PROTOCOL.md and docs/FORMATS.md.

It knows nothing of the code, and plays schedules of one life of the server or of several. A page is
one byte here, since every write of a schedule fills its page with one. Numbers are taken to be far
below their bounds, so nothing is ever exhausted.
"""
from __future__ import annotations

from dataclasses import dataclass, field

IDLE, OPEN, COMMITTING = "idle", "open", "committing"
TO_SERVER = {"Hello", "AskRead", "AskWrite", "GiveBack", "InUse", "Commit", "Drop", "Downgraded"}
# Which number of a message's body names its transaction.
NAMES = {"AskRead", "AskWrite", "InUse", "Commit", "Drop"}


@dataclass
class Limits:
    """The keys of a configuration, with their defaults."""

    clients: int
    pages: int
    page_size: int
    slots: int
    kin: int = 0
    kout: int = 0
    jobs: int = 0
    keep_write: int = 0
    lives: int = 0

    def __post_init__(self) -> None:
        self.kin = self.kin or max(self.slots // 4, 1)
        self.kout = self.kout or max(self.slots // 2, 1)


@dataclass
class Message:
    """What a packet says: its kind, of or to whom, and the numbers of its body in order."""

    kind: str
    client: int
    incarnation: int
    body: tuple


class Pool:
    """Which page goes next: A1in and A1out, the newest first, and Am, the one read last first."""

    def __init__(self, limits: Limits) -> None:
        self.limits = limits
        self.a1in: list[int] = []
        self.a1out: list[int] = []
        self.am: list[int] = []

    def forget(self, page: int) -> None:
        for pages in (self.a1in, self.am):
            if page in pages:
                pages.remove(page)

    def victim(self, fixed: set[int]) -> tuple[list[int], int] | None:
        """The list that a page goes from, and that page, if one has to go."""
        if len(self.a1in) + len(self.am) < self.limits.slots:
            return None
        new, old = ([it for it in reversed(pages) if it not in fixed] for pages in
                    (self.a1in, self.am))
        from_new = new and (len(self.a1in) > self.limits.kin or not old)
        return (self.a1in, new[0]) if from_new else (self.am, old[0])

    def reference(self, page: int, fixed: set[int]) -> int | None:
        """A reference to a page; the page that goes for it."""
        if page in self.am:
            self.am.remove(page)
            self.am.insert(0, page)
            return None
        if page in self.a1in:
            return None
        is_recalled = page in self.a1out
        if is_recalled:
            self.a1out.remove(page)
        chosen, gone = self.victim(fixed), None
        if chosen:
            pages, gone = chosen
            pages.remove(gone)
            if pages is self.a1in:
                self.a1out = [gone, *self.a1out][: self.limits.kout]
        (self.am if is_recalled else self.a1in).insert(0, page)
        return gone


class Client:
    """One incarnation of a client. What it says is noted in `said`."""

    def __init__(self, limits: Limits) -> None:
        self.limits = limits
        self.pool = Pool(limits)
        self.said: list[tuple] = []
        self.welcomed, self.status, self.txn, self.dropped = False, IDLE, 0, 0
        self.seen: dict[int, int] = {}
        self.held: dict[int, int] = {}
        self.version: dict[int, int] = {}
        self.content: dict[int, int] = {}
        self.tag: dict[int, int] = {}
        self.locked: set[int] = set()
        self.may_write: set[int] = set()
        self.wrote: set[int] = set()
        self.last = ""
        self.end("")

    def end(self, outcome: str) -> None:
        self.ask: tuple[str, int] | None = None
        self.due: set[int] = set()
        self.downgrades: dict[int, tuple[int, int]] = {}
        self.wanted: set[int] = set()
        self.last = outcome

    def say(self, kind: str, *body: int | tuple) -> None:
        self.said.append((kind, body))

    # ---- calls ----

    def refusal(self, needs_page: int | None = None, read: bool = False) -> str:
        """Why a call that needs an open transaction is refused, as far as that goes."""
        if not self.welcomed:
            return "1 NotWelcome"
        if self.status != OPEN:
            return "2 NoTransaction" if self.status == IDLE else "4 Committing"
        if needs_page is None:
            return ""
        if self.ask:
            return "5 Waiting"
        if needs_page >= self.limits.pages:
            return "6 PageRange"
        if read and needs_page not in self.locked:
            return "7 NotRead"
        return "8 NotHere" if read and needs_page not in self.content else ""

    def hello(self) -> str:
        self.say("Hello")
        return "ok"

    def begin(self) -> str:
        if not self.welcomed:
            return "refused 1 NotWelcome"
        if self.status != IDLE:
            return "refused 3 TransactionOpen"
        self.txn, self.status = self.txn + 1, OPEN
        return "ok"

    def read(self, page: int) -> str:
        why = self.refusal(page)
        has_room = len(self.content) < self.limits.slots or self.content.keys() - self.fixed()
        if not why and page not in self.content and not has_room:
            why = "11 PoolFull"
        if why:
            return f"refused {why}"
        if page in self.content:
            self.locked.add(page)
            self.pool.reference(page, self.fixed())
            return shown(self.content[page])
        self.ask = ("read", page)
        self.say("AskRead", self.txn, page)
        return "asked"

    def peek(self, page: int) -> str:
        return shown(self.content[page]) if page in self.content else "none"

    def want(self, page: int) -> str:
        why = self.refusal(page, read=True)
        if why:
            return f"refused {why}"
        self.wanted.add(page)
        if page in self.may_write:
            return "permitted"
        self.ask = ("write", page)
        self.ask_again()
        return "asked"

    def write(self, page: int, byte: int) -> str:
        why = self.refusal(page, read=True)
        if not why and page not in self.may_write:
            why = "9 NotWritable"
        if why:
            return f"refused {why}"
        self.content[page] = byte
        self.wrote.add(page)
        return "ok"

    def finish(self) -> str:
        why = self.refusal() or ("5 Waiting" if self.ask else "")
        if why:
            return f"refused {why}"
        self.status = COMMITTING
        self.say_commit()
        return "ok"

    def drop(self) -> str:
        why = self.refusal()
        if why:
            return f"refused {why}"
        self.abandon("dropped")
        return "ok"

    def again(self) -> str:
        if not self.welcomed:
            return self.hello()
        if self.last in ("dropped", "aborted"):
            self.say("Drop", self.dropped)
        if self.ask:
            self.ask_again()
        if self.status == COMMITTING:
            self.say_commit()
        return "ok"

    def ask_again(self) -> None:
        what, page = self.ask
        if what == "read":
            self.say("AskRead", self.txn, page)
        elif page in self.held:
            self.say("AskWrite", self.txn, page, self.held[page])

    def say_commit(self) -> None:
        pages = sorted(page for page in self.wrote if page in self.held and page in self.content)
        self.say("Commit", self.txn, tuple((it, self.held[it], self.content[it]) for it in pages))

    # ---- its copies ----

    def fixed(self) -> set[int]:
        return self.wanted | self.wrote

    def let_go(self, page: int) -> None:
        self.may_write.discard(page)
        self.content.pop(page, None)
        self.pool.forget(page)
        self.say("GiveBack", page, self.held.pop(page))

    def refuse_grant(self, page: int, grant: int) -> None:
        self.seen[page] = max(self.seen.get(page, 0), grant)
        self.say("GiveBack", page, grant)

    def bring(self, page: int, byte: int) -> None:
        """The page's bytes come into the pool; another page goes for them, if one has to."""
        gone = self.pool.reference(page, self.fixed())
        if gone is not None and gone in self.locked:
            del self.content[gone]
        elif gone is not None:
            self.let_go(gone)
        self.ask = None
        self.content[page] = byte

    def abandon(self, outcome: str) -> None:
        """The transaction ends as dropped or aborted."""
        wrote, due, held = self.wrote, self.due, dict(self.held)
        self.dropped, self.status = self.txn, IDLE
        for page in wrote:
            self.held.pop(page, None)
            self.content.pop(page, None)
            self.pool.forget(page)
        self.locked, self.may_write, self.wrote = set(), set(), set()
        self.end(outcome)
        self.say("Drop", self.txn)
        for page in sorted(held):
            if page in wrote:
                self.say("GiveBack", page, held[page])
            elif page in due or page not in self.content:
                self.let_go(page)

    def done(self, number: int) -> None:
        """The transaction ends as committed, by that number."""
        due, downgrades = self.due, self.downgrades
        self.status = IDLE
        self.version |= dict.fromkeys(self.wrote, number)
        self.locked, self.wrote = set(), set()
        if not self.limits.keep_write:
            self.may_write = set()
        self.end("committed")
        for page in sorted(self.held):
            if page in due or page not in self.content:
                self.let_go(page)
            elif page in downgrades:
                self.may_write.discard(page)
                self.say("Downgraded", page, *downgrades[page])

    # ---- messages ----

    def take(self, message: Message) -> None:
        if message.kind == "Welcome":
            self.welcomed = True
        elif self.welcomed:
            getattr(self, f"take_{message.kind}")(*message.body)

    def take_Granted(self, page: int, grant: int, version: int, byte: int) -> None:
        is_asked = self.ask == ("read", page)
        if self.held.get(page) == grant:
            if page not in self.content and self.version[page] == version and is_asked:
                self.bring(page, byte)
        elif page in self.held or not (self.seen.get(page, 0) < grant and is_asked):
            self.refuse_grant(page, grant)
        else:
            self.bring(page, byte)
            self.seen[page] = self.held[page] = grant
            self.version[page] = version
            self.locked.add(page)

    def take_MayWrite(self, txn: int, page: int, grant: int) -> None:
        is_open = self.status == OPEN and self.txn == txn
        if is_open and self.ask == ("write", page) and self.held.get(page) == grant:
            self.ask = None
            self.may_write.add(page)
            self.tag[page] = txn

    def take_Callback(self, page: int, grant: int) -> None:
        if self.held.get(page) != grant:
            self.refuse_grant(page, grant)
        elif page in self.locked:
            self.due.add(page)
            self.say("InUse", self.txn, page, grant)
        else:
            self.let_go(page)

    def take_Done(self, txn: int, number: int) -> None:
        if self.status == COMMITTING and self.txn == txn:
            self.done(number)

    def take_AbortNow(self, txn: int) -> None:
        if self.status == OPEN and self.txn == txn:
            self.abandon("aborted")

    def take_Downgrade(self, page: int, grant: int, tag: int) -> None:
        if not self.limits.keep_write:
            return
        if self.held.get(page) != grant:
            self.refuse_grant(page, grant)
        elif page not in self.may_write or self.tag.get(page, 0) != tag:
            self.say("Downgraded", page, grant, tag)
        elif page in self.fixed():
            self.downgrades[page] = (grant, tag)
            self.say("InUse", self.txn, page, grant)
        else:
            self.may_write.discard(page)
            self.say("Downgraded", page, grant, tag)


@dataclass
class Ask:
    """An ask that waits; without a grant it is to read."""

    client: int
    grant: int | None
    called_back: bool = False
    downgraded: int | None = None


@dataclass
class Session:
    """What the server knows of a client: its incarnation, copies and transaction."""

    current: int = 0
    rows: dict[int, int] = field(default_factory=dict)
    txn: int = 0
    ended: int = 0
    outcome: int | None = None
    is_doomed: bool = False
    in_use: set[int] = field(default_factory=set)

    def is_live(self) -> bool:
        return self.ended < self.txn


@dataclass
class Commit:
    """A commit that was applied, with the page, grant and byte of each write."""

    client: int
    incarnation: int
    txn: int
    number: int
    writes: tuple


class Server:
    """The server during one life. What it sends is noted in `sent`."""

    def __init__(self, limits: Limits, floor: int, store: list[tuple[int, int]], last: int) -> None:
        self.limits, self.floor, self.opening = limits, floor, list(store)
        self.store = list(store)  # of each page its version and byte
        self.last = self.flushed = last
        self.sessions = [Session(current=floor) for _ in range(limits.clients)]
        self.holder: list[int | None] = [None] * limits.pages
        self.tag = [0] * limits.pages
        self.queues: list[list[Ask]] = [[] for _ in range(limits.pages)]
        self.grant = 1
        self.commits: list[Commit] = []
        self.sent: list[Message] = []

    def send(self, client: int, kind: str, *body: int) -> None:
        self.sent.append(Message(kind, client, self.sessions[client].current, body))

    # ---- changes ----

    def remove_asks(self, client: int) -> None:
        self.queues = [[ask for ask in queue if ask.client != client] for queue in self.queues]

    def forget(self, client: int) -> None:
        """The client's ask, marks and doom go."""
        self.remove_asks(client)
        self.sessions[client].in_use = set()
        self.sessions[client].is_doomed = False

    def unhold(self, client: int) -> None:
        self.holder = [None if it == client else it for it in self.holder]

    def begin(self, client: int, txn: int) -> None:
        session = self.sessions[client]
        if session.txn < txn:
            self.forget(client)
            if session.is_live():
                self.unhold(client)
            session.txn, session.ended, session.outcome = txn, txn - 1, None

    def permit(self, client: int, page: int, grant: int) -> None:
        self.holder[page] = client
        self.tag[page] = self.sessions[client].txn
        self.send(client, "MayWrite", self.tag[page], page, grant)

    def apply(self, client: int, txn: int, writes: tuple) -> None:
        self.forget(client)
        session = self.sessions[client]
        self.last += 1
        for page, _, byte in writes:
            self.store[page] = (self.last, byte)
        if not self.limits.keep_write:
            self.unhold(client)
        session.ended, session.outcome = txn, self.last
        self.commits.append(Commit(client, session.current, txn, self.last, writes))

    # ---- who waits for whom ----

    def is_kept(self, page: int, asker: int) -> bool:
        """Whether another client than the asker merely keeps its permission."""
        holder = self.holder[page]
        return holder not in (None, asker) and not self.is_permitted_now(holder, page)

    def is_permitted_now(self, holder: int, page: int) -> bool:
        session = self.sessions[holder]
        return session.is_live() and self.tag[page] == session.txn

    def holds_up(self, page: int, ask: Ask, other: int) -> bool:
        uses = page in self.sessions[other].in_use
        is_holder = self.holder[page] == other
        return (is_holder and (uses or self.is_permitted_now(other, page))) or (
            ask.grant is not None and uses)

    def waits_for(self, client: int) -> set[int]:
        found = set()
        for page, queue in enumerate(self.queues):
            for place, ask in enumerate(queue):
                if ask.client == client:
                    found |= {earlier.client for earlier in queue[:place]}
                    if place == 0:
                        everybody = range(self.limits.clients)
                        found |= {it for it in everybody if self.holds_up(page, ask, it)}
        return found - {client}

    def is_on_cycle(self, client: int) -> bool:
        found, left = set(), [client]
        while left:
            more = self.waits_for(left.pop()) - found
            found |= more
            left += more
        return client in found

    def doom(self, client: int) -> None:
        self.remove_asks(client)
        self.sessions[client].is_doomed = True
        self.send(client, "AbortNow", self.sessions[client].txn)

    # ---- settling ----

    def call_back(self, page: int, asker: int, again: bool = False) -> None:
        for client, session in enumerate(self.sessions):
            is_left_out = client == asker or (again and page in session.in_use)
            if not is_left_out and page in session.rows:
                self.send(client, "Callback", page, session.rows[page])

    def downgrade(self, page: int, asker: int, again: bool = False) -> None:
        holder = self.holder[page]
        if self.is_kept(page, asker) and not (again and page in self.sessions[holder].in_use):
            if page in self.sessions[holder].rows:
                row = self.sessions[holder].rows[page]
                self.send(holder, "Downgrade", page, row, self.tag[page])

    def is_met(self, page: int, ask: Ask) -> bool:
        """Meets the first ask of a page, if it can be; whether it was."""
        session = self.sessions[ask.client]
        if self.holder[page] not in (None, ask.client):
            return False
        if ask.grant is None:
            if page in session.rows:
                return False
            session.rows[page] = self.grant
            self.grant += 1
            self.send(ask.client, "Granted", page, session.rows[page], *self.store[page])
            return True
        others = [it for it in self.sessions if it is not session and page in it.rows]
        if session.rows.get(page) != ask.grant or others:
            return False
        self.permit(ask.client, page, ask.grant)
        return True

    def call_for(self, page: int, ask: Ask) -> None:
        """Asks those in the way of a first ask for the page, once."""
        if ask.grant is not None:
            if not ask.called_back:
                self.call_back(page, ask.client)
                ask.called_back = True
        elif self.limits.keep_write and self.is_kept(page, ask.client):
            if ask.downgraded != self.tag[page]:
                self.downgrade(page, ask.client)
                ask.downgraded = self.tag[page]

    def settle(self) -> None:
        for page in range(self.limits.pages):
            while self.queues[page]:
                ask = self.queues[page][0]
                if self.is_met(page, ask):
                    self.queues[page].pop(0)
                    continue
                self.call_for(page, ask)
                if not self.is_on_cycle(ask.client):
                    break
                self.doom(ask.client)

    # ---- messages ----

    def take(self, message: Message) -> None:
        client, session = message.client, self.sessions[message.client]
        if message.kind == "Hello":
            if session.current < message.incarnation:
                self.forget(client)
                self.unhold(client)
                self.sessions[client] = Session(current=message.incarnation)
                self.send(client, "Welcome")
                self.settle()
            elif session.current == message.incarnation:
                self.send(client, "Welcome")
        elif session.current == message.incarnation:
            if message.kind in NAMES:
                self.begin(client, message.body[0])
            getattr(self, f"take_{message.kind}")(client, session, *message.body)
            self.settle()

    def is_heard(self, client: int, session: Session, txn: int) -> bool:
        """Whether the transaction lives; a doomed one hears so."""
        if session.ended >= txn:
            return False
        if session.is_doomed:
            self.send(client, "AbortNow", txn)
        return not session.is_doomed

    def enter(self, page: int, ask: Ask) -> None:
        """An ask enters the queue, unless one of its client waits."""
        if any(it.client == ask.client for queue in self.queues for it in queue):
            return
        is_first = not self.queues[page]
        self.queues[page].append(ask)
        if not is_first and self.is_on_cycle(ask.client):
            self.doom(ask.client)

    def take_AskRead(self, client: int, session: Session, txn: int, page: int) -> None:
        if self.is_heard(client, session, txn):
            if page in session.rows:
                self.send(client, "Granted", page, session.rows[page], *self.store[page])
            else:
                self.enter(page, Ask(client, None))

    def take_AskWrite(
        self, client: int, session: Session, txn: int, page: int, grant: int
    ) -> None:
        if self.is_heard(client, session, txn) and session.rows.get(page) == grant:
            if self.holder[page] == client:
                self.permit(client, page, grant)
            else:
                self.enter(page, Ask(client, grant))

    def take_GiveBack(self, client: int, session: Session, page: int, grant: int) -> None:
        if session.rows.get(page) == grant:
            session.in_use.discard(page)
            del session.rows[page]
            if self.limits.keep_write and self.holder[page] == client:
                self.holder[page] = None

    def take_InUse(self, client: int, session: Session, txn: int, page: int, grant: int) -> None:
        if session.ended < txn and session.rows.get(page) == grant:
            session.in_use.add(page)

    def take_Commit(self, client: int, session: Session, txn: int, writes: tuple) -> None:
        if session.ended < txn:
            is_allowed = all(self.holder[page] == client and session.rows.get(page) == grant
                             for page, grant, _ in writes)
            if self.is_heard(client, session, txn) and is_allowed:
                self.apply(client, txn, writes)
        elif txn == session.ended and session.outcome is not None:
            if session.outcome <= self.flushed:
                self.send(client, "Done", txn, session.outcome)

    def take_Drop(self, client: int, session: Session, txn: int) -> None:
        if session.ended < txn:
            self.forget(client)
            self.unhold(client)
            session.ended, session.outcome = txn, None

    def take_Downgraded(
        self, client: int, session: Session, page: int, grant: int, tag: int
    ) -> None:
        is_held = session.rows.get(page) == grant and self.holder[page] == client
        if self.limits.keep_write and is_held and self.tag[page] == tag:
            self.holder[page] = None

    def again(self) -> None:
        for page, queue in enumerate(self.queues):
            if queue and queue[0].grant is not None:
                self.call_back(page, queue[0].client, again=True)
            elif queue and self.limits.keep_write:
                self.downgrade(page, queue[0].client, again=True)
        for client, session in enumerate(self.sessions):
            if session.is_doomed:
                self.send(client, "AbortNow", session.txn)

    def flush(self, number: int) -> str:
        if not self.flushed < number <= self.last:
            return "none"
        for it in self.commits:
            if self.flushed < it.number <= number:
                self.sent.append(Message("Done", it.client, it.incarnation, (it.txn, it.number)))
        self.flushed = number
        return f"flushed {number}"


def shown(byte: int) -> str:
    return f"bytes all {byte:02x}"


class World:
    """A server, its clients and every packet that was sent, over all lives of the server."""

    def __init__(self, limits: Limits) -> None:
        self.limits = limits
        self.server = Server(limits, 0, [(0, 0)] * limits.pages, 0)
        self.clients = [Client(limits) for _ in range(limits.clients)]
        self.incarnations = [1] * limits.clients
        self.packets: list[Message] = []
        self.former: list[Commit] = []
        self.done: dict[tuple, list[tuple]] = {}  # of each transaction what it read and wrote
        self.places = 0

    def play(self, line: str) -> str:
        """What is printed of a line of a schedule."""
        word, *rest = line.split()
        first = len(self.packets)
        said = getattr(self, f"do_{word}")(*rest)
        self.places += 1
        new = enumerate(self.packets[first:], first)
        return f"{self.places} {said}" + "".join(f" {n}:{it.kind}:{it.client}" for n, it in new)

    def collect(self, number: int) -> None:
        """What a client and the server said becomes packets."""
        client = self.clients[number]
        for kind, body in client.said:
            self.packets.append(Message(kind, number, self.incarnations[number], body))
        self.packets += self.server.sent
        client.said, self.server.sent = [], []

    def call(self, name: str, client: str, *numbers: str) -> str:
        at = int(client)
        said = getattr(self.clients[at], name)(*map(int, numbers))
        is_read = name == "read" and said.startswith("bytes")
        if is_read or (name == "write" and said == "ok"):
            page = int(numbers[0])
            step = (name, page, self.clients[at].content[page])
            key = (at, self.incarnations[at], self.clients[at].txn)
            self.done.setdefault(key, []).append(step)
        self.collect(at)
        return said

    def __getattr__(self, name: str):
        """The calls of a client."""
        if not name.startswith("do_"):
            raise AttributeError(name)
        return lambda *words: self.call(name.removeprefix("do_"), *words)

    def do_restart(self, client: str) -> str:
        at = int(client)
        self.clients[at] = Client(self.limits)
        self.incarnations[at] += 1
        return "ok"

    def do_again(self, who: str) -> str:
        if who != "server":
            return self.call("again", who)
        self.server.again()
        self.collect(0)
        return "ok"

    def do_flush(self, number: str = "") -> str:
        said = self.server.flush(int(number) if number else self.server.last)
        self.collect(0)
        return said

    def do_take(self, number: str) -> str:
        if int(number) >= len(self.packets):
            return "nopacket"
        message = self.packets[int(number)]
        at = message.client
        if message.kind in TO_SERVER:
            self.server.take(message)
        elif message.incarnation == self.incarnations[at]:
            self.clients[at].take(message)
        self.collect(at)
        return "taken"

    def do_life(self, floor: str, number: str) -> str:
        """The server restarts, if the floor is a new one and the disk may have so many commits."""
        server, floor, number = self.server, int(floor), int(number)
        if floor <= max([server.floor, *(it.current for it in server.sessions)]):
            return "refused 1 Floor"
        if not server.flushed <= number <= server.last:
            return "refused 2 Number"
        kept = [it for it in server.commits if it.number <= number]
        store = server.opening
        for it in kept:
            for page, _, byte in it.writes:
                store[page] = (it.number, byte)
        self.former += kept
        self.server = Server(self.limits, floor, store, number)
        return "restarted"

    def is_serial(self) -> bool:
        """Whether the commits that count read what they would have, one by one."""
        store = [0] * self.limits.pages
        for it in self.former + self.server.commits:
            for name, page, byte in self.done.get((it.client, it.incarnation, it.txn), []):
                if name == "write":
                    store[page] = byte
                elif store[page] != byte:
                    return False
        return True

    def last_lines(self) -> list[str]:
        count = len(self.former) + len(self.server.commits)
        return [f"commits {count}", f"serial: {'yes' if self.is_serial() else 'no'}"]


def events_of(schedule: str) -> list[str]:
    """The lines of a schedule that are events."""
    lines = (line.strip() for line in schedule.split("\n"))
    return [line for line in lines if line and not line.startswith("#")]


def limits_of(config: str) -> Limits:
    """The limits that a configuration tells, of lines KEY = NUMBER."""
    pairs = (line.partition("=") for line in config.splitlines() if "=" in line)
    return Limits(**{key.strip(): int(value) for key, _, value in pairs})


def played(config: str, schedule: str) -> str:
    """What is printed of a schedule without a fault."""
    world = World(limits_of(config))
    lines = [world.play(line) for line in events_of(schedule)]
    return "\n".join([*lines, *world.last_lines()]) + "\n"
