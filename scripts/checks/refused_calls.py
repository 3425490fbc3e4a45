"""Refuses each growth of lists that are played to one side alone: `check refused calls`."""
import gzip
from collections import Counter
from pathlib import Path
from tempfile import NamedTemporaryFile

import building
from checks.refusing import Refusing, several

TO_SERVER = "Hello AskRead AskWrite GiveBack InUse Commit Drop Downgraded".split()
TO_CLIENT = "Welcome Granted MayWrite Callback Done AbortNow Downgrade".split()
KINDS = {**dict(enumerate(TO_SERVER, 1)), **dict(enumerate(TO_CLIENT, 65))}
# How a list ends where the program was refused memory for itself.
OWN_END = (4, ["memory"])
# What came of a refused growth.
WITHIN, PROGRAM_S, OTHER = "within the side", "the program's own", "ANOTHER END"


def played(programs, lines, refused=0):
    """What comes of a list where that growth is refused."""
    with NamedTemporaryFile("w", suffix=".list") as it:
        it.write("\n".join(lines) + "\n")
        it.flush()
        return programs.run("sides", it.name, refused=refused)


def lists_of(paths):
    """Each list of the files, as its lines."""
    for path in paths:
        text = gzip.open(path, "rt").read() if path.endswith(".gz") else Path(path).read_text()
        one = []
        for line in text.splitlines():
            if line.startswith(("client ", "server ")):
                if one:
                    yield one
                one = [line]
            elif one:
                one.append(line)
        yield one


def kind_of(side, line):
    """What a line does: a call by its name, a frame by its kind; None where it does nothing."""
    words = line.split()
    if not words or words[0] in ("<", "!", "commit"):
        return None
    if words[0] != ">":
        return f"{side}: flushed" if words[0] == "cannot" else f"{side}: {words[0]}"
    kind = int(words[1][2:4] or "0", 16) if len(words) > 1 else 0
    return f"{side}: takes {KINDS.get(kind, 'bytes of no kind')}"


def unread(line):
    """A line of the same length that does nothing."""
    return "< "[: len(line)] + "." * (len(line) - 2)


def owners(programs, lines, pool):
    """What each growth belongs to, from the side's making on; and how many there are before it."""
    side = lines[0].split()[0]
    does = [kind_of(side, line) for line in lines[1:]]
    without = [unread(line) for line in lines[1:]]
    places = [at for at, kind in enumerate(does) if kind]

    def growths(at):
        return played(programs, [*lines[: at + 1], *without[at:]]).growths

    counts = list(pool.map(growths, [*places, len(does)]))
    unmade = played(programs, [unread(lines[0]), *without]).growths
    belongs = dict.fromkeys(range(unmade + 1, counts[0] + 1), f"{side}: new")
    for place, first, end in zip(places, counts, counts[1:]):
        belongs.update(dict.fromkeys(range(first + 1, end + 1), does[place]))
    return unmade, belongs


def ends(programs, lines, usual, refused):
    """What came of it that this growth was refused."""
    came = played(programs, lines, refused)
    if (came.how, came.output) == (usual.how, usual.output):
        return WITHIN if came.growths > usual.growths else OTHER
    return PROGRAM_S if came.how == OWN_END and usual.output.startswith(came.output) else OTHER


def told(came, bad):
    """Prints what came of each kind of call; the status."""
    print("what was played: growths refused; within the side, the program's own, another end")
    for kind in sorted({kind for kind, _ in came}):
        parts = [came[kind, end] for end in (WITHIN, PROGRAM_S, OTHER)]
        print(f"{kind}: {sum(parts)}; {parts[0]}, {parts[1]}, {parts[2]}")
    total = [sum(came[key] for key in came if key[1] == end) for end in (WITHIN, PROGRAM_S, OTHER)]
    print(f"all: {sum(total)}; {total[0]}, {total[1]}, {total[2]}")
    for line in bad:
        print(f"ended in another way: {line}")
    return 1 if bad else 0


def refused_lists(programs, paths):
    """Plays each list with each of its growths refused; the status."""
    came, bad = Counter(), []
    with several() as pool:
        for number, lines in enumerate(lists_of(paths), 1):
            usual = played(programs, lines)
            first, belongs = owners(programs, lines, pool)
            if usual.status != 0 or max(belongs, default=first) != usual.growths:
                print(f"list {number}: it isn't played as it stands")
                return 1
            ended = pool.map(lambda it: (it, ends(programs, lines, usual, it)), belongs)
            for growth, end in ended:
                came[belongs[growth], end] += 1
                if end == OTHER:
                    bad.append(f"list {number}, growth {growth}: {belongs[growth]}")
            count = f"{len(belongs)} growths from the one on in which the side is made"
            print(f"list {number}: {len(lines)} lines, {count}", flush=True)
    return told(came, bad)


def main(paths):
    data = building.TOP / "crates/cb_play/data"
    # (The one list left out has lines that are refused as they are read.)
    lists = [str(it) for it in sorted(data.glob("*.list")) if it.name != "digits_wrong.list"]
    with building.a_room() as room:
        return refused_lists(Refusing(building.play(), room), paths or lists)
