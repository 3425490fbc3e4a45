"""Configurations, for `scripts/check serve`: `cb_play serve` and `rughvadi-serve` take and refuse
the same, by the same lines; but of TOML that is no `KEY = NUMBER` the second says `config: text`.
"""
from __future__ import annotations

import itertools
import subprocess
import tempfile
from pathlib import Path

from checks.trying import ran

LEAST = {"clients": 1, "pages": 1, "page_size": 16, "slots": 2}
# The least and the greatest of each key; for kin with the usual slots.
RANGES = {
    "clients": (1, 32), "pages": (1, 4096), "page_size": (16, 65536), "slots": (2, 1024),
    "kin": (1, 3), "kout": (1, 4096), "jobs": (0, 100000), "keep_write": (0, 1), "lives": (0, 1),
}
USUAL = {"clients": 3, "pages": 4, "page_size": 64, "slots": 4}
MOST = (1 << 62) - 1  # the greatest whole number
# What a server says of these, to which nobody says anything: its status, output and line.
TAKEN, NO_TEXT = (0, b"", b""), (2, b"", b"config: text\n")
# The first and last characters of 1 to 4 bytes in UTF-8, and bytes that a remark can't have.
CHARACTERS = [
    " ", "~", "\xc2\x80", "\xdf\xbf", "\xe0\xa0\x80", "\xed\x9f\xbf", "\xee\x80\x80",
    "\xef\xbf\xbf", "\xf0\x90\x80\x80", "\xf4\x8f\xbf\xbf",
]
OUTSIDE = ["\x01", "\x1f", "\x7f", "\x80", "\xbf", "\xc1\xbf", "\xc3", "\xc3\xc3",
           "\xe0\x9f\xbf", "\xed\xa0\x80", "\xed\xbf\xbf", "\xf0\x8f\xbf\xbf",
           "\xf4\x90\x80\x80", "\xf8\x80\x80\x80", "\xff", "1\r2"]


def text_of(numbers: dict[str, object]) -> str:
    return "".join(f"{key} = {number}\n" for key, number in numbers.items())


def with_numbers(**numbers: object) -> str:
    return text_of({**USUAL, **numbers})


def spelled() -> list[str]:
    """The usual one in other words."""
    lines = text_of(USUAL).splitlines()
    return [
        "\n".join(lines), "\n\n".join(lines) + "\n\n", "\r\n".join([*lines, ""]),
        "\n".join(reversed(lines)), "\n".join(f"\t {line}\t " for line in lines),
        "\n".join(line.replace(" ", "") for line in lines), "\n".join(f"{it} # 5" for it in lines),
        "# clients = 5\n \t\n" + "\n".join(f"{it}# {it}" for it in lines) + "\n#",
        *(f"# \t{it}\n\r\n{text_of(USUAL)}" for it in CHARACTERS),
    ]


def at_bounds() -> list[str]:
    """Each key at its bounds and one step outside, at the greatest numbers, and gone."""
    found = [text_of(LEAST)]
    for key, (least, most) in RANGES.items():
        step = 16 if key == "page_size" else 1
        for number in (least, most, most + step, least - step, MOST, MOST + 1, (1 << 63) - 1):
            if number >= 0:
                found.append(with_numbers(**{key: number}))
    found += [text_of({key: USUAL[key] for key in USUAL if key != gone}) for gone in USUAL]
    return [*found, with_numbers(page_size=24), "", text_of({"kin": 1})]


def wrong_twice() -> list[str]:
    """Two things that are wrong, of which one is said."""
    wrong = {"clients": 0, "pages": 4097, "page_size": 17, "slots": 1, "kin": 0, "kout": 0,
             "jobs": 100001, "keep_write": 2, "lives": 2}
    pairs = itertools.combinations(wrong, 2)
    found = [with_numbers(**{key: wrong[key] for key in pair}) for pair in pairs]
    found += [with_numbers(slots=MOST + 1, kout=MOST + 1), with_numbers(clients=33, pages=MOST + 1)]
    found += [with_numbers(z=1, b=1), with_numbers(z=1, b=1, clients=0), with_numbers(a_9=1, A=1)]
    return [*found, text_of({"clients": 3, "x": 1}), text_of({"clients": MOST + 1})]


def no_toml() -> list[str]:
    """Texts that are no TOML, after what would be one, and before."""
    wrong = ["clients = 3", "kin", "kin =", "= 1", "kin = 01", "kin = 1 1", "kin = 1x", "kin == 1",
             "kin = 1,", "kin 1", "k n = 1", "kin = -", "kin = 1\0", "\0", "kin = \xb2", "?", "[",
             "?a = 1", "\xc3\xa4 = 1", f"kin = {1 << 63}", f"kin = {1 << 64}", f"kin = {10 ** 30}",
             "kin = 1\r\t", "\r\r", "\f", *(f"kin = 1 # {it}" for it in OUTSIDE)]
    texts = [text_of(USUAL) + it for it in wrong]
    texts += [f"{it}\n{text_of(USUAL)}" for it in wrong]
    return [*texts, "clients = 3 pages = 4", f"{text_of(USUAL)}kin = 1\r"]


# What is TOML, and no KEY = NUMBER.
OTHER = [
    "kin = 1_0", "kin = 0x1", "kin = 0o1", "kin = 0b1", "kin = +1", "kin = -1", "kin = 1.0",
    "kin = 1e0", "kin = true", "kin = '1'", "kin = [1]", "kin = {a = 1}", "'kin' = 1",
    '"kin" = 1', "kin.a = 1", "[kin]", "[[kin]]", "kin = 2026-12-01", "kin = nan",
]


def ended(words: tuple, config: Path, store: Path) -> tuple[int, bytes, bytes]:
    """How a server ends to which nobody says anything."""
    done = ran(*words, config, store, stdin=subprocess.DEVNULL, timeout=120)
    return done.returncode, done.stdout, done.stderr


def answer(room: Path, words: tuple, text: str) -> tuple[int, bytes, bytes]:
    """How it ends with this configuration, of which each character is a byte."""
    with tempfile.TemporaryDirectory(dir=room) as folder:
        config = Path(folder) / "config"
        config.write_bytes(text.encode("latin-1"))
        return ended(words, config, Path(folder) / "store.db")


def differ(room: Path, play: Path, serve: Path, texts: list[str], wanted: tuple | None) -> str:
    """The first texts to which the two say other things, or not what is wanted."""
    found = []
    for text in texts:
        one, other = answer(room, (play, "serve"), text), answer(room, (serve,), text)
        if one != other or one != (wanted or one):
            found.append(f"{text!r}: {one}, {other}")
    return "\n".join(found[:5])


def other_toml(room: Path, play: Path, serve: Path) -> str:
    """The first texts of other TOML that `cb_play serve` says to be none, or `rughvadi-serve`
    doesn't."""
    found = []
    for it in OTHER:
        one = answer(room, (play, "serve"), text_of(USUAL) + it)
        other = answer(room, (serve,), text_of(USUAL) + it)
        if one == NO_TEXT or other != NO_TEXT:
            found.append(f"{it!r}: {one}, {other}")
    return "\n".join(found[:5])


def unreadable(room: Path, play: Path, serve: Path) -> str:
    """What the two say of a folder, and of what isn't there."""
    found = []
    for config in (room, room / "missing"):
        wanted = (2, b"", f"cannot read {config}\n".encode())
        both = [ended(words, config, room / "store.db") for words in ((play, "serve"), (serve,))]
        if both != [wanted, wanted]:
            found.append(f"{config}: {both}")
    return "\n".join(found)


def tried(tries, room: Path, play: Path, serve: Path) -> None:
    """Compares the two servers."""
    room.mkdir(mode=0o755)
    wanted = {spelled: TAKEN, at_bounds: None, wrong_twice: None, no_toml: NO_TEXT}
    for make, answered in wanted.items():
        texts = make()
        why = differ(room, play, serve, texts, answered)
        tries.told(f"{len(texts)} configurations: {make.__name__.replace('_', ' ')}", not why, why)
    why = unreadable(room, play, serve)
    tries.told("configurations: unreadable", not why, why)
    why = other_toml(room, play, serve)
    tries.told(f"{len(OTHER)} configurations: other TOML", not why, why)
