"""Where the functions of a source file lie, read off its lines as the formatter leaves them."""
import re
from collections import defaultdict
from dataclasses import dataclass
from functools import cache
from pathlib import PurePath

from building import TOP

HEAD = re.compile(
    r"^( *)(?:pub(?:\([a-z]+\))? )?(?:const |final |unsafe |extern \"C\" )*fn (\w+)"
)
# What a function can lie in; of an impl, the type whose own it is.
AROUND = re.compile(r"^( *)(?:pub |unsafe )*(impl|trait|mod|macro_rules!)\b(.*\{)$")
# A type, whose functions have its module's path, wherever they stand.
TYPE = re.compile(r"^(?:pub(?:\([a-z]+\))? )?(?:struct|enum) (\w+)", re.M)
OWN = re.compile(r"(?:<[^{}]*?>)? *(\w+)[^{}]*$")


@dataclass(frozen=True)
class Function:
    """A function: its path below the crate, or none where it can't stand under another name, and
    the numbers of its first line (an attribute's, if it has some), its head's and its last."""

    name: str
    path: tuple[str, ...] | None
    first: int
    head: int
    last: int


def module_of(file: str) -> list[str]:
    """The module of a file of src/."""
    parts = list(PurePath(file).with_suffix("").parts[1:])
    return parts[:-1] if parts[-1] in ("lib", "main", "mod") else parts


@cache
def homes_of(name: str) -> dict[str, list[list[str]]]:
    """The modules in which a crate declares a type of each name."""
    source, found = TOP / "crates" / name / "src", defaultdict(list)
    for path in sorted(source.rglob("*.rt")):
        module = module_of(str(path.relative_to(source.parent)))
        for it in TYPE.findall(path.read_text()):
            found[it].append(module)
    return found


def owner_of(name: str, module: list[str], around: list[tuple[int, str, str]]) -> list[str] | None:
    """The path of what a function of a module belongs to: the module's at the top of a file, in an
    impl the type's; None in a trait, in a trait's impl, in a module or in a macro, where a name
    can't be another."""
    if not around:
        return module
    _, kind, text = around[-1]
    owner = OWN.match(text.partition("{")[0].strip())
    if len(around) > 1 or kind != "impl" or " for " in text or not owner:
        return None
    homes = homes_of(name)[owner[1]]
    home = module if module in homes else homes[0] if len(homes) == 1 else None
    return None if home is None else [*home, owner[1]]


def last_line(lines: list[str], head: int, indent: str) -> int:
    """The last line of the function whose head is at this line; of one that a trait declares, that
    of its `;`."""
    depth = 0
    for at, line in enumerate(lines[head:], head):
        depth += line.count("{") - line.count("}")
        is_end = line in (indent + "}", indent + "{}") or at == head and line.endswith("}")
        if is_end or line.endswith(";") and not depth:
            return at
    return len(lines) - 1


def functions_of(name: str, file: str, text: str) -> list[Function]:
    """The functions of a crate's file, in order; those within another's body are a part of it."""
    lines, found = text.split("\n"), []
    around: list[tuple[int, str, str]] = []
    for at, line in enumerate(lines):
        indent = len(line) - len(line.lstrip(" "))
        opens, head = AROUND.match(line), HEAD.match(line)
        if opens or line.strip() == "}":
            around = [it for it in around if it[0] < indent]
        if opens:
            around.append((indent, opens[2], opens[3]))
        if head and not (found and at <= found[-1].last):
            first = at
            while first and lines[first - 1].startswith(head[1] + "#["):
                first -= 1
            owner = owner_of(name, module_of(file), around)
            attributes = "\n".join(lines[first:at])
            can_move = owner is not None and "cycle(" not in attributes
            path = (*owner, head[2]) if can_move else None
            found.append(Function(head[2], path, first, at, last_line(lines, at, head[1])))
    return found


def function_of(name: str, file: str, text: str, places: list[int]) -> Function | None:
    """The function in which all these places of a crate's file lie, if one is."""
    numbers = [text.count("\n", 0, place) for place in places]
    found = functions_of(name, file, text)
    return next((it for it in found if all(it.first <= at <= it.last for at in numbers)), None)
