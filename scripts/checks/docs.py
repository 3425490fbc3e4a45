"""Compares documents with the files that they speak of.

    scripts/check docs

- The examples that crates show in the doc comment of src/lib.rt, between lines of three backticks:
  each line is one of the test that compiles and runs it, in the same order.
- Each program that a page shows under a remark with a file's name is that file, byte for byte;
  under a remark that begins with `part of`, it is a part of the file. EMBEDDING, README and
  TUTORIAL show some.
- The map, docs/MAP.md: the groups of crates.txt, each with its crates, in the same order; each file
  that it names of a crate is one of its sources; and each crate stands only on crates above it.
- scripts/contracts runs, and prints a part of each crate of crates.txt, but of cb_tests.
- The pictures of docs/charts are what the stored run of `cb_play` prints, byte for byte.
- Links: each link of README and of docs leads to a file of the repository, and to one of its
  headings where it names one.
- README names no folder or file of the repository that isn't there, and no page names a word of
  scripts/check or scripts/bench that there isn't.
- No line of a source, a spec, a script, a host or a page has more than 100 columns. Attributes and
  imports, which the formatter joins, may be longer, and so may edits, data and rows of tables.
- Each edit of the gate and each wrong body can be applied: its old texts stand exactly once in
  their files. None stands in a crate twice.

It needs nothing, and takes some two seconds. The status is 1 where something doesn't hold.
"""
import pathlib
import re
import subprocess

from building import TOP
from bodies import edits
from words import WORDS

# The crates that show an example, and where the test of each stands.
EXAMPLES = {
    "cb_office": "cb_tests/src/example.rt",
    "cb_schedule": "cb_layer_tests/src/example.rt",
}
# The pages that show programs of the repository.
PROGRAMS = ["README.md", "docs/EMBEDDING.md", "docs/TUTORIAL.md"]


def shown(page: str, fence: str) -> list[str]:
    """The lines of a page that stand in blocks which begin so."""
    lines, is_inside = [], False
    for line in page.splitlines():
        text = line.strip()
        if is_inside and text.startswith("```"):
            is_inside = False
        elif is_inside:
            lines.append(text)
        elif text.startswith(fence):
            is_inside = True
    return lines


def first_page(crate: str) -> str:
    """The first page of a crate."""
    lines = (TOP / "crates" / crate / "src/lib.rt").read_text().splitlines()
    return "\n".join(line.removeprefix("//!") for line in lines if line.startswith("//!"))


def untested(crate: str, lines: list[str]) -> list[str]:
    """The lines shown that the crate's test doesn't have, or not in that order."""
    test = TOP / "crates" / EXAMPLES[crate]
    # Looking for a line uses up those before it.
    tested = iter([line.strip() for line in test.read_text().splitlines()])
    if not lines:
        return ["no example is shown"]
    return [f"not in its test: {line}" for line in lines if line not in tested]


def other_programs(page: pathlib.Path) -> list[str]:
    """The programs of a page that aren't the file named above them, or a part of it."""
    shows = re.compile(r"^<!-- (part of )?(\S+) -->\n```\w*\n(.*?)^```$", re.MULTILINE | re.DOTALL)
    programs = shows.findall(page.read_text())
    if not programs:
        return [f"{page.name}: no program is shown"]
    wrong = []
    for part, name, text in programs:
        file = (TOP / name).read_text()
        if text not in file if part else text != file:
            wrong.append(f"{page.name}: {name} is another")
    return wrong


def groups() -> list[tuple[str, dict[str, list[str]]]]:
    """Each group of crates.txt, with its crates and the libraries that each stands on."""
    found = []
    for line in (TOP / "crates.txt").read_text().splitlines():
        if group := re.fullmatch(r"# (\w+): .*", line):
            found.append((group[1], {}))
        elif crate := re.fullmatch(r"(\w+)\b[^:]*:(.*)", line.partition("#")[0]):
            found[-1][1][crate[1]] = crate[2].split()
    return found


def mapped() -> list[tuple[str, dict[str, str]]]:
    """Each group of the map, with its crates and what is said of each."""
    text = (TOP / "docs/MAP.md").read_text().partition("\n## ")[0]
    found = []
    for line in text.splitlines():
        if row := re.match(r"\| (?:(\w+) )?\| `(\w+)` \| (.*)", line):
            if row[1]:
                found.append((row[1], {}))
            found[-1][1][row[2]] = row[3]
    return found


def lost_sources() -> list[str]:
    """Files that the map names of a crate which hasn't got them."""
    wrong = []
    for crate, said in [it for _, crates in mapped() for it in crates.items()]:
        sources = {path.name for path in (TOP / "crates" / crate / "src").rglob("*.rt")}
        named = re.findall(r"`(?:\w+/)*(\w+\.rt)`", said)
        wrong += [f"MAP.md: no {it} in {crate}" for it in named if it not in sources]
    return wrong


def other_pictures() -> list[str]:
    """Pictures of docs/charts that aren't what the stored run of cb_play prints."""
    printed = (TOP / "crates/cb_play/stdout").read_text()
    begins = [it.end() for it in re.finditer(r"^chart .*\n", printed, re.MULTILINE)]
    pictures = sorted((TOP / "docs/charts").glob("*.svg"))
    wrong = []
    for picture in pictures:
        text = picture.read_text()
        if not any(printed.startswith(text, at) for at in begins):
            wrong.append(f"docs/charts: {picture.name} is another")
    return wrong


def misplaced() -> list[str]:
    """Crates that stand on one that isn't above them."""
    above, wrong = set(), []
    listed = {name for _, crates in groups() for name in crates}
    for _, crates in groups():
        for name, libraries in crates.items():
            below = [it for it in libraries if it in listed - above]
            wrong += [f"{name} stands on {it}, which isn't above it" for it in below]
            above.add(name)
    return wrong


def anchors(page: pathlib.Path) -> set[str]:
    """The anchors of a page's headings."""
    headings = re.findall(r"^#+ (.*)$", page.read_text(), re.MULTILINE)
    return {re.sub(r"[^\w -]", "", it.lower()).replace(" ", "-") for it in headings}


def lost_anchors(page: pathlib.Path) -> list[str]:
    """Links of a page to a heading that the other page hasn't got."""
    links = re.findall(r"\]\(([^)#\s:]*\.md)?#([^)\s]*)\)", page.read_text())
    others = [(page.parent / name if name else page, anchor) for name, anchor in links]
    return [
        f"{other.name}#{anchor}"
        for other, anchor in others
        if other.exists() and anchor not in anchors(other)
    ]


def lost_links() -> list[str]:
    """Links that lead nowhere, paths in README and words of the two tools that aren't there."""
    wrong = []
    for page in [TOP / "README.md", *sorted(TOP.glob("docs/*.md"))]:
        links = re.findall(r"\]\(([^)#\s]+)(?:#[^)]*)?\)", page.read_text())
        lost = [it for it in links if "://" not in it and not (page.parent / it).exists()]
        wrong += [f"{page.name}: no {it}" for it in lost]
        wrong += [f"{page.name}: no {it}" for it in lost_anchors(page)]
        for tool, there in WORDS.items():
            said = set(re.findall(rf"scripts/{tool}\s+([a-z]+)", page.read_text()))
            wrong += [f"{page.name}: no scripts/{tool} {it}" for it in sorted(said - {*there})]
    named = re.findall(r"`((?:crates|docs|scripts)/[\w./]*)", (TOP / "README.md").read_text())
    wrong += [f"README.md: no {it}" for it in named if "NAME" not in it and not (TOP / it).exists()]
    return wrong


def unprinted() -> list[str]:
    """Crates of which scripts/contracts prints no part."""
    words = [TOP / "scripts/contracts"]
    ran = subprocess.run(words, capture_output=True, text=True, check=False)
    if ran.returncode:
        return [f"scripts/contracts ends with status {ran.returncode}"]
    printed = set(re.findall(r"^### (\w+)$", ran.stdout, re.MULTILINE)) | {"cb_tests"}
    listed = [name for _, crates in groups() for name in crates]
    return [f"scripts/contracts: no {name}" for name in listed if name not in printed]


def bad_edits() -> list[str]:
    """What is wrong with edits of the gate, and with wrong bodies."""
    named = {path.parent.parent.name for path in TOP.glob("crates/*/must-fail/*.edit")}
    each = sorted(named.union(edits.crates()))
    return [f"{name}: {fault}" for name in each for fault in edits.faults(name)]


# Where lines may be as long as they are.
LONG_PATHS = re.compile(
    r"(^|/)(proofs|data|must-fail|wrong_bodies|charts)/|(^|/)(stdin|stdout|crates\.txt)$"
)
LONG_LINES = re.compile(r"\s*(#\[|(ghost |pub )*use |\|)")


def wide_lines() -> list[str]:
    """Lines that have more than 100 columns, and may not."""
    words = ["git", "-C", str(TOP), "ls-files", "--cached", "--others", "--exclude-standard"]
    listed = subprocess.run(words, capture_output=True, text=True, check=True).stdout.splitlines()
    paths = [TOP / it for it in listed if not LONG_PATHS.search(it)]
    texts = {path: path.read_text() for path in paths if path.exists()}
    lines = [(path, line) for path, text in texts.items() for line in text.splitlines()]
    wide = [it for it in lines if len(it[1]) > 100 and not LONG_LINES.match(it[1])]
    return [f"{path.relative_to(TOP)}: {len(line)} columns: {line.strip()}" for path, line in wide]


def main(_words: list[str]) -> int:
    wrong = []
    for crate in EXAMPLES:
        lines = shown(first_page(crate), "```")
        wrong += [f"{crate}: {what}" for what in untested(crate, lines)]
    for name in PROGRAMS:
        wrong += other_programs(TOP / name)
    wrong += misplaced() + lost_links() + lost_sources() + other_pictures()
    wrong += bad_edits() + unprinted() + wide_lines()
    drawn = [(group, list(crates)) for group, crates in mapped()]
    if drawn != [(group, list(crates)) for group, crates in groups()]:
        wrong.append("the map isn't that of crates.txt")
    for what in wrong:
        print(what)
    print(f"{len(EXAMPLES)} examples, the map, the links and the edits: {len(wrong)} wrong")
    return 1 if wrong else 0

