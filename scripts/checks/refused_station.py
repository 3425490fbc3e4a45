"""Plays all calls of a station, each growth refused in turn: `check refused station`."""
import shutil

import building
from checks.refusing import Refusing

CRATES = [
    "cb_page", "cb_frame", "cb_commit", "cb_hands", "cb_shelf", "cb_station", "cb_test_parts",
    "sqlite", "sqlite_disk",
]
TEST = "office::growths::refused_growths"
ROOT = """//! Refused growths.
#![tactic(auto)]

#[cfg(test)]
use cb_test_parts::stores;
#[cfg(test)]
mod office;
"""


def built_tests(room):
    """The test, beside the frames of cb_tests, in copies of the crates below."""
    crate = building.new_crate(building.copy_of(CRATES, room), "station_growths", CRATES)
    source, tests = crate / "src", building.TOP / "crates/cb_tests/src"
    (source / "office").mkdir()
    shutil.move(source / "growths.rt", source / "office")
    for part in ("batches", "frames"):
        shutil.copy(tests / f"office/{part}.rt", source / "office")
    (source / "office.rt").write_text(
        "//! Batches, frames and growths.\nmod batches;\nmod frames;\nmod growths;\n"
    )
    (source / "lib.rt").write_text(ROOT)
    if below := building.named("BELOW"):
        return building.linked(crate, CRATES, below, "--test")
    said = building.ran_by_rt(crate, [], "test")
    return building.built(crate / "out/station_growths_tests", said)


def refused_in_turn(room):
    """Builds the test, unless PROGRAM names it, and runs it for each growth; the status."""
    test = Refusing(building.named("PROGRAM") or built_tests(room), room)
    growths, failed = test.run(TEST).growths, 0
    for refused in range(growths + 1):
        if test.run(TEST, refused=refused).status:
            print(f"growth {refused} refused: FAILED", flush=True)
            failed += 1
    print(f"growths {growths}, runs {growths + 1}, failed {failed}")
    return int(growths == 0 or failed > 0)


def main(_words):
    with building.a_room() as room:
        return refused_in_turn(room)
