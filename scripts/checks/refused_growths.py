"""Runs tests that accept want of memory, each growth refused in turn: `check refused growths`."""
import building
from checks.refusing import Refusing, several

TESTS = [
    "frame::refused::pages_with_growths_refused",
    "frame::refused::frames_with_growths_refused",
    "pool::twoq::refused_growths_change_nothing",
    "pool::calls::calls_of_a_pool",
    "event::refused::schedule_without_memory",
    "console::plays::play_without_memory",
]


def refused_in_turn(programs, test):
    """Refuses each growth of a test; whether it failed with one."""
    growths = programs.run(test).growths
    with several() as pool:
        ended = list(pool.map(lambda it: programs.run(test, refused=it), range(growths + 1)))
    failed = [it for it, came in enumerate(ended) if came.status]
    print(f"{test}: {growths} growths refused, {len(failed)} failed {failed[:5]}", flush=True)
    return bool(failed) or not growths


def main(_words):
    tests = building.TOP / "crates/cb_layer_tests/out/cb_layer_tests_tests"
    program = building.named("PROGRAM") or building.built(tests, "")
    with building.a_room() as room:
        programs = Refusing(program, room)
        return int(any([refused_in_turn(programs, it) for it in TESTS]))
