"""Compares stored plays with a model that knows nothing of the code.

    scripts/check model

Every stored play without a fault is as a model of the whole protocol plays it
(scripts/checks/world_model.py). Among them is the one of two clients whose output tells 2Q's bounds
Kin and Kout from others (`two_clients_let_go_by_kin_and_kout`); it has to be there, and other
bounds have to give another output. It needs nothing, and takes a few seconds.
"""
import re

from building import TOP
from checks import world_model

NAME = "two_clients_let_go_by_kin_and_kout"


def stored_plays(crate):
    """The configuration, the schedule and the output of each stored play without a fault."""
    data, stored = crate / "data", crate.joinpath("stdout").read_text()
    for command in data.joinpath("examples.txt").read_text().splitlines():
        if not command.startswith("play ") or f"{command}\n" not in stored:
            continue
        _, _, stored = stored.partition(f"{command}\n")
        output, is_right, _ = stored.partition("status 0\n")
        config, schedule = (data / name for name in (command.split() + ["", ""])[1:3])
        if is_right and "status" not in output and schedule.is_file():
            yield config, schedule, output


def all_played(crate):
    """Whether the model of the protocol plays each of them so."""
    right = []
    for config, schedule, output in stored_plays(crate):
        right.append(world_model.played(config.read_text(), schedule.read_text()) == output)
        if not right[-1]:
            print(f"{schedule.name}: NOT as the model plays it")
    print(f"{sum(right)} of {len(right)} stored plays are as the model plays them")
    return all(right)


def other_bounds(config):
    """The configuration with 2Q's bounds one off, each by itself, up and down."""
    for key, by in ((key, by) for key in ("kin", "kout") for by in (-1, 1)):
        yield re.sub(rf"(?m)^{key} = (\d+)", lambda it: f"{key} = {int(it[1]) + by}", config)


def tells_bounds(crate):
    """Whether the play of 2Q is among those that are stored, and no other bound prints it."""
    stored = {config.stem: (config, schedule) for config, schedule, _ in stored_plays(crate)}
    if NAME not in stored:
        print(f"{NAME}: NOT among the stored plays")
        return False
    config, schedule = (it.read_text() for it in stored[NAME])
    wanted = world_model.played(config, schedule)
    others = [world_model.played(other, schedule) for other in other_bounds(config)]
    is_told = wanted not in others
    print(f"{NAME}: other bounds {'print another' if is_told else 'DO NOT print another'}")
    return is_told


def main(_words):
    crate = TOP / "crates/cb_play"
    right = [all_played(crate), tells_bounds(crate)]
    return 0 if all(right) else 1
