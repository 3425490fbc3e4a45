"""Plays schedules, and draws one, with each growth refused in turn: `check refused plays`."""
from pathlib import Path

import building
from checks.refusing import Refusing


def is_right(plain, came):
    """Whether a run in which one growth was refused ended as it may."""
    if came.how == (0, []):
        return came.output == plain
    is_part = plain.startswith(came.output) and came.output != plain
    is_part = is_part and (came.output == "" or came.output.endswith("\n"))
    return came.how == (4, ["memory"]) and is_part


def refused_in_turn(programs, name, words):
    """Refuses each growth of a command; whether one ended in another way."""
    plain = programs.run(*words)
    wrong = [] if plain.how == (0, []) else [0]
    ended = 0
    for refused in range(1, plain.growths + 1):
        came = programs.run(*words, refused=refused)
        ended += came.status == 4
        if not is_right(plain.output, came):
            wrong.append(refused)
    print(f"{Path(name).name}: {plain.growths} growths refused, {ended} ended by memory,", end=" ")
    print(f"{len(wrong)} wrong {wrong[:5]}", flush=True)
    return bool(wrong)


def main(names):
    data = building.TOP / "crates/cb_play/data"
    names = names or [f"{data}/short_00", f"{data}/short_kept_03"]
    commands = {name: ["play", f"{name}.toml", f"{name}.schedule"] for name in names}
    commands["draw"] = ["draw", f"{names[0]}.toml", "--seed", "1", "--events", "200"]
    with building.a_room() as room:
        programs = Refusing(building.play(), room)
        return int(any([refused_in_turn(programs, *it) for it in commands.items()]))
