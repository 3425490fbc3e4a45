"""Measures how long a frame takes to be encoded and decoded, beside a plain copy of as many bytes.

    scripts/bench frames

A Granted of one page of 4,096 and of 65,536 bytes, and a frame without page bytes, three rounds of
each.

It needs the program of scripts/programs/frames_speed, which is built first unless PROGRAM names a
built one. The run itself takes a few seconds.
"""
import subprocess

import building

LIBRARIES = ["cb_page", "cb_frame", "anyhow"]


def main(_words):
    with building.a_room() as room:
        program = building.program("frames_speed", LIBRARIES, [], room)
        return subprocess.run([program], check=False).returncode
