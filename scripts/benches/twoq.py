"""Measures references a second of both forms of 2Q, on the same drawn references.

    scripts/bench twoq

A trace of 1,000,000 references to 4,096 pages, of which the low ones are drawn most, over 64 and
1,024 slots: the indexed form (\`TwoQ\`) and the plain one (\`PlainTwoQ\`), in one run. Each run has
the same trace.

It needs the program of scripts/programs/twoq_speed, which is built first unless PROGRAM names a
built one. The run itself takes a few seconds.
"""
import subprocess

import building

LIBRARIES = ["cb_page", "cb_twoq", "anyhow"]


def main(_words):
    with building.a_room() as room:
        program = building.program("twoq_speed", LIBRARIES, [], room)
        return subprocess.run([program], check=False).returncode
