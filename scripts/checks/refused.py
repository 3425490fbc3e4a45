"""Refuses growths of memory, one after another, and looks at what the calls answer.

    scripts/check refused calls [FILE..]   lists of frames and calls to one side alone, or those of
                                           the gate
    scripts/check refused plays [NAME..]   plays of NAME.toml and NAME.schedule, or of two of
                                           cb_play's, and a draw
    scripts/check refused shelf            a shelf over a new file, and over one with older tables
    scripts/check refused station          all calls of a station
    scripts/check refused run              a run of two clients, and each thread that it makes
    scripts/check refused growths          tests that accept want of memory

Each begins the program anew for each growth that it makes, and refuses that one.

- calls: a call that answers Memory is made once more, and then the same must be printed as with
  none refused. For each kind of call it says how many growths there were, how many were refused
  within the client or the server (the program ended as always, with the same output, and asked for
  more memory than else), how many to the program itself (in reading the line or printing the
  answer: it ended with its own status for want of memory), and how many ended in another way. The
  growths of a line are those that the list has with it and hasn't without it; those of the opening
  line are of the side's `new`. A FILE is a list as docs/FORMATS.md says, packed by gzip where its
  name ends in .gz. JOBS is how many runs there are at once (2).
- plays: the program prints the lines so far and ends with `memory` and status 4; what it printed is
  then whole lines of the same output.
- shelf: a call that is refused answers Memory and leaves the tables as they were (a flush that
  can't report has written its batch, and holds it); called again it answers as if nothing had been
  refused.
- station: a call that answers Memory has changed nothing, and made once more it answers as at a
  station where nothing was refused. The test is in scripts/programs/station_growths. It isn't in
  the gate, where no growth can be refused, and where its proof would take minutes. The last line
  counts the runs.
- run: a test of cb_tests over disks in memory, with two clients of two jobs each. However a run
  with one refused growth ends, all threads end, every ticket is back, and the disk has at least
  what was answered as done; it says how many ended as done, how many by want of memory, how many
  since the test's own disk was refused it and the run stopped, and how many were refused outside
  the run. Where a thread can't be made it ends by want of memory; else no growth is looked at. A
  worker, `work` and the flusher take memory there as their threads come to it, so that the growth
  of a number isn't the same in each run. JOBS is how many runs there are at once (2).
- growths: six tests of cb_layer_tests, each of which passes whichever growth is refused. The others
  want memory, and fail in such a run. JOBS is how many runs there are at once (2).

They need a C compiler, `cb_play` (calls, plays), the tests that the gate or `rt test` built (run,
growths), and their own programs, which are built first; PROGRAM names a built one for each. Of
`shelf` the build takes 12 processor minutes over libraries that are checked already. The status is
1 where a call ended in another way.
"""
import importlib

import building

KINDS = ["calls", "plays", "shelf", "station", "run", "growths"]


def main(words):
    kind, *rest = words or [""]
    if kind not in KINDS:
        raise building.WrongWords(f"scripts/check refused ({'|'.join(KINDS)})")
    return importlib.import_module(f"checks.refused_{kind}").main(rest)
