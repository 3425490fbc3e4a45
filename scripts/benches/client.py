"""Measures what the calls of a client cost, beside a look-up in the kit's map.

    scripts/bench client [RUNS]      the least of nine runs

Reads of held pages beside look-ups in the kit's `HashMap` with values of 16 bytes, in the same
program; `want` and `write`; and transactions that are dropped, whose pages are called back
meanwhile, and that commit. It prints nanoseconds of processor time, less that of runs that do the
same before and none of what is measured.

It needs the program of scripts/programs/client_speed, which is built first unless PROGRAM names a
built one (45 functions are proved). Nine runs take a quarter of an hour and more.
"""
import building
from costs import cost

LIBRARIES = [
    "cb_page", "cb_frame", "cb_twoq", "cb_pool", "cb_cache", "cb_locks",
    "cb_client",
]


class Measured:
    """The program, and how often it is run."""

    def __init__(self, program, runs):
        self.program, self.runs = program, runs

    def nanoseconds(self, case, pages, size, held, count, part, times, calls=1):
        """Nanoseconds of one of the calls."""
        setting = f"{case} {pages} {size} {held} {count} {part}"
        seconds, _ = cost(self.program, setting, times, self.runs)
        return seconds / times / calls * 1e9

    def reads(self):
        """Reads of held pages, and what is done with a page that is at hand."""
        print("pages of the store, page size, held, taken in a drawn order, locked before:")
        print("  look-up, read, read in Am, want, write, in ns; read and read in Am by look-ups")
        for pages, size, held, count, locked in [
            (128, 16, 64, 63, 0),
            (4096, 16, 64, 63, 0),
            (4096, 16, 1024, 63, 0),
            (4096, 16, 1024, 63, 1022),
            (4096, 16, 1024, 1023, 0),
            (4096, 4096, 1024, 63, 0),
        ]:
            cases = ("look_up", "read", "read_again")
            setting = pages, size, held, count
            told = [self.nanoseconds(case, *setting, locked, 500, 4096) for case in cases]
            # what is wanted must have been read
            told.append(self.nanoseconds("want", *setting, max(locked, count), 500, 4096))
            told.append(self.nanoseconds("write", *setting, locked, 500, 4096))
            ratios = f"{told[1] / told[0]:.2f}, {told[2] / told[0]:.2f}"
            figures = ", ".join(f"{it:.1f}" for it in told)
            print(f"  {pages}, {size}, {held}, {count}, {locked}: {figures}; {ratios}", flush=True)

    def drops(self):
        """Transactions that are dropped."""
        print("pages of the store, held, read: a transaction that is dropped, in ns, and one whose")
        print("  pages are all called back meanwhile")
        for pages, held in [(64, 64), (4096, 64), (4096, 1024)]:
            for count in (0, 1, 8, 64):
                times = 1_000_000 // (count + 2)
                drop = self.nanoseconds("drop", pages, 16, held, count, 0, times)
                due = self.nanoseconds("due", pages, 16, held, count, 0, times // 4)
                print(f"  {pages}, {held}, {count}: {drop:.0f}, {due:.0f}", flush=True)

    def commits(self):
        """Transactions that commit."""
        print("pages of the store, page size, held, read, written: one that commits, in ns")
        sizes = [(0, 0), (1, 0), (1, 1), (8, 0), (8, 8), (64, 0), (64, 1), (64, 8), (64, 64)]
        stores = [(64, 16, 64), (4096, 16, 64), (4096, 16, 1024), (4096, 4096, 1024)]
        for pages, size, held in stores:
            for count, written in sizes:
                times = (1_000_000 if size == 16 else 200_000) // (count + written + 3)
                took = self.nanoseconds("commit", pages, size, held, count, written, times)
                print(f"  {pages}, {size}, {held}, {count}, {written}: {took:.0f}", flush=True)


def main(words):
    with building.a_room() as room:
        program = building.program("client_speed", LIBRARIES, [], room)
        measured = Measured(program, int((words or ["9"])[0]))
        measured.reads()
        measured.drops()
        measured.commits()
    return 0
