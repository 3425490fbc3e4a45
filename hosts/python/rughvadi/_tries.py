"""How long a job that was aborted waits before it is tried again."""

from __future__ import annotations

import itertools
import random
import time
from typing import Iterator, Optional

FIRST = 0.0005
"""The longest wait before the second try, in seconds. It doubles before each further one."""
MOST = 0.1
"""The longest wait of all, in seconds."""


def waits(tries: Optional[int], seconds: Optional[float]) -> Iterator[float]:
    """The wait before each further try, each drawn anew. They end after that many tries in all, or
    once a try would begin more than that many seconds from now."""
    if tries is not None and tries < 1:
        raise ValueError("tries has to be at least 1")
    end = None if seconds is None else time.monotonic() + seconds
    return _drawn(itertools.count() if tries is None else range(tries - 1), end)


def _drawn(further: Iterator[int] | range, end: Optional[float]) -> Iterator[float]:
    most = FIRST
    for _ in further:
        wait = random.uniform(0, most)
        if end is not None and time.monotonic() + wait > end:
            return
        yield wait
        most = min(2 * most, MOST)
