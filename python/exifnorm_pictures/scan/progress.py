"""Prints the progress of a run, and its remaining time, on standard error."""

from __future__ import annotations

import sys
import time
from collections import deque
from typing import TextIO

from ..files.signals import drop

WINDOW = 20.0  # seconds over which the speed is measured: pictures of some folders take longer than others
_CLEAR = "\r\x1b[K"
LEAST = 1.5  # seconds without which it isn't known: at first processes start, and results come in batches


def duration(seconds: float) -> str:
    """A time as text.

    >>> duration(4.2), duration(60), duration(75), duration(3600), duration(200000)
    ('5 s', '1 min 0 s', '1 min 15 s', '1 h 0 min', '55 h 33 min')
    """
    whole = int(seconds + 0.999)
    if whole < 60:
        return f"{whole} s"
    return f"{whole // 60} min {whole % 60} s" if whole < 3600 else f"{whole // 3600} h {whole % 3600 // 60} min"


class Progress:
    """On a terminal one line that changes, elsewhere a line now and then."""

    def __init__(self, total: int, stream: TextIO | None = None, quiet: bool = False, what: str = "") -> None:
        """`what` precedes the numbers: what is done with the pictures, if they aren't looked at."""
        self.total = total
        self.is_whole = True  # whether there are no more
        self.what = what
        self.stream = stream or sys.stderr
        self.quiet = quiet
        self.began = time.monotonic()
        self.last = 0.0
        self.is_shown = False  # whether a line that will change is on the terminal
        self._is_over = False  # whether the last line was printed
        self._reports: deque[tuple[float, int]] = deque()  # when how many were done, the newest last

    def start(self) -> None:
        """Shows on a terminal that a run has begun."""
        if self.stream.isatty():
            self.done(0)

    def done(self, count: int) -> None:
        """Reports that `count` pictures are committed."""
        now = time.monotonic()
        self._reports.append((now, count))
        while len(self._reports) > 2 and now - self._reports[1][0] > WINDOW:
            self._reports.popleft()
        is_last = self.is_whole and count >= self.total
        if self.quiet or not self.total or self._is_over:
            return
        begin, end, pause = (_CLEAR, "\n" * is_last, 0.2) if self.stream.isatty() else ("", "\n", 1.0)
        if is_last or now - self.last >= pause:
            self.last, self._is_over = now, is_last
            self._write(begin + self.text(count, now - self.began) + end)
            self.is_shown = not end

    def clear(self) -> None:
        """Takes the line that changes off the terminal, before another one is printed there."""
        if self.is_shown:
            self._write(_CLEAR)
            self.is_shown = False

    def _write(self, text: str) -> None:
        try:
            print(text, end="", file=self.stream, flush=True)
        except OSError:  # nobody reads it: the run goes on
            drop(self.stream)
            self.quiet = True

    def rate(self) -> float | None:
        """Pictures a second between the reports that are kept; the first one is the begin of results, not of the run."""
        if len(self._reports) < 2:
            return None
        (since, before), (now, count) = self._reports[0], self._reports[-1]
        return (count - before) / (now - since) if count > before and now - since >= LEAST else None

    def text(self, count: int, seconds: float) -> str:
        """How far a run is after some seconds.

        >>> Progress(1000).text(1000, 10.0)
        '1000 of 1000 pictures, 100 a second'
        """
        total = f"{self.total:,}" if self.what else str(self.total)
        so_far = f"{self.what}{f'{count:,}' if self.what else count} of {'' if self.is_whole else 'at least '}{total} pictures"
        if self.is_whole and count >= self.total:
            return f"{so_far}, {count / max(seconds, 0.001):.0f} a second"
        rate = self.rate()
        if not rate:
            return so_far
        left = f", {duration((self.total - count) / rate)} left" if self.is_whole else ""
        return f"{so_far}, {rate:.0f} a second{left}"
