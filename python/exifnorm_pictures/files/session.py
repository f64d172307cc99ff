"""What a run shares: a temporary folder, how long other programs may take, whether tracebacks are printed, and ExifTool's process.

A command runs in one session, which is passed to what needs it. Each further process that looks at pictures has one of its own in the
same folder, and so has each task of a cluster's worker. Two threads can't share one.
"""

from __future__ import annotations

import contextlib
import os
import time

from exifnorm._hints import Any, Iterator

from ..model.budgets import PROGRAM_SECONDS

_LEAST = 0.001  # seconds of a clock that a call has if the earlier ones took all: a program that answers nothing then was too slow


def processors() -> int:
    """The number of processors that this process may use, or, where a system doesn't tell, all."""
    return len(os.sched_getaffinity(0)) if hasattr(os, "sched_getaffinity") else os.cpu_count() or 1


class Session:
    """A session. Use it in a `with`: at its end its program ends, and its folder is removed."""

    def __init__(self, seconds: float = PROGRAM_SECONDS, debug: bool = False, room: str | None = None, programs: bool = True) -> None:
        """How long a program may take for one file, whether tracebacks are printed, the folder of the run, and whether other programs may be
        started; without `room` the session makes a folder of its own, if it needs one."""
        self.seconds, self.programs = seconds, programs and hasattr(os, "fork")  # Windows has no limits for them
        self.debug = debug or os.environ.get("EXIFNORM_DEBUG") == "1"
        self.pid = os.getpid()
        self.tool: Any = None  # ExifTool's process, which `exiftool` starts at the first call
        self._room, self._rooms = room, contextlib.ExitStack()
        self._folder: str | None = None
        self._asked, self._taken = b"", 0.0  # the file that programs were last asked about, and the seconds that they took for it
        self._ends: float | None = None  # when the time of all calls is over

    @contextlib.contextmanager
    def clock(self, file: bytes) -> Iterator[float]:
        """The seconds that a program may still take for a file: all calls about one file have those of one call."""
        if file != self._asked:
            self._asked, self._taken = file, 0.0
        began = time.monotonic()
        try:
            yield max(min(self.seconds - self._taken, self.left()), _LEAST)
        finally:
            self._taken += time.monotonic() - began

    @contextlib.contextmanager
    def one_clock(self) -> Iterator[None]:
        """All calls inside have the time of one, whatever files they are about, and so has what is done between them."""
        self._ends = time.monotonic() + self.seconds
        try:
            yield
        finally:
            self._ends = None

    def left(self) -> float:
        """The seconds that a call of a program may take."""
        return self.seconds if self._ends is None else max(self._ends - time.monotonic(), _LEAST)

    @property
    def room(self) -> str:
        """The folder of the run."""
        if self._room is None:
            from . import tempdir  # which few commands need

            self._room = self._rooms.enter_context(tempdir.room())
        return self._room

    def folder(self) -> str:
        """The folder of this session alone, in that of the run."""
        if self._folder is None:
            import tempfile  # which few commands need

            self._folder = tempfile.mkdtemp(prefix=f"{self.pid}-", dir=self.room)
        return self._folder

    def close_tool(self) -> None:
        """Ends ExifTool, if one runs. The next call starts another."""
        tool, self.tool = self.tool, None
        if tool and self.pid == os.getpid():
            tool.close()

    def close(self) -> None:
        """Ends ExifTool and removes the folder, if it is this session's own."""
        try:
            self.close_tool()
        finally:
            if self.pid == os.getpid():
                self._rooms.close()

    def __enter__(self) -> "Session":
        return self

    def __exit__(self, *_: object) -> None:
        self.close()
