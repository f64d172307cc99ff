"""Many pictures read in several processes. One that is bad, or at which a process dies, ends nothing."""

from __future__ import annotations

import os
import signal
from collections import deque
from concurrent.futures import Future, ProcessPoolExecutor
from concurrent.futures.process import BrokenProcessPool
from contextlib import suppress
from itertools import islice
from typing import Deque, Iterable, Iterator, Sequence, Union

from exifnorm import LibraryMissing

from .api import NoPicture, NotReadable, PathLike, _Limits, _read
from .files.session import Session, processors
from .model.problems import Problem
from .picture import Picture

CHUNK = 8  # pictures that a process gets at once
AHEAD = 4  # such chunks of each process that are given out before the first result is taken

Result = Union[Picture, OSError, NoPicture, NotReadable]


def read_all(paths: Iterable[PathLike], *, jobs: int | None = None) -> Iterator[tuple[PathLike, Result]]:
    """Reads many pictures in several processes, in their order: each path with its picture, or with the exception that `read` raises.

    `jobs` is the number of processes, by default that of processors; with 1 this process reads. At most 32 paths a process are taken ahead, so
    there may be more paths and results than fit into memory. A picture at which a process dies is `NotReadable`. Raises `exifnorm.LibraryMissing`, `ValueError` for fewer jobs than one, and `TypeError` for a single path.
    """
    if isinstance(paths, (str, bytes, os.PathLike)):  # whose letters would be taken for paths
        raise TypeError("several paths are expected: of one path read reads the picture")
    count = processors() if jobs is None else jobs
    if count < 1:
        raise ValueError("jobs must be at least 1")
    return _here(paths) if count == 1 else _in_processes(iter(paths), count)


def _here(paths: Iterable[PathLike]) -> Iterator[tuple[PathLike, Result]]:
    with Session() as session:
        for path in paths:
            yield path, _result(path, session)


def _result(path: PathLike, session: Session) -> Result:
    try:
        return _read(path, _Limits(), session)
    except LibraryMissing:  # an OSError too, but not of this file
        raise
    except (OSError, NoPicture, NotReadable) as error:
        return error
    except MemoryError:
        return NotReadable(Problem.TOOL_FAILED, "out of memory", os.fsdecode(path))


def _results(paths: Sequence[PathLike]) -> list[Result]:
    return [result for _, result in _here(paths)]


def _in_processes(paths: Iterator[PathLike], count: int) -> Iterator[tuple[PathLike, Result]]:
    chunks = iter(lambda: list(islice(paths, CHUNK)), [])
    due: Deque[tuple[list[PathLike], "Future[list[Result]] | None"]] = deque()
    pool = _pool(count)
    try:
        while True:
            with suppress(BrokenProcessPool):
                for chunk in islice(chunks, AHEAD * count - len(due)):
                    due.append((chunk, None))  # if a process has died meanwhile
                    due[-1] = chunk, pool.submit(_results, chunk)
                if not due:
                    return
                chunk, future = due[0]
                yield from zip(chunk, future.result() if future else [])
                due.popleft()
                continue
            pool.shutdown()
            for chunk, future in due:
                yield from zip(chunk, future.result() if future and not future.exception() else map(_alone, chunk))
            due.clear()
            pool = _pool(count)
    finally:
        pool.shutdown(cancel_futures=True)


def _alone(path: PathLike) -> Result:
    """The result of a path in a process of its own, where one has died."""
    with _pool(1) as pool, suppress(BrokenProcessPool):
        return pool.submit(_results, [path]).result()[0]
    return NotReadable(Problem.TOOL_FAILED, "the process that read it died twice", os.fsdecode(path))


def _pool(count: int) -> ProcessPoolExecutor:
    return ProcessPoolExecutor(count, initializer=_begin)


def _begin() -> None:
    """Ctrl-C reaches all processes of a terminal; the first one ends the others."""
    signal.signal(signal.SIGINT, signal.SIG_IGN)
