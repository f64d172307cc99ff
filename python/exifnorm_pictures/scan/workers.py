"""Looks at pictures in several processes, and returns the results in the order of the names. If a process dies, no picture is lost."""

from __future__ import annotations

import contextlib
import ctypes
import itertools
import os
import signal
import threading
import time
from collections import deque
from concurrent.futures import Future, ProcessPoolExecutor, wait
from concurrent.futures.process import BrokenProcessPool
from contextvars import ContextVar
from multiprocessing import get_context, util
from typing import Iterable, Iterator, NamedTuple, Sequence

from ..extract import programs
from ..files import signals
from ..files.session import Session
from ..model.budgets import READY_BYTES
from ..model.records import PictureRecord
from ..model.texts import reason
from .looking import failed, in_this_process, look
from .walk import LONGEST_WAIT, Batch, FoundFile, How, Result, batch

CHUNK = 500  # pictures that a process gets at once at most
PARTS = 8  # chunks of each process at least, so that all end at nearly the same time ..
LEAST_CHUNK = 8  # .. unless they have fewer pictures than this
SHORT = 16  # pictures for which a file of rows takes longer than objects; many objects would keep the process waiting that writes
SIZES = [LEAST_CHUNK << it for it in range(6)]  # of the first chunks
AHEAD = 64_000  # files at most that are known before a process gets them
WATCH = 5.0  # seconds after which it is looked whether a result can still come


class CannotStart(programs.Failed):
    """No further process or thread can be started. The text is the reason."""


class Few(NamedTuple):
    """Some pictures that were looked at, too few for a file of rows."""

    entries: Sequence[PictureRecord]
    left: Sequence[FoundFile]  # the pictures after them, which were not looked at yet


class Task(NamedTuple):
    """Pictures for a process, and the file to which it writes their rows, if they are many."""

    chunk: Sequence[FoundFile]
    file: str


def in_several_processes(work: Iterable[FoundFile], how: How) -> Iterator[Result]:
    """The results for these files. If no process can be started, this one looks at them."""
    files = iter(work)
    waiting: deque[FoundFile] = deque()  # those that are taken, and have no result yet

    def taken() -> Iterator[FoundFile]:
        for file in files:
            waiting.append(file)
            yield file

    try:
        for result in _by_several(taken(), how):
            for _ in range(sum(result.states.values()) if isinstance(result, Batch) else 1):
                waiting.popleft()
            yield result
    except CannotStart as error:
        signals.say(f"exifnorm-pictures: one process looks at the pictures, since {error}")
        yield from in_this_process(itertools.chain(waiting, files), how)


def _by_several(work: Iterator[FoundFile], how: How) -> Iterator[Result]:
    chunks = chunks_of(work, how.processes)
    files = (os.path.join(how.room, f"rows-{number}") for number in itertools.count())
    unfinished = [Task([], "")]
    while unfinished:
        unfinished = []
        yield from _by_processes(chunks, how, files, unfinished)
        for task in unfinished:
            yield from _one_by_one(task.chunk, how)


def chunks_of(work: Iterator[FoundFile], processes: int) -> Iterator[list[FoundFile]]:
    """The work in parts: small ones at first, so that all processes begin soon, and small ones again when the end of the work is in sight."""
    ahead: list[FoundFile] = []
    parts = PARTS * processes
    most = max(LEAST_CHUNK, min(CHUNK, AHEAD // parts))
    for size in itertools.chain(filter(most.__gt__, SIZES), itertools.repeat(most)):
        ahead += itertools.islice(work, max(0, parts * size - len(ahead)))
        if len(ahead) < parts * size:
            break
        for _ in range(processes):
            yield ahead[:size]
            del ahead[:size]
    size = max(LEAST_CHUNK, min(most, len(ahead) // parts))
    yield from (ahead[at : at + size] for at in range(0, len(ahead), size))


def look_at_some(task: Task, how: How) -> Batch | Few:
    """A process's results for the first pictures of a task: for all of them, unless that takes too long or too much memory."""
    ends_at = time.monotonic() + LONGEST_WAIT
    entries = []
    size = 0
    for file in task.chunk:
        entries.append(_look(file, how))
        size += entries[-1].kept_bytes
        if size >= READY_BYTES or time.monotonic() > ends_at:
            break
    left = task.chunk[len(entries) :]
    if len(entries) < SHORT and size < READY_BYTES:
        return Few(entries, left)
    return batch(task.file, entries, left, how.lines)


def _look(file: FoundFile, how: How) -> PictureRecord:
    """A process's result for a file."""
    return look(file, how, _session.get())


_session: ContextVar[Session] = ContextVar("session")  # of a process of a pool, whose tasks can't be given what it has made

_PR_SET_PDEATHSIG = 1


def _begin(how: How, parent: int, mask: set[int]) -> None:
    """The start of a process. Only the parent handles signals; if it is killed, its processes end."""
    ctypes.CDLL(None).prctl(_PR_SET_PDEATHSIG, signal.SIGKILL)
    if os.getppid() != parent:
        os._exit(1)
    signal.signal(signal.SIGINT, signal.SIG_IGN)
    signal.signal(signal.SIGHUP, signal.SIG_DFL)
    signal.signal(signal.SIGTERM, signal.SIG_DFL)
    signal.pthread_sigmask(signal.SIG_SETMASK, mask)
    session = Session(how.seconds, how.debug, how.room, how.programs)
    _session.set(session)
    util.Finalize(None, session.close, exitpriority=10)  # the processes of a pool don't run atexit


def _by_processes(chunks: Iterator[Sequence[FoundFile]], how: How, files: Iterator[str], unfinished: list[Task]) -> Iterator[Result]:
    """The results of several processes. If one of them dies, the tasks that have no result are left in `unfinished`, without files."""
    waiting: "deque[Future[Batch | Few]]" = deque()  # in the order of `unfinished`, which has a task before it is given to the pool
    pool = _pool(how, how.processes)
    try:
        while True:
            for chunk in itertools.islice(chunks, 4 * how.processes - len(waiting)):
                task = Task(chunk, next(files))
                unfinished.append(task)
                waiting.append(pool.submit(look_at_some, task, how))
            if not waiting:
                break
            while not wait([waiting[0]], WATCH).done:
                if not _is_served(pool):  # its thread has died, as without memory
                    return
            result = waiting[0].result()
            waiting.popleft()
            unfinished[:1] = [Task(result.left, next(files))] if result.left else []
            if isinstance(result, Few):
                yield from result.entries
            else:
                yield result
            if result.left:
                waiting.appendleft(pool.submit(look_at_some, unfinished[0], how))
        pool.shutdown()
    except BrokenProcessPool:
        return
    finally:
        signals.end_children()
        pool.shutdown(wait=True, cancel_futures=True)
        _remove_files(unfinished)


def _is_served(pool: ProcessPoolExecutor) -> bool:
    """Whether the pool's own thread lives, without which no result comes."""
    thread = getattr(pool, "_executor_manager_thread", None)
    return thread is None or thread.is_alive()


def _check_threads(processes: int) -> None:
    """Raises `RuntimeError` if so many processes, and the two threads of a pool, can't be started: a pool would wait for ever."""
    go = threading.Event()
    threads = [threading.Thread(target=go.wait, daemon=True) for _ in range(processes + 2)]
    try:
        for thread in threads:
            thread.start()
    finally:
        go.set()
        for thread in threads:
            if thread.ident is not None:
                thread.join()


def _remove_files(tasks: Iterable[Task]) -> None:
    """Removes the files of tasks whose processes have ended: their pictures are looked at again, or not at all."""
    for task in tasks:
        with contextlib.suppress(FileNotFoundError):
            os.unlink(task.file)


def _pool(how: How, processes: int) -> ProcessPoolExecutor:
    """Processes that have begun. A signal that comes meanwhile ends them. Raises `CannotStart`."""
    context = get_context("fork")
    try:
        with signals.signals_held() as mask:
            _check_threads(processes)  # a thread that was waited for may not have ended yet, and would take a signal
            pool = ProcessPoolExecutor(processes, mp_context=context, initializer=_begin, initargs=(how, os.getpid(), mask))
            pool.submit(os.getpid)  # the first task starts all of them
        return pool
    except (OSError, RuntimeError, MemoryError) as error:
        signals.end_children()
        why = reason(error) if isinstance(error, OSError) else str(error)
        raise CannotStart(f"a further process can't be started: {why}") from error
    except BaseException:
        signals.end_children()
        raise


def _one_by_one(chunk: Sequence[FoundFile], how: How) -> Iterator[PictureRecord]:
    """The results for a chunk at which a process died: each file gets a process of its own, so that only one file fails."""
    for file in chunk:
        pool = _pool(how, 1)
        try:
            yield pool.submit(_look, file, how).result()
        except BrokenProcessPool:
            yield failed(file, "the process that looked at it died twice")
        finally:
            signals.end_children()
            pool.shutdown(wait=True, cancel_futures=True)
