#!/usr/bin/env python3
"""Proves a crate with all crates below it, and builds its program or its static library.

  build/prove.py CRATE
  build/prove.py --take FOLDER    takes over what `rt ci` has proved in FOLDER, a copy of the sources

The products are in out/proved/, each library, program and archive with a note of its sources. A product that is up to date by
build/store.py is kept. Otherwise the crate is proved from nothing, as soon as the crates below it are proved, beside others if there
are processors and memory for them. Standard error shows the progress, and out/build-NAME.log the compiler's output for a crate. The
status is 0 if everything is proved and built, otherwise 1.

A crate counts as proved if the compiler reports so and its verdict names nothing that the proof leaves out, such as functions that
may never return, and if it finds no contract that no call can meet; and HANDLES must be unchanged. `rt ci` checks more, and decides
what is merged: the layout of the files, names that sources must not use, impls that macros write, terms that a tactic chose, functions
of the system that the linked program calls, and the tests. tests/crates/ has the wrong bodies that must be refused.
"""

from __future__ import annotations

import contextlib
import fcntl
import os
import re
import signal
import subprocess
import sys
from concurrent.futures import FIRST_COMPLETED, Future, ThreadPoolExecutor, wait
from pathlib import Path
from typing import IO, Callable, Iterator, TypeVar

sys.dont_write_bytecode = True

from compiler import Compiler, version
from crates import Crates, below, chains
from store import Store
from verdict import refused_handles, refused_verdict, starts

Result = TypeVar("Result")
TOP = Path(__file__).resolve().parent.parent
# More than the proof of one crate has ever taken, in bytes.
MEMORY = 3 << 30
SIDE_BY_SIDE, JOBS = 3, 4

NO_TOOLCHAIN = (
    "this has to be built, and there is no command rt: put the Rattle toolchain's bin folder on"
    " the PATH; without it use a download, or open docs/exifnorm.html in a browser"
)
STOPS = (signal.SIGHUP, signal.SIGINT, signal.SIGTERM)

# The system may give a signal to a thread that waits for a compiler. What is to be done then is done by the main thread, which that
# doesn't wake: it looks each second.
WAKES = 1


class NotBuilt(Exception):
    """Why there is no program."""


def say(what: str) -> None:
    """Writes a line to standard error. A build doesn't end if nobody can read it."""
    with contextlib.suppress(OSError, AttributeError):  # a full disk, a closed pipe; closed from the start
        sys.stderr.write(f"exifnorm: {what}\n")


def jobs() -> int:
    """How many processors the proof of one crate uses."""
    return min(JOBS, len(os.sched_getaffinity(0)))


def free_memory() -> int:
    """How many bytes can be allocated without swapping; 0 if the system doesn't report it."""
    line = re.search(r"^MemAvailable:\s+(\d+) kB$", Path("/proc/meminfo").read_text(encoding="ascii"), re.M)
    return int(line[1]) * 1024 if line else 0


def places() -> int:
    """How many crates are proved at once: as many as there are processors and free memory for."""
    return max(1, min(SIDE_BY_SIDE, len(os.sched_getaffinity(0)), free_memory() // MEMORY))


class Build:
    """The build of one crate."""

    def __init__(self, crates: Crates, crate: str, compiler: Compiler, store: Store) -> None:
        self.crates, self.compiler, self.store = crates, compiler, store
        self.chains = chains(crate, crates.uses)
        self.left = sorted(store.unbuilt(crate), key=lambda name: -self.chains[name])
        self.all, self.places = len(self.left), places()
        self.running: dict[Future[None], str] = {}

    def prove(self, crate: str, gives_way: bool) -> None:
        """Proves a crate and moves its product to its path."""
        expected, product = self.store.expected(crate), self.store.making / self.crates.product(crate)
        log = self.crates.top / "out" / f"build-{crate}.log"
        with open(log, "w", encoding="utf-8") as output:
            status = self.compiler.build(crate, product, jobs(), output, gives_way)
        text = log.read_text(encoding="utf-8", errors="replace")
        why = f"the compiler ended with status {status}" if status else refused_verdict(text)
        if not why and self.crates.is_program(crate) and not starts(product):
            why = "the program does not start"
        if why:
            end = "\n".join(text.splitlines()[-20:])
            raise NotBuilt(f"{end}\nexifnorm: the crate {crate} was not proved or not built: {why}; its log is {log}")
        self.store.put(crate, product, expected)

    def ready(self) -> list[str]:
        """The crates that can be proved now, first those with the longest chain above them."""
        unproved = {*self.left, *self.running.values()}
        return [it for it in self.left if not unproved & {*below(it, self.crates.uses)}]

    def begin(self, crate: str, pool: ThreadPoolExecutor) -> None:
        self.left.remove(crate)
        say(f"proving {crate} ({self.all - len(self.left)} of {self.all}, {len(self.left)} left)")
        longest = max(self.chains[it] for it in [crate, *self.left, *self.running.values()])
        self.running[pool.submit(self.prove, crate, self.chains[crate] < longest)] = crate

    def run(self) -> None:
        """Proves all crates that are left. The first one that fails ends the others."""
        with ThreadPoolExecutor(SIDE_BY_SIDE) as pool:
            try:
                while self.left or self.running:
                    for crate in self.ready()[: self.places - len(self.running)]:
                        self.begin(crate, pool)
                    for ended in wait(self.running, WAKES, FIRST_COMPLETED).done:
                        del self.running[ended]
                        ended.result()
            except BaseException:
                self.compiler.stop()
                raise


def stop(*_: object) -> None:
    for number in STOPS:
        signal.signal(number, signal.SIG_IGN)
    raise NotBuilt("the build was stopped")


def listen() -> None:
    """Lets signals stop the build, except those that the caller makes this process ignore, as nohup does."""
    for number in STOPS:
        if signal.getsignal(number) != signal.SIG_IGN:
            signal.signal(number, stop)


def waited(compiler: Compiler, work: Callable[[], Result]) -> Result:
    """The result of what calls the compiler, in a thread. If a signal ends the wait, it ends the compiler with all that it started."""
    with ThreadPoolExecutor(1) as pool:
        try:
            result = pool.submit(work)
            while not wait([result], WAKES).done:
                pass
        except BaseException:
            compiler.stop()
            raise
        return result.result()


@contextlib.contextmanager
def locked(file: Path, waiting: str) -> Iterator[IO[str]]:
    """Blocks until no other build runs here, nor a compiler that one left. The system frees a lock whose process has ended."""
    try:
        file.parent.mkdir(parents=True, exist_ok=True)
        lock = open(file, "w", encoding="ascii")
    except OSError as why:
        raise NotBuilt(f"cannot write in {file.parent}: {why.strerror}") from None
    with lock:
        try:
            fcntl.flock(lock, fcntl.LOCK_EX | fcntl.LOCK_NB)
        except BlockingIOError:
            say(waiting)
            fcntl.flock(lock, fcntl.LOCK_EX)
        yield lock


def open_store(crates: Crates) -> Store:
    """The products of these crates, and the rule of what is up to date."""
    if why := refused_handles(crates.top):
        raise NotBuilt(why)
    return Store(crates, version(), crates.top / "out" / "proved")


def locked_store(store: Store) -> contextlib.AbstractContextManager[IO[str]]:
    return locked(store.folder / "lock", "another build proves these crates: waiting for it")


def build(crate: str, store: Store) -> None:
    """Proves a crate with those below it, unless they are built, and builds it. If a source is changed meanwhile, it begins again."""
    while not store.is_current(crate):
        if not store.version:
            raise NotBuilt(NO_TOOLCHAIN)
        with locked_store(store) as lock, store.making_place():
            Build(store.crates, crate, Compiler(store.crates, store.folder, lock), store).run()


def take(proved: Crates, store: Store) -> None:
    """Takes over what `rt ci` has proved in a copy of the sources. A crate of which the sources here are others counts as not built."""
    copy = Store(proved, store.version, store.folder)
    with locked_store(store), store.making_place():
        for crate in dict.fromkeys(name for it in proved.uses for name in [*below(it, proved.uses), it]):
            product = proved.folder(crate) / "out" / (crate if proved.is_program(crate) else f"rlib/{crate}.rlib")
            if crate in store.crates.uses and product.exists() and not copy.is_built(crate):
                store.put(crate, product, copy.expected(crate))


def status_of(work: Callable[[], object], failed: int = 1) -> int:
    """The exit status of a command that does this work: 0, or if it fails another one, and a line says why."""
    try:
        listen()
        work()
    except (NotBuilt, OSError, subprocess.SubprocessError) as why:
        say(str(why))
        return failed
    return 0


def work(words: list[str]) -> None:
    store = open_store(Crates.read(TOP))
    if words[0] == "--take":
        take(Crates.read(Path(words[1])), store)
    elif words[0] not in store.crates.uses:
        raise NotBuilt(f"crates.txt names no crate {words[0]}")
    else:
        build(words[0], store)


if __name__ == "__main__":
    if len(sys.argv) != (3 if "--take" in sys.argv else 2):
        sys.exit(__doc__)
    sys.exit(status_of(lambda: work(sys.argv[1:])))
