#!/usr/bin/env python3
"""Builds what ./exifnorm and ./exifnorm-pictures need, and runs it.

  build/launch.py exifnorm [WORD ..]
  build/launch.py exifnorm-pictures [WORD ..]

What `make` has proved and built of the current sources is used. If there is none, quick.py compiles without proofs. Then the program or
exifnorm-pictures replaces this process, with the same arguments and standard streams. Standard output gets nothing else. If nothing can be
built the status is 70, which neither of them ever returns.
"""

from __future__ import annotations

import os
import signal
import sys
import traceback
from pathlib import Path

sys.dont_write_bytecode = True

import prove
import quick
from crates import Crates
from prove import TOP, say
from store import Store

NOT_BUILT = 70
PROVED = {quick.PROGRAM: TOP / "out" / "exifnorm", quick.LIBRARY: TOP / "out" / "lib" / "libexifnorm.so.1"}


def proved(crate: str, store: Store) -> Path | None:
    """What `make` has built of a crate, if it is up to date."""
    built = PROVED[crate]
    if not store.is_current(crate) or not built.exists():
        return None
    return built if built.stat().st_mtime_ns >= store.product(crate).stat().st_mtime_ns else None


def product(crate: str) -> Path:
    """The proved product of a crate, or else the one that was compiled without proofs, now if it is not up to date."""
    store = prove.open_store(Crates.read(TOP))
    return proved(crate, store) or quick.Quick(store.crates, store.version).compiled(crate)


def run(program: Path | str, words: list[str]) -> None:
    """Replaces this process by a program, with the signals that Python ignores as they were."""
    for number in (signal.SIGPIPE, signal.SIGXFSZ):
        signal.signal(number, signal.SIG_DFL)
    os.execv(program, [os.fspath(program), *words])


def work(command: str, words: list[str]) -> None:
    if command != "exifnorm":
        if not os.environ.get("EXIFNORM_LIBRARY"):
            os.environ["EXIFNORM_LIBRARY"] = str(product(quick.LIBRARY))
        run(sys.executable, [str(TOP / "build" / "pictures.py"), *words])
    program = product(quick.PROGRAM)
    if words != ["--where"]:
        run(program, words)
    os.write(1, os.fsencode(f"{program}\n"))


def main(command: str, words: list[str]) -> int:
    while os.open(os.devnull, os.O_RDWR) < 3:  # no other file gets the number of a closed standard stream, which stays closed
        pass
    sys.executable = sys.executable or os.readlink("/proc/self/exe")  # empty without a PATH
    try:
        return prove.status_of(lambda: work(command, words), NOT_BUILT)
    except Exception:
        say(traceback.format_exc())
        return NOT_BUILT


if __name__ == "__main__":
    os._exit(main(sys.argv[1], sys.argv[2:]))
