"""The toolchain's compiler, called as the toolchain's own command `rt` calls it."""

from __future__ import annotations

import contextlib
import os
import shutil
import signal
import subprocess
import sys
from pathlib import Path
from threading import Lock
from typing import IO, Any, Sequence

from crates import Crates

TARGET = "x86_64-unknown-linux-gnu"

# A command leads a group, so that it can be ended with the copies of itself that it starts. A session would be a group too, but the
# system shares processors among sessions first, whatever their priorities inside.
GROUP: dict[str, Any] = {"process_group": 0} if sys.version_info >= (3, 11) else {"start_new_session": True}


def said(*words: str) -> str:
    """The output of a command, in one line."""
    return subprocess.run(words, stdin=subprocess.DEVNULL, stdout=subprocess.PIPE, text=True, check=True).stdout.strip()


def version() -> str:
    """The toolchain's version line; empty without a toolchain on the PATH. `rt version` prints it from a file of the kit, and starts so slowly
    that a launcher would spend half of its time on that."""
    command = shutil.which("rt")
    if not command:
        return ""
    with contextlib.suppress(OSError):
        return Path(command).resolve().parents[1].joinpath("KIT-ID").read_text(encoding="utf-8").strip()
    return said("rt", "version")


class Compiler:
    """It proves a crate from nothing, over built libraries, and builds it. Several calls may run at once."""

    def __init__(self, crates: Crates, libraries: Path, holds: IO[str]) -> None:
        """Uses the libraries in a folder. Each process inherits the open file until it ends, however this one ends."""
        self.crates, self.libraries, self.holds = crates, libraries, holds
        self.kit = os.path.dirname(said("rt", "doc"))
        self.running: set[subprocess.Popen[bytes]] = set()
        self.guard, self.is_stopped = Lock(), False

    def stop(self) -> None:
        """Ends all running commands with the copies that they started. No command is started afterwards."""
        with self.guard:
            self.is_stopped = True
            for process in self.running:
                with contextlib.suppress(ProcessLookupError):  # it has just ended
                    os.killpg(process.pid, signal.SIGTERM)

    def call(self, words: list[str], folder: Path, log: IO[str]) -> int:
        """Runs a command in a group of its own, and returns its status."""
        how: dict[str, Any] = {"stdin": subprocess.DEVNULL, "stdout": log, "stderr": log, **GROUP}
        with self.guard:
            if self.is_stopped:
                return -signal.SIGTERM
            started: subprocess.Popen[bytes] = subprocess.Popen(words, cwd=folder, pass_fds=[self.holds.fileno()], **how)
            self.running.add(started)
        status = started.wait()
        with self.guard:
            self.running.discard(started)
        return status

    def given(self, crate: str, jobs: int) -> list[str]:
        """The arguments of each call for a crate: its sources, the libraries that it uses, and the logic."""
        used = {it: self.libraries if it in self.crates.uses else f"{self.kit}/rlibs" for it in ["std", *self.crates.uses[crate]]}
        words = ["--crate-name", crate, "src/main.rt" if self.crates.is_program(crate) else "src/lib.rt"]
        for name, folder in used.items():
            words += ["--extern", f"{name}={folder}/{name}.rlib"]
        for folder in (f"{self.kit}/rlibs", self.libraries):
            words += ["-L", f"dependency={folder}"]
        words += ["--antt-project", f"{self.kit}/rattle/logic/antt-project.json", "--logic-built", f"{self.kit}/logic_built"]
        return [*words, "--jobs", str(jobs), "--links", f"{crate}="]

    def kind(self, crate: str) -> list[str]:
        """The argument that a static library needs."""
        return ["--crate-type", "staticlib"] * (crate in self.crates.archives)

    def words(self, crate: str, product: Path, jobs: int) -> list[str]:
        """The call that proves and builds a crate: a library for other crates with its statements, which load faster than its proofs."""
        words = [f"{self.kit}/bin/rattle", "build", *self.given(crate, jobs), "--empty-contracts", "-o", str(product)]
        if self.crates.is_program(crate) or crate in self.crates.archives:
            return [*words, "--toolchain", f"{self.kit}/toolchain", "--backend", "llvm", *self.kind(crate)]
        return [*words, "--statements"]

    def start(self, crate: str, functions: Sequence[str]) -> list[str]:
        """The call that lets the search alone prove functions. It takes the contracts of those that they call as they are, and writes the
        goals that the search does not prove into files of the crate's folder proofs/."""
        words = [f"{self.kit}/bin/rattle", "check", *self.given(crate, 1), *self.kind(crate)]
        return [*words, *(word for it in functions for word in ("--start", it))]

    def link(self, object_file: Path, program: Path, log: IO[str]) -> int:
        """Links a program with the C library."""
        words = [f"{self.kit}/bin/rattle-link", "--target", TARGET, "--toolchain", f"{self.kit}/toolchain", "-o", str(program)]
        return self.call([*words, str(object_file), f"{self.kit}/c/libos_c.a", f"{self.kit}/c/liblibc_c.a"], self.crates.top, log)

    def build(self, crate: str, product: Path, jobs: int, log: IO[str], gives_way: bool) -> int:
        """Proves a crate and builds it as `made`. A call with `gives_way` only uses processors that the others leave idle."""
        is_program = self.crates.is_program(crate)
        object_file = product.with_name(f"{crate}.o") if is_program else product
        lower = ["nice", "-n", "19"] * gives_way
        status = self.call([*lower, *self.words(crate, object_file, jobs)], self.crates.folder(crate), log)
        if status == -signal.SIGKILL and jobs > 1:
            log.seek(0)
            log.truncate()
            log.write("the check was killed, most likely for memory: once more, with one job\n")
            log.flush()
            return self.build(crate, product, 1, log, gives_way)
        return self.link(object_file, product, log) if is_program and status == 0 else status
