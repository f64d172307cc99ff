"""Compilers for this machine and for others, and how the programs that they make are run here."""

from __future__ import annotations

import fcntl
import functools
import os
import re
import shutil
import subprocess
import sys
from concurrent.futures import ThreadPoolExecutor
from dataclasses import dataclass, field
from pathlib import Path
from typing import List

import pytest

from commands import TOP, run
from crates import Crates
from prove import open_store, places

HERE = Path(__file__).resolve().parent
VERSION = re.findall(r'VERSION: &str = "(.*)";', TOP.joinpath("crates/px_engine/src/version.rt").read_text(encoding="utf-8"))[0]
WINE = Path("/usr/lib/wine")  # Debian's wine64 is not on the PATH


GCC, QEMU = "aarch64-linux-gnu-gcc", "qemu-aarch64"
ROOT = "/usr/aarch64-linux-gnu"  # where Debian has the C library for aarch64
PROVED = [("px_cli", "aarch64"), ("px_cli", "x86_64"), ("px_c", "aarch64")]


@functools.lru_cache(maxsize=None)
def make(*words: str) -> None:
    """Builds for other machines what is proved for this one. Tests in several processes build it once; the proofs run side by side."""
    for tool in (GCC, QEMU):
        if not shutil.which(tool):
            pytest.skip(f"{tool} is not installed: `apt-get install $(./test --packages)`")
    store = open_store(Crates.read(TOP))
    if not all(map(store.is_current, ("px_c", "px_cli"))):
        pytest.skip("the sources are not proved: call `make`")
    with open(TOP / "out" / "machines-lock", "w", encoding="ascii") as lock:
        fcntl.flock(lock, fcntl.LOCK_EX)
        with ThreadPoolExecutor(places()) as pool:
            proofs = [pool.submit(run, sys.executable, TOP / "build/cross.py", *product) for product in PROVED]
        for proof in proofs:
            proof.result()
        run("make", *words)


@dataclass
class Machine:
    """A compiler for C, and how the programs that it makes are run here."""

    name: str
    compiler: List[str]
    runner: List[str] = field(default_factory=list)

    def need(self) -> None:
        """Skips a test if a tool is missing."""
        for tool in (self.compiler[0], *self.runner[:1]):
            if not shutil.which(tool):
                pytest.skip(f"{tool} is not installed: `apt-get install $(./test --packages)`")


# With glibc and gcc the library is compiled by its Makefile, in test_make and for its own tests in test_suite.py.
MACHINES = [
    Machine("musl", ["musl-gcc", "-O2", "-static"]),
    Machine("clang", ["clang", "-O2"]),
    Machine("address sanitizer", ["clang", "-O0", "-fsanitize=address"]),
    Machine("aarch64", [GCC, "-O2", "-static"], [QEMU]),
    Machine("windows", ["x86_64-w64-mingw32-gcc", "-O2"], [str(WINE / "wine64")]),
]


class Builds:
    """The programs that use the library in C, by machine. Each is compiled at its first use."""

    def __init__(self, source: Path, folder: Path) -> None:
        self.source, self.folder = source, folder

    def program(self, machine: Machine, name: Path) -> Path:
        """The program of a file in C."""
        machine.need()
        made, library = (self.folder / f"{machine.name}-{it}" for it in (f"{name.stem}.exe", "exifnorm.o"))
        words = [*machine.compiler, "-std=c99", "-I", str(self.source)]
        if not library.exists():
            run(*words, "-w", "-c", "-o", library, self.source / "exifnorm.c")
        if not made.exists():
            run(*words, "-Wall", "-Wextra", "-pedantic", "-o", made, name, library)
        return made

    def said(self, machine: Machine, name: Path, *words: str | Path) -> str:
        """What the program of a file in C prints."""
        program = self.program(machine, name)
        environment = {"WINEPREFIX": str(self.folder / "wine"), "WINEDEBUG": "-all", "WINEDLLOVERRIDES": "mscoree,mshtml="}
        ran = subprocess.run(
            [*machine.runner, program, *words],
            env={**os.environ, **environment},
            stdin=subprocess.DEVNULL,
            stdout=subprocess.PIPE,
            stderr=subprocess.PIPE,
            encoding="utf-8",
            check=False,
        )
        assert ran.returncode == 0, f"{program.name} ended with status {ran.returncode}: {ran.stdout[-2000:]}{ran.stderr[-2000:]}"
        return ran.stdout.replace("\r\n", "\n")

    def end(self) -> None:
        """Ends what Wine leaves running."""
        if (self.folder / "wine").exists():
            subprocess.run([WINE / "wineserver64", "-k"], env={**os.environ, "WINEPREFIX": str(self.folder / "wine")}, check=False)
