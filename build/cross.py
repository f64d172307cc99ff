#!/usr/bin/env python3
"""Proves and builds a crate for Linux on a machine, over the libraries that are proved already.

  build/cross.py CRATE MACHINE

MACHINE is aarch64 or x86_64. out/MACHINE/ gets the product: a static library, or the object file of a program, not linked. The libraries in
out/proved/ have no code for a machine, so they serve for each. The crate itself is proved once more, and its verdict must name the
machine. A product of the current sources is kept; its note is that of the crate in out/proved/.
"""

from __future__ import annotations

import os
import sys
from pathlib import Path

sys.dont_write_bytecode = True

from compiler import Compiler
from crates import Crates
from prove import NotBuilt, build, jobs, locked, open_store, say, status_of, waited
from store import Store
from verdict import refused_verdict

TOP = Path(__file__).resolve().parent.parent
MACHINES = ("aarch64", "x86_64")


def refused(said: str, triple: str) -> str:
    """Why the compiler's output is no proof for a target; empty if it is one.

    >>> refused("logic=proved functions=2 target=aarch64-unknown-linux-gnu sum=1f\\n", "aarch64-unknown-linux-gnu")
    ''
    >>> refused("logic=proved functions=2 target=x86_64-unknown-linux-gnu sum=1f\\n", "aarch64-unknown-linux-gnu")
    'the verdict is not for aarch64-unknown-linux-gnu'
    """
    words = [line.split() for line in said.splitlines() if line.startswith("logic=")]
    return refused_verdict(said) or ("" if f"target={triple}" in words[0] else f"the verdict is not for {triple}")


def product(crates: Crates, crate: str, machine_name: str) -> Path:
    """The path of a crate's product for a machine."""
    name = f"{crate}.o" if crates.is_program(crate) else crates.product(crate)
    return crates.top / "out" / machine_name / name


def put(store: Store, crate: str, triple: str, target: Path) -> None:
    """Builds the product for a target of the toolchain. Nothing is left at its path unless it is proved."""
    crates, log = store.crates, target.with_name(f"build-{crate}.log")
    note = target.with_name(f"{crate}.made-from")
    making = target.with_name(f"making-{target.name}")
    for file in (note, target):
        file.unlink(missing_ok=True)
    with open(log, "w", encoding="utf-8") as output:
        compiler = Compiler(crates, store.folder, output)
        words = [*compiler.words(crate, making, jobs()), "--target", triple]
        status = waited(compiler, lambda: compiler.call(words, crates.folder(crate), output))
    said = log.read_text(encoding="utf-8", errors="replace")
    if why := f"the compiler ended with status {status}" if status else refused(said, triple):
        end = "\n".join(said.splitlines()[-20:])
        raise NotBuilt(f"{end}\nexifnorm: the crate {crate} was not proved or not built for {triple}: {why}; its log is {log}")
    os.replace(making, target)
    note.write_text(store.noted(crate), encoding="utf-8")


def build_for(crate: str, machine_name: str, store: Store) -> Path:
    """Proves a crate, and once more for a machine, unless that is done. Returns the product for the machine."""
    build(crate, store)
    target = product(store.crates, crate, machine_name)
    note = target.with_name(f"{crate}.made-from")
    with locked(target.with_name(f"{crate}.lock"), f"another call builds {crate} for {machine_name}: waiting for it"):
        if not (target.exists() and note.exists() and note.read_text(encoding="utf-8") == store.noted(crate)):
            say(f"proving {crate} for {machine_name}")
            put(store, crate, f"{machine_name}-unknown-linux-gnu", target)
    return target


def work(crate: str, machine_name: str) -> None:
    crates = Crates.read(TOP)
    if crate not in crates.uses:
        raise NotBuilt(f"crates.txt names no crate {crate}")
    if machine_name not in MACHINES:
        raise NotBuilt(f"no machine {machine_name}: there are {', '.join(MACHINES)}")
    build_for(crate, machine_name, open_store(crates))


if __name__ == "__main__":
    if len(sys.argv) != 3:
        sys.exit(__doc__)
    sys.exit(status_of(lambda: work(*sys.argv[1:])))
