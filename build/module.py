"""The LLVM module of the proved library: what the toolchain gives to its clang, for what compiles the library in another way.

The toolchain builds only what is proved, from one module that it gives to clang and doesn't keep. So px_c is built again, over the proved
libraries, with a toolchain folder whose clang also copies the module. The archive that this makes must be that of
`make library`, byte for byte. Then the module is the library's own code. out/module/ keeps it, because building px_c takes about two
minutes.
"""

from __future__ import annotations

import filecmp
import hashlib
import os
import shlex
import shutil
import tempfile
from pathlib import Path

from compiler import Compiler
from crates import Crates
from prove import NotBuilt, jobs, locked, say, waited

CRATE = "px_c"
CLANG = """#!/bin/sh
cp module.bc {folder}/module.bc || exit 1
exec {clang} "$@"
"""


def with_clang(script: str, toolchain: Path, folder: Path) -> Path:
    """A folder like that of the toolchain with a script in place of clang. It may name the toolchain's clang, and the folder for its files."""
    copy = folder / "toolchain"
    shutil.copytree(toolchain, copy, copy_function=os.symlink)
    clang = copy / "bin" / "clang"
    clang.unlink()
    clang.write_text(script.format(folder=shlex.quote(str(folder)), clang=shlex.quote(str(toolchain / "bin" / "clang"))), encoding="utf-8")
    clang.chmod(0o755)
    return copy


def as_text(clang: Path) -> list[str | Path]:
    """The words that write a module as text, as the toolchain gives it to clang: the module, -o and the text follow."""
    return [clang, "--no-default-config", "-Xclang", "-disable-llvm-passes", "-S", "-emit-llvm", "-x", "ir"]


def build(crates: Crates, archive: Path, folder: Path) -> None:
    """Builds the library as `make library` does, and leaves its module in a folder."""
    with open(folder / "log", "w", encoding="utf-8") as log:
        compiler = Compiler(crates, archive.parent, log)
        words = compiler.words(CRATE, folder / archive.name, jobs())
        at = words.index("--toolchain") + 1
        words[at] = str(with_clang(CLANG, Path(words[at]), folder))
        status = waited(compiler, lambda: compiler.call(words, crates.folder(CRATE), log))
    if status:
        end = (folder / "log").read_text(encoding="utf-8", errors="replace")[-2000:]
        raise NotBuilt(f"{end}\nexifnorm: the compiler ended with status {status}")
    if not filecmp.cmp(folder / archive.name, archive, shallow=False):
        raise NotBuilt(f"{archive} is not of the current sources: call `make library`")


def kept(crates: Crates) -> Path:
    """The folder with `module.bc`, the module of the library that `make library` built."""
    archive = crates.top / "out" / "proved" / crates.product(CRATE)
    if not archive.exists():
        raise NotBuilt(f"{archive} is missing: call `make library`")
    folder = crates.top / "out" / "module" / hashlib.sha256(archive.read_bytes()).hexdigest()[:16]
    with locked(folder.parent / "lock", "another call builds the library's module: waiting for it"):
        if not folder.exists():
            put(crates, archive, folder)
    return folder


def put(crates: Crates, archive: Path, folder: Path) -> None:
    """Builds the module and moves it to its folder."""
    say(f"building {CRATE} once more for its module, which takes about two minutes")
    with tempfile.TemporaryDirectory(dir=folder.parent) as making:
        build(crates, archive, Path(making))
        finished = Path(making, "made")
        finished.mkdir()
        os.replace(Path(making, "module.bc"), finished / "module.bc")
        os.replace(finished, folder)
