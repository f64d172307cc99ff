#!/usr/bin/env python3
"""Makes the library as WebAssembly, of the module that the toolchain gives to its clang for the library of `make library`.

  build/wasm.py FOLDER               writes FOLDER/exifnorm.wasm
  build/wasm.py --unproved FOLDER    the same of the quick library without proofs, for tests; its version ends with -unproved

exifnorm.wasm imports nothing, and exports the functions of exifnorm.h that javascript/engine.js calls, `exifnorm_malloc`, `exifnorm_free`
and `exifnorm_allocations` of build/heap.c, and its memory. A pointer or a length is an i64 of which 32 bits count. FOLDER/exifnorm64.wasm is the same module before
binaryen lowers its addresses from 64 to 32 bits.

Of the module these are changed: the target triple, the data layout, and attributes that WebAssembly has no use for. Then the
toolchain's clang compiles and links it with heap.c, and binaryen's wasm-opt (Debian's binaryen) lowers and optimises it.
"""

from __future__ import annotations

import hashlib
import os
import re
import shutil
import subprocess
import sys
import tempfile
from pathlib import Path
from typing import Iterator

sys.dont_write_bytecode = True

import guard
import module
import quick
from compiler import Compiler, version
from crates import Crates
from prove import NotBuilt, locked, status_of

TOP = Path(__file__).resolve().parent.parent
HEAP = TOP / "build" / "heap.c"
EXPORTS = TOP / "packaging" / "exifnorm.map"
ENGINE = TOP / "javascript" / "engine.js"
TRIPLE = "wasm64-unknown-unknown"
LAYOUT = "e-m:e-p:64:64-p10:8:8-p20:8:8-i64:64-i128:128-n32:64-S128-ni:1:10:20"  # clang's own for this triple
ATTRIBUTES = re.compile(r' "(?:frame-pointer|probe-stack|stack-probe-size|target-cpu)"="[^"]*"')
FLAGS = [f"--target={TRIPLE}", "-mbulk-memory", "--no-default-config", "-O2", "-c"]
LIBRARY = ["-ffunction-sections", "-fdata-sections", "-mllvm", "-no-trap-after-noreturn", "-mllvm", "-trap-unreachable", "-x", "ir"]
# Four times what the deepest call needs, which reads a packet of XMP. It is below the data, so that an overflow is a trap.
STACK = 327680
LINKED = ["-mwasm64", "--no-entry", "--gc-sections", "--stack-first", "--fatal-warnings", "-z", f"stack-size={STACK}"]
NAMES = ["exifnorm.wasm", "exifnorm64.wasm"]
HOST = ["exifnorm_malloc", "exifnorm_free", "exifnorm_allocations"]
FEATURES = [f"--enable-{name}" for name in ("memory64", "bulk-memory", "sign-ext", "mutable-globals", "nontrapping-float-to-int")]
LOWER = [*FEATURES, "--memory64-lowering", "-O3", "--strip-debug", "--strip-producers"]
TABLE, ELEMENTS = 4, 9  # the numbers of sections


def run(*words: str | Path) -> None:
    ran = subprocess.run(words, stdin=subprocess.DEVNULL, stderr=subprocess.PIPE, text=True, check=False)
    if ran.returncode:
        raise NotBuilt(f"{ran.stderr}exifnorm: {Path(words[0]).name} ended with status {ran.returncode}")


def exports() -> list[str]:
    """The functions of exifnorm.h that JavaScript calls, and those for the host. A function that nobody calls makes the module longer."""
    called = {*re.findall(r"\bexifnorm_\w+", ENGINE.read_text(encoding="utf-8"))}
    return [name for name in re.findall(r"\bexifnorm_\w+(?=;)", EXPORTS.read_text(encoding="utf-8")) if name in called] + HOST


def for_wasm(text: str) -> str:
    """The text of the module for WebAssembly with addresses of 64 bits, as the module has them: no offset in it changes."""
    text, layouts = re.subn("(?m)^target datalayout = .*$", f'target datalayout = "{LAYOUT}"', text)
    text, triples = re.subn("(?m)^target triple = .*$", f'target triple = "{TRIPLE}"', text)
    if (layouts, triples) != (1, 1):
        raise NotBuilt(f"the module has {layouts} data layouts and {triples} triples")
    return ATTRIBUTES.sub("", text)


def number(octets: bytes, at: int) -> tuple[int, int]:
    """The number at an offset, in LEB128, and the offset behind it.

    >>> number(bytes([0xE5, 0x8E, 0x26]), 0)
    (624485, 3)
    """
    value = shift = 0
    while True:
        value |= (octets[at] & 127) << shift
        at, shift = at + 1, shift + 7
        if octets[at - 1] < 128:
            return value, at


def sections(octets: bytes) -> Iterator[tuple[int, bytes]]:
    """The sections of a WebAssembly module, each with its number and with all its bytes."""
    at = 8
    while at < len(octets):
        size, start = number(octets, at + 1)
        yield octets[at], octets[at : start + size]
        at = start + size


def without_table(octets: bytes) -> bytes:
    """The module without its table of functions, which no instruction uses. The linker writes one of 64 bits, which binaryen refuses."""
    return octets[:8] + b"".join(section for kind, section in sections(octets) if kind not in (TABLE, ELEMENTS))


def source_of(is_proved: bool) -> Path:
    """The file of the proved library's module, or of the text of the quick one, which is compiled if it is not of the current sources."""
    crates = Crates.read(TOP)
    if is_proved:
        return module.kept(crates) / "module.bc"
    return quick.Quick(crates, version()).compiled(quick.LIBRARY).with_name(quick.MODULE)


def clang() -> Path:
    """The toolchain's clang, whose file is the linker, too, under another name."""
    return Path(Compiler(Crates.read(TOP), TOP, sys.stderr).kit) / "toolchain" / "bin" / "clang"


def build(text: Path, folder: Path) -> None:
    """Compiles the module with a text, and leaves exifnorm64.wasm and exifnorm.wasm in a folder."""
    text.write_text(for_wasm(text.read_text(encoding="utf-8")), encoding="utf-8")
    library, heap, linker, linked = folder / "library.o", folder / "heap.o", folder / "wasm-ld", folder / "linked.wasm"
    run(clang(), *FLAGS, *LIBRARY, text, "-o", library)
    run(clang(), *FLAGS, "-std=c99", "-ffreestanding", "-Wall", "-Werror", HEAP, "-o", heap)
    linker.symlink_to(clang())
    run(linker, *LINKED, *(f"--export={name}" for name in exports()), library, heap, "-o", linked)
    (folder / "exifnorm64.wasm").write_bytes(without_table(linked.read_bytes()))
    run("wasm-opt", *LOWER, folder / "exifnorm64.wasm", "-o", folder / "exifnorm.wasm")


def make(source: Path, is_proved: bool, folder: Path) -> None:
    """Writes exifnorm.wasm and exifnorm64.wasm, made of the module in a file, into a new folder."""
    with tempfile.TemporaryDirectory(dir=folder.parent) as name:
        making = Path(name)
        finished, text = making / "made", making / "module.ll"
        finished.mkdir()
        run(*module.as_text(clang()), source, "-o", text)
        build(text, making)
        for file in NAMES:
            if (guard.MARK.encode() in (making / file).read_bytes()) == is_proved:
                raise NotBuilt(f"the version in {file} {'ends' if is_proved else 'does not end'} with {guard.MARK}")
            os.replace(making / file, finished / file)
        os.replace(finished, folder)


def kept(is_proved: bool = True) -> Path:
    """The folder with exifnorm.wasm and exifnorm64.wasm of the built library. They are made once, and kept beside the module."""
    if not shutil.which("wasm-opt"):
        raise NotBuilt("WebAssembly needs wasm-opt: `apt-get install binaryen`")
    source = source_of(is_proved)
    made_from = [*(file.read_bytes() for file in (source, Path(__file__), HEAP)), *(name.encode() for name in exports())]
    key = hashlib.sha256(b"".join(made_from)).hexdigest()[:16]
    folder = source.parent / f"wasm-{key}"
    with locked(source.parent / "wasm-lock", "another call makes exifnorm.wasm: waiting for it"):
        if not folder.exists():
            make(source, is_proved, folder)
    return folder


def main(words: list[str]) -> int:
    is_proved = words[:1] != ["--unproved"]
    folders = words if is_proved else words[1:]
    if len(folders) != 1 or folders[0].startswith("-"):
        sys.exit(__doc__)

    def copy() -> None:
        source, folder = kept(is_proved), Path(folders[0])
        folder.mkdir(parents=True, exist_ok=True)
        for name in NAMES:
            shutil.copyfile(source / name, folder / name)

    return status_of(copy)


if __name__ == "__main__":
    sys.exit(main(sys.argv[1:]))
