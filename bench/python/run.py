#!/usr/bin/env python3
"""Times the Python package exifnorm beside piexif and beside the library's own calls, in one interleaved run, and prints a table.

  bench/python/run.py LIBRARY [--rounds N] [BLOCK ..]

LIBRARY is the folder with libexifnorm.a, libexifnorm.so.1 and exifnorm.h; each BLOCK is a file with a block, and without any a block
as a camera writes it is timed. The package is a copy with the extension module, which needs Python.h and cc. piexif is Debian's
python3-piexif; if this Python doesn't have it, /usr/bin/python3 may. Each round times every call, a few at once; a time is the least of
all rounds. Below 1 a ratio means that exifnorm is faster.
"""

import argparse
import os
import shutil
import subprocess
import sys
import tempfile
import time
import timeit
from functools import partial
from pathlib import Path
from typing import Callable, Dict

HERE = Path(__file__).resolve().parent
TOP = HERE.parent.parent
sys.path.insert(0, str(TOP / "tests" / "blocks"))
sys.dont_write_bytecode = True

import kinds
from meanings import Layout, laid

PREFIX = b"Exif\0\0"
SECONDS = 0.01  # of each call in a round
BATCH = 100e-6  # seconds of the calls that are timed at once: few enough that other processes seldom interrupt them


def camera() -> bytes:
    """A block as a camera writes it: 46 fields, a MakerNote and a thumbnail."""
    return laid(next(iter(kinds.camera())).meaning, Layout("<"))


def microseconds(timer: timeit.Timer) -> float:
    """The least time of a call."""
    end, least = time.perf_counter() + SECONDS, timer.timeit(10) / 10
    while time.perf_counter() < end:
        times = int(BATCH / least) + 1
        least = min(least, timer.timeit(times) / times)
    return 1e6 * least


def driver(library: str, folder: str) -> str:
    """The C program of bench/peers that times the library, where cc is there."""
    out, peers = os.path.join(folder, "driver"), TOP / "bench" / "peers"
    words = ["cc", "-O2", "-o", out, str(peers / "exifnorm.c"), "-I", library, os.path.join(library, "libexifnorm.a")]
    return out if subprocess.run(words, capture_output=True, check=False).returncode == 0 else ""


def in_c(program: str, mode: str, path: str) -> float:
    ran = subprocess.run([program, mode, str(SECONDS), path], capture_output=True, text=True, check=True)
    return float(ran.stdout)


def package(folder: str) -> str:
    """A folder with the package as it is installed: with the extension module, if that can be built."""
    packages = os.path.join(folder, "python")
    shutil.copytree(TOP / "python" / "exifnorm", os.path.join(packages, "exifnorm"))
    module = os.path.join("out", "lib", "_native.abi3.so")
    if subprocess.run(["make", "-s", "-C", str(TOP), module], check=False).returncode == 0:
        shutil.copy(TOP / module, os.path.join(packages, "exifnorm"))
    return packages


def timers(block: bytes) -> Dict[str, timeit.Timer]:
    """The calls in Python, by name. A timer makes a call without another one around it."""
    import exifnorm
    from exifnorm import _library

    library = _library.library()
    names = {"exifnorm": exifnorm, "block": block, "library": library, "whole": block if block.startswith(PREFIX) else PREFIX + block}
    calls = {f"exifnorm.{it}": f"exifnorm.{it}(block)" for it in ("kind", "normal", "digest", "fields", "captions")}
    calls["normalise by ctypes"] = "library.by_ctypes.normalise(block)"
    if _library._native:
        calls["normalise by the extension module"] = "library.normalise(block)"
    try:
        import piexif
    except ImportError:
        print("piexif is not installed, and is left out")
    else:
        if exifnorm.kind(block) == "exif":  # the only kind that it reads
            names["piexif"], calls["piexif.load"] = piexif, "piexif.load(whole)"
    return {name: timeit.Timer(call, timer=time.process_time, globals=names) for name, call in calls.items()}


def calls_over(block: bytes, path: str, program: str) -> Dict[str, Callable[[], float]]:
    """What is timed, by name."""
    timed = {name: partial(microseconds, it) for name, it in timers(block).items()}
    if program:
        timed["C: check"] = partial(in_c, program, "parse", path)
        timed["C: normalise"] = partial(in_c, program, "write", path)
    return timed


def race(timed: Dict[str, Callable[[], float]], rounds: int) -> Dict[str, float]:
    """The least time of each call over all rounds."""
    least: Dict[str, float] = {}
    for _ in range(rounds):
        for name, call in timed.items():
            least[name] = min(call(), least.get(name, float("inf")))
    return least


RATIOS = (
    ("exifnorm.fields", "piexif.load"),
    ("exifnorm.normal", "C: normalise"),
    ("normalise by ctypes", "C: normalise"),
    ("exifnorm.kind", "C: check"),
)


def main() -> None:
    words = argparse.ArgumentParser(description=__doc__, formatter_class=argparse.RawDescriptionHelpFormatter)
    words.add_argument("library")
    words.add_argument("blocks", nargs="*")
    words.add_argument("--rounds", type=int, default=40)
    words = words.parse_intermixed_args()
    library = os.path.abspath(words.library)
    os.environ.setdefault("EXIFNORM_LIBRARY", os.path.join(library, "libexifnorm.so.1"))
    blocks = {it: Path(it).read_bytes() for it in words.blocks} or {"a block as a camera writes it": camera()}
    with tempfile.TemporaryDirectory() as folder:
        program = driver(library, folder)
        sys.path.insert(0, package(folder))
        for name, block in blocks.items():
            path = os.path.join(folder, "block")
            Path(path).write_bytes(block)
            least = race(calls_over(block, path, program), words.rounds)
            print(f"\n{name}, {len(block):,} bytes")
            for call, spent in sorted(least.items(), key=lambda it: it[1]):
                print(f"  {call}: {spent:,.2f} microseconds")
            for call, over in RATIOS:
                if call in least and over in least:
                    print(f"  {call} over {over}: {least[call] / least[over]:.2f}", flush=True)


if __name__ == "__main__":
    main()
