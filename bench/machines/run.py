#!/usr/bin/env python3
"""Times the library beside the same library in C and as WebAssembly, in one interleaved run, and prints a table.

  bench/machines/run.py LIBRARY C PACKAGE [--rounds N] [--only TEXT]

LIBRARY is the folder with libexifnorm.a and exifnorm.h, C the folder of the library in C, as out/c/exifnorm-1.0.0-c, and PACKAGE that of the
JavaScript package, unpacked, which node times. A call in JavaScript copies its block into the module and its result out of it. Each round
times every call; a time is the least of all rounds. A ratio is the time of a form over that of the built library.
"""

import argparse
import json
import os
import subprocess
import sys
import tempfile
from pathlib import Path
from typing import Dict, List

HERE = Path(__file__).resolve().parent
TOP = HERE.parent.parent
sys.path[:0] = [str(TOP / "tests" / "blocks"), str(HERE.parent / "peers")]
sys.dont_write_bytecode = True

import block_kinds

SECONDS = 0.2  # of each call in a round
BLOCKS = [
    "a block as a camera writes it",
    "one inline field",
    "25 DataSets of 13 groups",
    "330,000 DataSets of random groups",
    "16 MB of bytes",
]
BUILT = "built"


def drivers(library: str, in_c: str, folder: str) -> Dict[str, str]:
    """The programs that time the built library and the one in C."""
    source, cc = str(TOP / "bench" / "peers" / "exifnorm.c"), ["cc", "-O2"]
    programs = {name: os.path.join(folder, name.replace(" ", "-")) for name in (BUILT, "C source")}
    subprocess.run([*cc, "-o", programs[BUILT], source, "-I", library, os.path.join(library, "libexifnorm.a")], check=True)
    subprocess.run([*cc, "-w", "-o", programs["C source"], source, "-I", in_c, os.path.join(in_c, "exifnorm.c")], check=True)
    return programs


def commands(programs: Dict[str, str], package: str) -> Dict[str, List[str]]:
    """What times a form of the library: with the mode, the seconds and the file of a block it prints the microseconds of a call."""
    timed = {name: [program] for name, program in programs.items()}
    timed["WebAssembly in node"] = ["node", str(HERE / "times.mjs"), os.path.abspath(package)]
    return timed


def race(timed: Dict[str, List[str]], mode: str, path: str, rounds: int) -> Dict[str, float]:
    """The least time of each form over all rounds."""
    least: Dict[str, float] = {}
    for _ in range(rounds):
        for name, words in timed.items():
            said = subprocess.run([*words, mode, str(SECONDS), path], capture_output=True, text=True, check=True).stdout
            least[name] = min(float(said), least.get(name, float("inf")))
    return least


def main() -> None:
    words = argparse.ArgumentParser(description=__doc__, formatter_class=argparse.RawDescriptionHelpFormatter)
    for name in ("library", "in_c", "package"):
        words.add_argument(name)
    words.add_argument("--rounds", type=int, default=20)
    words.add_argument("--only", default="", help="the blocks whose name contains a text")
    given = words.parse_args()
    if json.loads(Path(given.package, "package.json").read_text(encoding="utf-8"))["name"] != "exifnorm":
        words.error(f"{given.package} is not the JavaScript package")
    print("| Block | call | built | C source | WebAssembly in node |\n|---|---|---|---|---|")
    with tempfile.TemporaryDirectory() as folder:
        timed, path = commands(drivers(given.library, given.in_c, folder), given.package), os.path.join(folder, "block")
        for name in BLOCKS:
            if given.only not in name:
                continue
            Path(path).write_bytes(block_kinds.KINDS[name]())
            for mode, call in (("parse", "check"), ("write", "normalise")):
                least = race(timed, mode, path, given.rounds)
                ratios = [f"{spent / least[BUILT]:.2f}" for form, spent in least.items() if form != BUILT]
                print(f"| {name} | {call} | {least[BUILT]:,.2f} microseconds | {' | '.join(ratios)} |", flush=True)


if __name__ == "__main__":
    main()
