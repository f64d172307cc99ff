#!/usr/bin/env python3
"""Times exifnorm's library beside plain C code for the same work and beside its peers, in one interleaved run.

  bench/peers/run.py LIBRARY PROGRAM [--only TEXT ..] [--rounds N] [--seconds S] [--no-peers]
  bench/peers/run.py LIBRARY PROGRAM --changed N

LIBRARY is the folder with libexifnorm.a and exifnorm.h. Each peer that is installed has a driver built here: libexif and libiptcdata
(Debian: libexif-dev, libiptcdata0-dev), exiv2 (libexiv2-dev), kamadak-exif (librust-kamadak-exif-dev and librust-mutate-once-dev; KAMADAK
names the registry folder if they are elsewhere). What isn't installed is named and left out. A time is processor time, the least of all
rounds, of which each runs every driver once; a ratio is exifnorm's time over the other's: below 1 exifnorm is faster. The forms of the
library and of C (limits/) must be equal, byte for byte. The most memory that a call has allocated, and a command of the program, is printed
over the block's bytes; neither block nor form count for a call. With --changed nothing is timed: so many changed blocks of each small kind
of the tests are read by both, and must be accepted by both, with the same form, or by none.
"""

import argparse
import os
import sys
import tempfile
from pathlib import Path
from random import Random
from typing import Dict, List

HERE = Path(__file__).resolve().parent
TESTS = HERE.parent.parent / "tests"
sys.path[:0] = [str(TESTS / it) for it in ("blocks", "program", "library")]
sys.dont_write_bytecode = True

from block_kinds import KINDS
from changed import changed
from drivers import OWN, Driver, all_drivers, own_drivers, whole_copy
from kinds import small_kinds
from program_costs import LARGE, filter_times, memory
from race import MODES, Differs, Times, allocated, compare_forms, least_times
from shims import make_shim


def drivers_for(block: bytes, drivers: Dict[str, Driver]) -> Dict[str, Driver]:
    """Those that read this kind of block."""
    is_iim = block[:1] == b"\x1c"
    return {name: it for name, it in drivers.items() if (it.is_for_iim if is_iim else it.is_for_exif)}


def print_times(least: Times) -> None:
    for mode in MODES:
        own = least[mode, OWN]
        if own is None:
            raise Differs("the library refuses the block")
        others = [(name, spent) for (way, name), spent in least.items() if way == mode and name != OWN]
        ratios = [f"{name} failed" if spent is None else f"{own / spent:.2f} of {name}" for name, spent in others]
        print(f"  {mode}: {own:,.2f} microseconds; {'; '.join(ratios)}")


def print_memory(drivers: Dict[str, Driver], path: Path) -> None:
    size = path.stat().st_size
    for mode in MODES:
        of = {name: allocated(it, mode, path) for name, it in drivers.items() if it.counting}
        print(f"  memory of {mode}, over the block: {', '.join(f'{name} {it / size:.2f}' for name, it in of.items())}")


class Bench:
    """The built drivers, and a folder for blocks."""

    def __init__(self, options: argparse.Namespace, folder: Path) -> None:
        self.options, self.folder, self.path = options, folder, folder / "block"
        self.program, self.library = os.path.abspath(options.program), Path(options.library).resolve()
        self.shim, self.whole = make_shim(folder, "watch_calls"), whole_copy(folder)

    def kinds(self) -> List[str]:
        return [name for name in KINDS if any(it in name for it in self.options.only)]

    def time_all(self) -> None:
        drivers = (own_drivers if self.options.no_peers else all_drivers)(self.folder, self.library)
        print(f"load {os.getloadavg()[0]:.1f}, {self.options.rounds} rounds of {self.options.seconds} seconds", flush=True)
        for name in self.kinds():
            block = KINDS[name]()
            self.path.write_bytes(block)
            print(f"\n{name}, {len(block):,} bytes", flush=True)
            self.time_one(block, drivers_for(block, drivers))
        print(f"\nload {os.getloadavg()[0]:.1f}")

    def time_one(self, block: bytes, drivers: Dict[str, Driver]) -> None:
        options = self.options
        compare_forms(drivers, self.path)
        print_times(least_times(drivers, self.path, options.rounds, options.seconds))
        print_memory(drivers, self.path)
        if len(block) >= LARGE:
            least = filter_times(self.program, self.whole, self.path, self.folder, options.rounds)
            ratios = ", ".join(f"{least['filter'] / least[it]:.2f} of {it}" for it in ("cat", "C", "one value"))
            print(f"  filter: {1e3 * least['filter']:.1f} ms, {ratios} with as many bytes")
        shares = memory(self.program, str(self.shim), block)
        print(f"  memory of the program, over the input: {', '.join(f'{it} {n:.2f}' for it, n in shares)}", flush=True)

    def compare_changed(self) -> None:
        drivers, accepted, count = own_drivers(self.folder, self.library), 0, 0
        for kind in small_kinds():
            for block in (it for whole in kind.blocks for it in [whole, *(changed(whole, Random(n)) for n in range(self.options.changed))]):
                self.path.write_bytes(block)
                try:
                    accepted += compare_forms(drivers_for(block, drivers), self.path) is not None
                except Differs as why:
                    raise Differs(f"{kind.name}: {why}: {block.hex() if len(block) < 1000 else len(block)}") from None
                count += 1
        print(f"{count} blocks, of which {accepted} are accepted: C and the library agree on each")


def main() -> None:
    words = argparse.ArgumentParser(description=__doc__, formatter_class=argparse.RawDescriptionHelpFormatter)
    words.add_argument("library", help="the folder with libexifnorm.a and exifnorm.h")
    words.add_argument("program", help="the built program")
    words.add_argument("--only", action="append", metavar="TEXT", help="only the kinds whose name has TEXT, or one of several")
    words.add_argument("--rounds", type=int, default=5)
    words.add_argument("--seconds", type=float, default=0.2, help="of each driver in a round")
    words.add_argument("--no-peers", action="store_true", help="only exifnorm and C")
    words.add_argument("--changed", type=int, default=0, metavar="N")
    options = words.parse_args()
    options.only = options.only or [""]
    with tempfile.TemporaryDirectory(dir="/dev/shm" if os.path.isdir("/dev/shm") else None) as folder:
        bench = Bench(options, Path(folder))
        try:
            bench.compare_changed() if options.changed else bench.time_all()
        except Differs as why:
            sys.exit(f"FAILED: {why}")


if __name__ == "__main__":
    main()
