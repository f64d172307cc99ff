#!/usr/bin/env python3
"""What an archive costs for each picture, over one catalogue and over four that are read as one: processor time, disk, network and memory.

  bench/pictures/shards.py LIBRARY [--rows 100000] [--files 4000]

LIBRARY is a folder such as out/lib. `index` reads small JPEG files with Exif, IPTC and XMP that it makes, and SQL makes the catalogues of many
rows, as bench/pictures/commands.py does. What goes through the scheduler of a cluster is pickled here, as Dask does, and counted.
"""

import argparse
import importlib.util
import os
import pickle
import sys
import tempfile
from itertools import chain
from pathlib import Path
from typing import Any, Dict, Iterator, Sequence, Tuple

TOP = Path(__file__).resolve().parent.parent.parent
sys.path[:0] = [str(TOP / it) for it in ("python", "tests", "tests/blocks", "tests/pictures")]
sys.dont_write_bytecode = True

import test_shards

from exifnorm_pictures.catalogue import shards
from exifnorm_pictures.scan import parts, shard_tasks
from exifnorm_pictures.scan.walk import How

Rows = Iterator[Tuple[str, str]]
FOLDERS = 4  # with a catalogue each


def _beside(name: str) -> Any:
    """A script of this folder as a module."""
    spec = importlib.util.spec_from_file_location(f"bench_{name}", Path(__file__).with_name(f"{name}.py"))
    module = importlib.util.module_from_spec(spec)  # type: ignore[arg-type]
    spec.loader.exec_module(module)  # type: ignore[union-attr]
    return module


commands, files_of = _beside("commands"), _beside("run")
QUESTION = "list {} --where creator=anna -0"
LISTED = ("same {} --no-look", QUESTION, "list {} --count creator", "catalogue export --no-look {} tables --quiet")


def make(folder: Path, count: int) -> None:
    """Two catalogues, of which one has edited pictures, and four with the same pictures of each."""
    commands.make(folder, count)
    for all_, name in (("C", "shards"), ("D", "others")):
        (folder / name).mkdir()
        for number in range(FOLDERS):
            test_shards.part_of(folder / all_, folder / name / str(number), number, FOLDERS)
        shards.put_list(str(folder / name), list(map(str, range(FOLDERS))))


def over_rows(folders: Sequence[Path], counts: Sequence[int], environment: Dict[str, str]) -> Rows:
    """What commands take over one catalogue and over four, for each further picture: of two folders one has more pictures."""

    def slopes(*lines: str) -> str:
        return " / ".join(_slope([commands.cost(folder, line, environment) for folder in folders], counts) for line in lines)

    for words in LISTED:
        if words == QUESTION:
            yield f"{words.format('C')}, the first, which makes the texts ready", slopes(*(words.format(name) for name in ("C", "shards")))
        yield words.format("C"), slopes(*(words.format(name) for name in ("C", "shards")))
    yield "changed C D --no-programs", slopes("changed C D --no-programs", "changed shards others --no-programs")
    yield "merge shards --catalogue all", slopes("catalogue merge shards --catalogue all")
    sizes = [_size(folder / "shards") for folder in folders]
    yield "bytes of a catalogue for a picture with two fields", f"{(sizes[1] - sizes[0]) / (counts[1] - counts[0]):,.0f}"


def _slope(costs: Sequence[Tuple[float, int]], counts: Sequence[int]) -> str:
    seconds = (costs[1][0] - costs[0][0]) / (counts[1] - counts[0])
    return f"{seconds * 1e6:,.0f} microseconds a picture, {costs[1][1]} MB"


def _size(folder: Path) -> int:
    return sum(it.stat().st_size for it in folder.iterdir())


def over_files(folder: Path, count: int, environment: Dict[str, str]) -> Rows:
    """What `index` takes, and what goes through a scheduler."""
    for number in range(FOLDERS):
        (folder / "p" / str(number)).mkdir(parents=True)
        files_of.make_pictures(str(folder / "p" / str(number)), count // FOLDERS)
    few = folder / "few" / "0"
    few.mkdir(parents=True)
    files_of.make_pictures(str(few), 4)
    for what in ("index, the first run", "index, nothing has changed"):
        costs = [commands.cost(folder, f"index {it} --shards of-{it} --quiet --jobs 1", environment) for it in ("few", "p")]
        yield what, _slope(costs, (4, count))
    yield "bytes of a catalogue for a picture with Exif, IPTC and XMP", f"{_size(folder / 'of-p') / count:,.0f}"
    yield from _network(folder)


def _network(folder: Path) -> Rows:
    """The bytes of a part and its outcome."""
    planned = parts.plan(str(folder / "of-p"), [os.fsencode(folder / "p")], [])
    how = How(jobs=1)
    sent = [(str(folder / "of-p"), shard, False, how, []) for shard in planned.shards]
    returned = [shard_tasks.index_there(*words) for words in sent]
    octets = sum(len(pickle.dumps(it)) for it in (planned, *sent, *returned))
    yield "bytes through the scheduler", f"{octets / len(sent):,.0f} a folder"


def main() -> None:
    """Prints the table."""
    parser = argparse.ArgumentParser()
    parser.add_argument("library", type=Path)
    parser.add_argument("--rows", type=int, default=20_000)
    parser.add_argument("--files", type=int, default=4_000)
    arguments = parser.parse_args()
    library = str(arguments.library.resolve() / "libexifnorm.so.1")
    os.environ["EXIFNORM_LIBRARY"] = library
    environment = {**os.environ, "PYTHONPATH": str(TOP / "python")}
    print("| Measured | One catalogue / four as one |\n|---|---|")
    with tempfile.TemporaryDirectory() as name:
        folders, counts = [Path(name, it) for it in ("less", "more", "files")], (arguments.rows // 10, arguments.rows)
        for folder, count in zip(folders, counts):
            folder.mkdir()
            make(folder, count)
        rows = over_rows(folders[:2], counts, environment)
        for what, result in chain(over_files(folders[2], arguments.files, environment), rows):
            print(f"| {what} | {result} |", flush=True)


if __name__ == "__main__":
    main()
