#!/usr/bin/env python3
"""What commands cost on archives of made JPEG files, and what workers of Dask gain, as tables.

  bench/pictures/archive.py LIBRARY FOLDER [--pictures 10000 100000] [--workers 1 2 4]

LIBRARY is a folder such as out/lib. FOLDER keeps the pictures, the catalogues and, in costs.jsonl,
what was measured: if a run was stopped, the next one goes on from there. Times of commands are
processor times of one process, those of workers are by the clock.
"""

import argparse
import contextlib
import hashlib
import json
import math
import os
import shutil
import subprocess
import sys
import time
from dataclasses import dataclass
from functools import partial
from pathlib import Path
from typing import Any, Callable, Dict, Iterator, List, Sequence, Tuple

TOP = Path(__file__).resolve().parent.parent.parent
sys.path[:0] = [str(TOP / it) for it in ("python", "tests/pictures", "tests/blocks")]
sys.dont_write_bytecode = True

import made_files as made
from run import letters, make_pictures

Cost = Dict[str, float]
# Runs a command and prints its own seconds and memory: the system counts the memory of the process
# that starts it as its own.
OWN = """
import resource, sys
from exifnorm_pictures.cli import main
try:
    sys.exit(main.main(sys.argv[1:]))
finally:
    used = resource.getrusage(resource.RUSAGE_SELF)
    print(used.ru_utime + used.ru_stime, used.ru_maxrss / 1024, file=sys.stderr)
"""
SCHEDULER = ("distributed.cli.dask_scheduler", "--host", "127.0.0.1", "--port", "0")
WORKER = ("distributed.cli.dask_worker", "--nthreads", "1")


@dataclass(frozen=True)
class Step:
    """A command that is measured."""

    name: str
    words: str
    makes: str = ""  # what a run that was stopped may have left
    status: int = 0
    before: Callable[[Path], None] = lambda _: None


def edit(folder: Path) -> None:
    """Gives each eighth picture other metadata, and each next one another name."""
    for path in sorted((folder / "p").rglob("???????.jpg")):
        number = int(path.stem)
        if number % 8 == 0:
            exif, xmp = made.exif(letters(number)), made.title(f"edited {number}")
            iptc = made.resource(0x0404, made.iim(b"edited %d" % number))
            path.write_bytes(made.jpeg(made.app1(exif), made.app1_xmp(xmp), made.app13(iptc)))
        elif number % 8 == 1:
            path.rename(path.with_suffix(".moved.jpg"))


def edit_after_a_copy(folder: Path) -> None:
    """Keeps the catalogue of before the edits beside the one that gets them."""
    edit(folder)
    shutil.copy(folder / "C", folder / "D")


STEPS = (
    Step("`index`", "index p --catalogue C --jobs 1 --quiet", "C"),
    Step("`index`, nothing has changed", "index p --catalogue C --jobs 1 --quiet"),
    Step("`index --pixels`", "index p --catalogue P --jobs 1 --pixels --quiet", "P"),
    Step("`same`", "same C"),
    Step("`list --with keywords`, the first question", "list C --with keywords --columns keywords"),
    Step("`list --columns keywords`", "list C --columns keywords"),
    Step("`catalogue export`", "catalogue export C tables --quiet", "tables"),
    Step("`report`", "report C --html page/", "page"),
    Step("`verify`", "verify P --jobs 1 --quiet"),
    Step("`nightly`, the first night", "nightly p --catalogue N --jobs 1", "N", status=1),
    Step("`nightly`, no news", "nightly p --catalogue N --jobs 1"),
    Step(
        "`index`, an eighth edited and an eighth renamed",
        "index p --catalogue D --jobs 1 --quiet",
        "D",
        before=edit_after_a_copy,
    ),
    Step("`changed`", "changed C D", status=1),
    Step("`changed --each`", "changed C D --each", status=1),
    Step("`nightly`, the same news", "nightly p --catalogue N --jobs 1", status=1),
)
ANSWERS = (
    "list {} --columns keywords",
    "list {} --count keywords --json",
    "same {} --no-look --csv",
)


class Costs:
    """What was measured, in a file with a line for each."""

    def __init__(self, file: Path) -> None:
        self.file = file
        self.known: Dict[Tuple[int, str], Any] = {}
        if file.exists():
            for it in map(json.loads, file.read_text("utf-8").splitlines()):
                self.known[it["pictures"], it["name"]] = it["cost"]

    def of(self, count: int, name: str, measure: Callable[[], Any]) -> Any:
        """The cost that is known, or that is measured now."""
        if (count, name) not in self.known:
            self.known[count, name] = measure()
            line = {"pictures": count, "name": name, "cost": self.known[count, name]}
            with self.file.open("a", encoding="utf-8") as out:
                print(json.dumps(line), file=out)
        return self.known[count, name]


def command(folder: Path, words: str, status: int = 0) -> Tuple[bytes, List[str]]:
    """Runs a command, which must end with this status: what it prints, its seconds and its MB."""
    shell = ["/bin/sh", "-c", '"$0" "$@"; exit $?', sys.executable, "-c", OWN, *words.split()]
    done = subprocess.run(shell, cwd=folder, stdout=subprocess.PIPE, stderr=subprocess.PIPE)
    if done.returncode != status:
        raise SystemExit(f"{words}: status {done.returncode}\n{done.stderr.decode()}")
    return done.stdout, done.stderr.decode().split()[-2:]


def remove(path: Path) -> None:
    """Removes a file or a folder, if there is one."""
    if path.is_dir():
        shutil.rmtree(path)
    elif path.exists():
        path.unlink()


def measured(folder: Path, step: Step) -> Cost:
    """The seconds and megabytes of a step."""
    if step.makes:
        remove(folder / step.makes)
    step.before(folder)
    _, (seconds, megabytes) = command(folder, step.words, step.status)
    return {"seconds": float(seconds), "megabytes": float(megabytes)}


def dask(folder: Path, *words: str) -> "subprocess.Popen[bytes]":
    """Starts a part of a cluster."""
    there = [sys.executable, "-m", *words, "--scheduler-file", "cluster.json", "--no-dashboard"]
    nothing = subprocess.DEVNULL
    return subprocess.Popen(there, cwd=folder, stdout=nothing, stderr=nothing)


@contextlib.contextmanager
def cluster(folder: Path, workers: int) -> Iterator[str]:
    """The address of a Dask scheduler with so many workers, all on this machine."""
    from distributed import Client

    file = folder / "cluster.json"
    remove(file)
    running = [dask(folder, *SCHEDULER)]
    try:
        while not file.exists() or not file.stat().st_size:
            time.sleep(0.1)
        for number in range(workers):
            running.append(dask(folder, *WORKER, "--local-directory", f"worker{number}"))
        address = json.loads(file.read_text("utf-8"))["address"]
        with Client(address) as client:
            client.wait_for_workers(workers)
        yield address
    finally:
        for it in reversed(running):
            it.terminate()
            it.wait()


def by_workers(folder: Path, workers: int) -> float:
    """The seconds by the clock in which so many workers read the pictures."""
    remove(folder / f"S{workers}")
    with cluster(folder, workers) as address:
        began = time.perf_counter()
        command(folder, f"index p --shards S{workers} --scheduler {address} --quiet")
        return time.perf_counter() - began


def answers(folder: Path, catalogue: str) -> List[str]:
    """A digest of each answer."""
    printed = (command(folder, it.format(catalogue))[0] for it in ANSWERS)
    return [hashlib.sha256(it).hexdigest() for it in printed]


def make(folder: Path, count: int) -> Cost:
    """Makes the pictures."""
    (folder / "p").mkdir(parents=True, exist_ok=True)
    make_pictures(str(folder / "p"), count)
    return {}


def power(seconds: Sequence[float], counts: Sequence[int]) -> float:
    """By which power the time grows from the first count to the last."""
    if len(counts) < 2:
        return math.nan
    return math.log(seconds[-1] / seconds[0]) / math.log(counts[-1] / counts[0])


def over_commands(costs: Costs, top: Path, counts: Sequence[int]) -> None:
    """Prints what commands cost, and how the time without the start grows."""
    print("| Command |", " | ".join(f"{it:,}" for it in counts), "| Power |")
    print("|---|" + "---|" * (len(counts) + 1))
    for count in counts:
        costs.of(count, "pictures", partial(make, top / str(count), count))
    start = costs.of(0, "start", partial(measured, top, Step("", "--version")))["seconds"]
    for step in STEPS:
        found = [costs.of(it, step.name, partial(measured, top / str(it), step)) for it in counts]
        cells = " | ".join(f"{it['seconds']:.1f} s, {it['megabytes']:.0f} MB" for it in found)
        grows = power([it["seconds"] - start for it in found], counts)
        print(f"| {step.name} | {cells} | {grows:.2f} |", flush=True)


def over_workers(costs: Costs, folder: Path, workers: Sequence[int], count: int) -> None:
    """Prints in which time workers read the pictures, as they are after the edits."""
    expected = costs.of(count, "answers", partial(answers, folder, "D"))
    print("\n| Workers | By the clock | Answers |\n|---|---|---|")
    for number in workers:
        name = f"{number} workers"
        seconds = costs.of(count, name, partial(by_workers, folder, number))
        found = costs.of(count, f"answers by {name}", partial(answers, folder, f"S{number}"))
        same = "the same" if found == expected else "others"
        print(f"| {number} | {seconds:.1f} s | {same} |", flush=True)


def main() -> None:
    """Measures and prints."""
    form = argparse.RawDescriptionHelpFormatter
    words = argparse.ArgumentParser(description=__doc__, formatter_class=form)
    words.add_argument("library", type=Path)
    words.add_argument("folder", type=Path)
    words.add_argument("--pictures", type=int, nargs="+", default=[10_000, 100_000])
    words.add_argument("--workers", type=int, nargs="*", default=[1, 2, 4])
    asked = words.parse_args()
    os.environ["EXIFNORM_LIBRARY"] = str(asked.library.resolve() / "libexifnorm.so.1")
    os.environ["PYTHONPATH"] = str(TOP / "python")
    top = asked.folder.resolve()
    top.mkdir(parents=True, exist_ok=True)
    costs = Costs(top / "costs.jsonl")
    over_commands(costs, top, asked.pictures)
    if asked.workers:
        over_workers(costs, top / str(asked.pictures[-1]), asked.workers, asked.pictures[-1])


if __name__ == "__main__":
    main()
