#!/usr/bin/env python3
"""What each command of exifnorm-pictures costs on catalogues with so many pictures: processor time and the most memory, as a table.

  bench/pictures/commands.py LIBRARY [--pictures 10000 100000] [--only export]

LIBRARY is a folder such as out/lib. SQL makes the catalogues, as tests/pictures/test_query_steps.py does: two and two pictures are equal,
by their meaning or by something else, and three eighths of the other catalogue are edited, moved or new.
"""

import argparse
import os
import re
import shutil
import sqlite3
import subprocess
import sys
import tempfile
from contextlib import closing
from pathlib import Path
from typing import Dict, List, Tuple

TOP = Path(__file__).resolve().parent.parent.parent
sys.path[:0] = [str(TOP / it) for it in ("python", "tests", "tests/blocks", "tests/pictures")]
sys.dont_write_bytecode = True

import test_query_steps as made

# Runs a command, and prints its own processor time and memory: those of a process that is waited for have its parent's memory, too
OWN = """
import os, resource, sys
from exifnorm_pictures.cli import main
main.main(sys.argv[1:])
used = resource.getrusage(resource.RUSAGE_SELF)
print(used.ru_utime + used.ru_stime, used.ru_maxrss // 1024, file=sys.stderr)
"""


def make(folder: Path, count: int) -> None:
    """The catalogues C and D, and the files beside them."""
    made.make(folder / "C", count)
    shutil.copy(folder / "C", folder / "D")
    with closing(sqlite3.connect(folder / "D")) as base, base:
        for statement in made.EDITS:
            base.execute(statement)
    (folder / "new" / "one").mkdir(parents=True)
    (folder / "rules").write_text("every picture needs credit\ncreator is Otto\n", encoding="ascii")


def cost(folder: Path, words: str, environment: Dict[str, str]) -> Tuple[float, int]:
    """The seconds and the MB of a command. A report about many pictures is a folder."""
    command = ["/bin/sh", "-c", '"$0" "$@"; exit $?', sys.executable, "-c", OWN, *re.sub("--html page$", "--html page/", words).split()]
    done = subprocess.run(command, cwd=folder, env=environment, stdout=subprocess.DEVNULL, stderr=subprocess.PIPE, text=True, check=True)
    seconds, memory = done.stderr.splitlines()[-1].split()
    return float(seconds), int(memory)


def main() -> None:
    """Prints the table."""
    parser = argparse.ArgumentParser()
    parser.add_argument("library", type=Path)
    parser.add_argument("--pictures", type=int, nargs="+", default=[10_000, 100_000])
    parser.add_argument("--only", default="", help="commands with this text")
    arguments = parser.parse_args()
    environment = {
        **os.environ,
        "EXIFNORM_LIBRARY": str(arguments.library.resolve() / "libexifnorm.so.1"),
        "PYTHONPATH": str(TOP / "python"),
    }
    costs: Dict[str, List[str]] = {it: [] for it in made.COMMANDS if arguments.only in it}
    for count in arguments.pictures:
        with tempfile.TemporaryDirectory() as folder:
            make(Path(folder), count)
            for words, cells in costs.items():
                seconds, memory = cost(Path(folder), words, environment)
                cells.append(f"{seconds:.2f} s, {memory} MB")
    print("| Command |", " | ".join(f"{it:,}" for it in arguments.pictures), "|")
    print("|---|" + "---|" * len(arguments.pictures))
    for words, cells in costs.items():
        print(f"| `{words}` |", " | ".join(cells), "|")


if __name__ == "__main__":
    main()
