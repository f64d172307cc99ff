"""What the program costs: the time of its filter beside `cat` and plain C, and the memory that each command requests."""

import os
import subprocess
from pathlib import Path
from typing import Dict, Iterator, List, Tuple

from block_kinds import UNDEFINED, one_value
from cases import Case
from watching import watched

LARGE = 1 << 20  # the time of a smaller block is that of starting a program


def seconds(words: List[str], path: Path, folder: Path) -> float:
    """The processor time of a command, from a file to a file."""
    with open(path, "rb") as reader, open(folder / "out", "wb") as writer, subprocess.Popen(words, stdin=reader, stdout=writer) as process:
        _, status, used = os.wait4(process.pid, 0)
        process.returncode = os.waitstatus_to_exitcode(status)
    if process.returncode != 0:
        raise SystemExit(f"{words} ended with status {process.returncode}")
    return used.ru_utime + used.ru_stime


def filter_times(program: str, whole: str, path: Path, folder: Path, rounds: int) -> Dict[str, float]:
    """The least seconds of the filter, of `cat`, of a C program that reads the whole file before it writes it, and of the filter on one
    value with as many bytes, in turns."""
    plain = folder / "plain"
    plain.write_bytes(one_value(UNDEFINED, bytes(path.stat().st_size - 26)))
    commands = {"filter": ([program], path), "cat": (["cat"], path), "C": ([whole], path), "one value": ([program], plain)}
    least = dict.fromkeys(commands, float("inf"))
    for _ in range(rounds):
        for name, (words, read) in commands.items():
            least[name] = min(least[name], seconds(words, read, folder))
    return least


def memory(program: str, shim: str, block: bytes) -> Iterator[Tuple[str, float]]:
    """The most bytes that each command has allocated at once, over its input."""
    files = {"a": block, "b": block}
    for words in ([], ["check", "a"], ["show", "a"], ["captions", "a"], ["normalise", "a", "OUT"], ["compare", "a", "b"]):
        case = Case("", words=words, files=files, input_from="" if words else "a")
        _, counts = watched(program, shim, case)
        inputs = 2 if "b" in words else 1
        yield words[0] if words else "filter", counts.held / len(block) / inputs
