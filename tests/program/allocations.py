"""Runs a case with an allocation of the program failing. Such a run must have the case's result, or report that it is out of memory."""

import functools
import os
from pathlib import Path
from typing import Iterable, Iterator, List, Tuple

from cases import Case
from judging import problems
from program import Outcome, run

MOST = 20_000  # more allocations than a run of a small block has
OVERLAP = 5  # allocations for the arguments that are tried again with each case
SECONDS = 600  # a guard alone, also on a very busy machine


def run_refusing(program: Path, refuse: str, case: Case, number: int) -> Tuple[Outcome, bool]:
    """Runs the case with this allocation failing. Returns the outcome, and whether the run came to this allocation."""
    reads, writes = os.pipe()
    try:
        environment = {"LD_PRELOAD": refuse, "REFUSE_ALLOCATION": str(number), "REFUSE_ALLOCATION_TELLS": str(writes)}
        outcome = run(program, case, environment, SECONDS, keeps_open=(writes,))
    finally:
        os.close(writes)
    with os.fdopen(reads, "rb") as it:
        return outcome, it.read() != b""


def lines_out_of_memory(case: Case) -> List[bytes]:
    """The lines that may report it: compare names the file, if it has opened one. There is none if it can't be written."""
    if case.output_to:
        return [b""]
    sides = ["", " in file 1", " in file 2"] if case.words[:1] == ["compare"] else [""]
    return [f"failed: OutOfMemory{it}\n".encode() for it in sides]


def reports_out_of_memory(case: Case, outcome: Outcome) -> bool:
    """Whether the run reports out of memory, wrote nothing else, and left the files unchanged; OUT may be empty."""
    after = {name: octets for name, octets in outcome.files.items() if name != case.out}
    before = {name: octets for name, octets in case.files.items() if name != case.out}
    return (
        outcome.status == 4
        and outcome.output in lines_out_of_memory(case)
        and outcome.errors == b""
        and after == before
        and outcome.files.get(case.out, b"") in (b"", case.files.get(case.out, b""))
    )


def every() -> Iterable[int]:
    """The number of each allocation."""
    return range(1, MOST + 1)


@functools.lru_cache(maxsize=None)
def for_arguments(program: Path, refuse: str, words: Tuple[str, ...]) -> int:
    """How many allocations a run has before it opens a file: as many as a run whose files are missing."""
    return next(number for number in every() if not run_refusing(program, refuse, Case("", words=[*words]), number)[1]) - 1


def after_arguments(program: Path, refuse: str, case: Case) -> Iterable[int]:
    """The numbers of the allocations after those for the arguments."""
    return range(max(1, for_arguments(program, refuse, tuple(case.words)) - OVERLAP) if case.words else 1, MOST + 1)


def some() -> Iterator[int]:
    """The numbers of some allocations: the first ones, then one at greater and greater distances."""
    number = 1
    while number <= MOST * 100:
        yield number
        number += 1 + number // 4


def problems_without_memory(program: Path, refuse: str, case: Case, numbers: Iterable[int]) -> List[str]:
    """What is wrong if each of these allocations fails. It ends with the first number that a run doesn't come to."""
    found, refused = [], 0
    for number in numbers:
        outcome, is_met = run_refusing(program, refuse, case, number)
        refused += is_met
        if is_met and reports_out_of_memory(case, outcome):
            continue
        wrong = problems(case, outcome)
        if wrong:
            found.append(f"without allocation {number}: {'; '.join(wrong)}")
        if not is_met:
            return found if refused else [*found, "no allocation was refused: the preloaded library is not in use"]
        if len(found) >= 3:
            return [*found, "no more allocations were tried"]
    return [*found, f"the program went on although {refused} allocations were refused"]
