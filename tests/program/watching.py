"""Runs a case under watch_calls.c. It counts what the run costs, in numbers that don't depend on the machine."""

import os
from dataclasses import dataclass
from functools import lru_cache

from cases import Keeps
from judging import problems
from meanings import LIMIT
from program import run
from proved import bounds

SECONDS = 600  # a guard alone, also on a very busy machine
ROOM = 8192  # the size of the output buffer
CHUNK = 65536  # the most that one read requests
DOUBLES, MOST = 1 << 20, LIMIT + 7  # up to here the list that a file is read into doubles; the most that is read of a file
WORDS, CALLS = 48 * 1024, 140  # the most that reading the arguments takes: bytes, and calls for memory
SMALL = 1024  # the most that small lists take
FEW, COUNTERS = 64, 4 * 65536  # more DataSets than this are sorted, in a second list or with four bytes for each group
LARGE, TIMES = 1 << 20, 6.3  # for a file of this size or more a run allocates at most so many times its bytes
# a run takes at most a hundredth of this, also on a slow machine; one that goes through all its data again and again takes far more
SPENT, BYTES_A_MILLISECOND = 3000, 800
ITEM, FIELD = 24, 32  # the bytes that are kept of a DataSet and of a field


@dataclass
class Cost:
    """The cost of a growing list: calls for memory, the elements that they request, and its capacity."""

    calls: int = 0
    asked: int = 0
    capacity: int = 0


@lru_cache(maxsize=None)
def reading(size):
    """The cost of the list that a file of this size is read into. It doubles up to 1 MiB, by a few calls that are counted with the others
    of a run, and then grows by an eighth.

    >>> reading(65537), reading(3)
    (Cost(calls=0, asked=262144, capacity=131072), Cost(calls=0, asked=128, capacity=64))
    >>> reading((1 << 20) + 1)
    Cost(calls=1, asked=3276801, capacity=1179649)
    >>> reading(10_000_000).capacity < 10_000_000 * 9 // 8, reading(LIMIT).capacity <= MOST
    (True, True)
    """
    capacity = max(64, 1 << (min(size, DOUBLES) - 1).bit_length())
    it = Cost(asked=2 * capacity, capacity=capacity)
    while it.capacity < min(size, MOST):
        it.capacity = min(it.capacity + it.capacity // 8 + 1, MOST)
        it.calls += 1
        it.asked += it.capacity
    return it


def memory_of(keeps, size):
    """The cost of judging a file and of its meaning: calls for memory, bytes requested, and bytes allocated at once. Each list has exactly
    the capacity that is needed. Nothing is kept of strips, and of an IIM block that is only checked. If the meaning isn't known, the
    file may be nothing but DataSets of five bytes.

    >>> [memory_of(Keeps(datasets=count), 5 * count).asked - memory_of(Keeps(), 0).asked - ITEM * count for count in (64, 65, 20_000)]
    [0, 1560, 262144]
    """
    keeps = keeps or Keeps(datasets=size // 5, is_exif=True)
    marks = size // 8 if keeps.is_exif else 0
    sorting = min(COUNTERS, ITEM * keeps.datasets) if keeps.datasets > FEW else 0
    asked = marks + FIELD * keeps.fields + ITEM * keeps.datasets + sorting + SMALL
    return Cost(calls=20, asked=asked, capacity=asked)


def with_slack(count):
    """3 % more than is needed now."""
    return count * 103 // 100


@dataclass
class Counts:
    """What a run asked of the system: calls for memory, bytes requested, the most bytes allocated at once, reads, writes, and milliseconds
    of processor time."""

    calls: int
    asked: int
    held: int
    reads: int
    writes: int
    spent: int


def watched(program, shim, case, **failing):
    """The outcome of a run, and its counts, or None if the program did not come to its end."""
    hears, tells = os.pipe()
    try:
        environment = {"LD_PRELOAD": shim, "WATCH_TELLS": str(tells), **{name: str(it) for name, it in failing.items()}}
        outcome = run(program, case, environment, SECONDS, keeps_open=(tells,))
    finally:
        os.close(tells)
    with os.fdopen(hears, "rb") as it:
        told = it.read().split()
    return outcome, Counts(*map(int, told)) if told else None


def sizes_read(case):
    """How many bytes a run reads of each input. Of a device without end these are the limit, a prefix and one byte more."""
    if not case.words:
        return [len(case.files[case.input_from] if case.input_from else case.input)]
    sizes = {**{name: len(block) for name, block in case.files.items()}, "/dev/zero": MOST}
    named = [sizes[name] for name in map(os.path.normpath, case.words[1:]) if name in sizes]
    return named[:1] if case.words[0] == "normalise" else named


def bytes_sent(case, outcome):
    """How many bytes of a normal form or a text go through the output buffer."""
    if case.words[:1] == ["normalise"]:
        return 0 if outcome.status else len(outcome.files.get(case.out, b""))
    return len(outcome.output) if case.words[:1] in ([], ["show"], ["captions"]) else 0


def kept(case, sizes):
    """What a run keeps of each file. A block is checked without its meaning if it has DataSets."""
    files = [case.files[name] for name in map(os.path.normpath, case.words[1:]) if name in case.files]
    if case.words[:1] == ["check"] and files and files[0][:1] == b"\x1c":
        return [Keeps()]
    return case.keeps or [None] * len(sizes)


def most_in_memory(sizes, told):
    """The most bytes that a run may allocate at once: those for the meaning (`told`), and never more than a few times a large file."""
    return min(told, int(TIMES * sum(sizes))) if max(sizes, default=0) >= LARGE else told


def limits_of(case, outcome):
    """The most that a run may cost. A file is read by a buffer of one size, into a growing list. Its judgement and its meaning take memory
    too (`memory_of`), and the arguments do before that. A normal form and a text take none. They are one write if they fit into the
    output buffer; otherwise any two writes together have more bytes than the buffer, and a case may name a lower number."""
    sizes = sizes_read(case)
    read = [reading(it) for it in sizes]
    sent = bytes_sent(case, outcome)
    meant = [memory_of(keeps, size) for keeps, size in zip(kept(case, sizes), sizes)]
    words = WORDS if case.words else 0
    held = with_slack(CHUNK + SMALL + sum(it.capacity for it in read + meant))
    return Counts(
        calls=(CALLS if case.words else 0) + sum(it.calls for it in read + meant),
        asked=with_slack(CHUNK * len(sizes) + SMALL + sum(it.asked for it in read + meant) + words),
        held=max(words, most_in_memory(sizes, held)),
        reads=sum(it // CHUNK + 2 for it in sizes) if not case.input else sum(sizes) + 2,  # a pipe may give one byte at a time
        writes=(case.most_writes or (1 if sent <= ROOM else 2 * sent // ROOM + 2)) + (outcome.status == 4),  # one that failed, and the line
        spent=SPENT + sum(sizes) // BYTES_A_MILLISECOND,
    )


def problems_of_cost(program, shim, case):
    """What is wrong with a run and with its counts."""
    outcome, counts = watched(program, shim, case)
    found = problems(case, outcome)
    if counts is None:
        return [*found, "the run reported no counts"]
    proved = sum(map(bounds().file_request, sizes_read(case))) + (WORDS if case.words else 0)
    if counts.asked > proved:
        found.append(f"asked: the contracts allow {proved}, and {counts.asked} came")
    most = limits_of(case, outcome)
    for name in ("calls", "asked", "held", "reads", "writes", "spent"):
        came, limit = getattr(counts, name), getattr(most, name)
        if came > limit:
            found.append(f"{name}: expected at most {limit}, and {came} came")
    return found


def problems_of_short_calls(program, shim, case):
    """What is wrong if each read and each write moves a single byte. The result must be the same as with long reads and writes."""
    outcome, counts = watched(program, shim, case, SHORT=1)
    found = problems(case, outcome)
    if counts is None:
        return [*found, "the run reported no counts"]
    written = sum(len(octets) for name, octets in outcome.files.items() if octets != case.files.get(name))
    least = len(outcome.output) + written
    if not least <= counts.writes <= least + (outcome.status == 4):  # one that failed
        found.append(f"writes: expected {least}, and {counts.writes} came")
    return found
