"""The built program while the system fails: each system call in turn returns an error, a signal ends the program at each call, a write
stops after each byte.

strace makes system calls fail. The calls of the loader that starts the program don't fail: that would end any
program. A run must end as it does without a fault, or with status 4 and the line for what failed. A file or stream that it writes has a
prefix of the expected bytes, or its old content.

`openat`, `ftruncate` and `fdatasync` return EINTR only once here. Rust's standard library repeats these until they return something else,
so a run in which they always return it would never end; no file system does that.
"""

import functools
import os
import re
import resource
import signal
import subprocess
import tempfile
from dataclasses import dataclass, field
from pathlib import Path
from typing import Dict, Iterator, List, Optional, Tuple

import pytest
from meanings import Record
from reading import said

ONE = bytes.fromhex("4D4D002A00000008 0001 0112000300000001 00010000 00000000")
TURNED = bytes.fromhex("49492A0008000000 0100 1201030001000000 01000000 00000000")
LOOP = ONE[:-4] + bytes.fromhex("00000008")
OLD = b"what OUT held before"
SECONDS = 600  # a guard alone, also on a very busy machine
ERRORS = ("EIO", "EINTR", "ENOMEM")
READ, WRITE, MEMORY = b"failed: ReadFailed", b"failed: WriteFailed", b"failed: OutOfMemory"
SIDES = (b"", b" in file 1", b" in file 2")
# calls that take or give back memory; what fails there is memory, or the program does without
OF_MEMORY = {"brk", "mmap", "mremap", "munmap", "mprotect", "madvise"}


def record(datasets: int) -> bytes:
    """A caption record with a number of keywords, whose lengths have four bytes."""
    return Record([(2, 25, b"keyword %2d" % i) for i in range(datasets)]).spelled(extended=4)


FILES = {"one": ONE, "turned": TURNED, "loop": LOOP, "record": record(4000), "OUT": OLD}


@dataclass
class Run:
    """One run of the program, and its expected result if nothing fails."""

    words: List[str]
    status: int = 0
    output: bytes = b""
    stdin: str = ""
    out: Optional[bytes] = None  # the expected content of OUT

    @property
    def name(self) -> str:
        return " ".join(self.words) or f"the filter < {self.stdin}"

    @property
    def out_due(self) -> bytes:
        return OLD if self.out is None else self.out


@dataclass
class Outcome:
    status: int
    output: bytes
    errors: bytes
    files: Dict[str, bytes] = field(default_factory=dict)
    trace: str = ""

    @property
    def injected(self) -> List[str]:
        return [it for it in self.trace.splitlines() if "(INJECTED)" in it]


@functools.lru_cache(maxsize=None)
def form_of(block: bytes) -> bytes:
    return said(block).normal()


def runs() -> Iterator[Run]:
    """Each command with an accepted and a refused block, and the arguments for help and version."""
    yield Run(["check", "one"], output=b"ok exif\n")
    yield Run(["check", "loop"], 2, b"refused: Loop at 22\n")
    yield Run(["show", "record"], output=said(FILES["record"]).listing().encode())
    yield Run(["captions", "record"], output=said(FILES["record"]).captions().encode())
    yield Run(["compare", "one", "turned"], output=b"same\n")
    yield Run(["compare", "record", "loop"], 2, b"refused: Loop at 22 in file 2\n")
    yield Run(["normalise", "turned", "OUT"], out=form_of(TURNED))
    yield Run(["normalise", "record", "OUT"], out=form_of(FILES["record"]))
    yield Run(["normalise", "loop", "OUT"], 2, b"refused: Loop at 22\n", out=b"")
    yield Run(["normalise", "record", "NEW"])
    yield Run(["check", "absent"], 4, READ + b"\n")
    yield Run([], output=form_of(FILES["record"]), stdin="record")
    yield Run([], 2, b"refused: Loop at 22\n", stdin="loop")
    yield Run(["--version"], output=b"exifnorm 1.0.0\n")


class Runner:
    """The program, and a folder in which each run has a folder of its own."""

    def __init__(self, program: Path, folder: Path) -> None:
        self.program, self.folder = program, folder

    def run(self, run: Run, before: Tuple[str, ...] = (), trace: bool = True, limits: Tuple[Tuple[int, int], ...] = ()) -> Outcome:
        """Runs the program by this command, which is strace or sets limits."""
        with tempfile.TemporaryDirectory(dir=self.folder) as folder:
            for name, octets in FILES.items():
                Path(folder, name).write_bytes(octets)
            words = ["strace", "-y", "-o", f"{folder}/trace", *before] if trace else [*before]
            with open(f"{folder}/{run.stdin}" if run.stdin else os.devnull, "rb") as given:
                ran = subprocess.run(
                    [*words, self.program, *run.words],
                    cwd=folder,
                    stdin=given,
                    capture_output=True,
                    timeout=SECONDS,
                    env={"PATH": os.environ.get("PATH", ""), "LANG": "C"},
                    restore_signals=False,  # a write beyond a limit fails, and ends no process
                    preexec_fn=lambda: [resource.setrlimit(which, (most, most)) for which, most in limits] if limits else None,
                )
            text = Path(folder, "trace").read_text("utf-8", "replace") if trace else ""
            files = {it.name: it.read_bytes() for it in Path(folder).iterdir() if it.name != "trace"}
            return Outcome(ran.returncode, ran.stdout, ran.stderr, files, text)


def files_expected(run: Run) -> Dict[str, bytes]:
    files = {**FILES, "OUT": run.out_due}
    if "NEW" in run.words:
        files["NEW"] = form_of(FILES["record"])
    return files


def is_right(run: Run, outcome: Outcome) -> bool:
    """Whether a run ended as it does without a fault."""
    return (outcome.status, outcome.output, outcome.files) == (run.status, run.output, files_expected(run))


def keeps_files(run: Run, files: Dict[str, bytes]) -> bool:
    """Whether the files are unchanged, and OUT has its old content or a prefix of the expected bytes."""
    expected, written = files_expected(run), [it for it in ("OUT", "NEW") if it in run.words]
    others = {name: octets for name, octets in files.items() if name not in written}
    return others == {name: octets for name, octets in FILES.items() if name not in written} and all(
        files.get(name, b"") == FILES.get(name, b"") or expected[name].startswith(files[name]) for name in written
    )


def says(run: Run, outcome: Outcome, lines: List[bytes]) -> bool:
    """Whether a run ended with status 4 and one of these lines after a prefix of its output. The line is missing if it could not be
    written."""
    ends = [b"", *(line + b"\n" for line in lines)]
    starts = [outcome.output[: len(outcome.output) - len(end)] for end in ends if outcome.output.endswith(end)]
    return outcome.status == 4 and keeps_files(run, outcome.files) and any(run.output.startswith(it) for it in starts)


# ---- each system call


@dataclass(frozen=True)
class Call:
    """A system call of a run: its name, its number among the calls of that name, and its line in the trace."""

    name: str
    number: int
    line: str


def calls_of(trace: str) -> List[Call]:
    """The calls of a trace after those of the loader, which ends by unmapping the list of its libraries."""
    found, counts, begins = [], {}, 0
    for line in trace.splitlines():
        name = re.match(r"\w+(?=\()", line)
        if name:
            counts[name[0]] = counts.get(name[0], 0) + 1
            found.append(Call(name[0], counts[name[0]], line))
            begins = len(found) if name[0] == "munmap" and not begins else begins
    return [it for it in found[begins:] if it.name != "exit_group"]


def side_of(run: Run, line: str) -> bytes:
    """For a comparison: the file that a line of a trace names."""
    if run.words[:1] != ["compare"]:
        return b""
    return SIDES[next((at for at in (1, 2) if re.search(rf'[/"<]{run.words[at]}[">]', line)), 0)]


def lines_due(run: Run, call: Call, line: str, error: str) -> List[bytes]:
    """The lines that are right if this call fails; none if the program doesn't need the call."""
    if call.name in OF_MEMORY:
        return [MEMORY + it for it in SIDES]
    names_out = re.search(r'[/"<](OUT|NEW)[">]', line)
    if call.name == "write" or names_out:
        lines = [WRITE]
    elif call.name == "read" or re.search(r'[/"<](one|turned|loop|record|absent)[">]', line):
        lines = [READ + side_of(run, line)]
    else:
        return []
    if call.name == "fstat" or call.name == "statx":
        lines.append(WRITE)  # whether FILE is OUT is asked of both
    if error == "error=ENOMEM" and call.name != "read":
        lines.append(MEMORY + side_of(run, line))
    return lines


RUNS = pytest.mark.parametrize("run", [pytest.param(it, id=it.name) for it in runs()])
NORMALISES = pytest.mark.parametrize("run", [pytest.param(it, id=it.name) for it in runs() if it.words[:1] == ["normalise"]])


@pytest.fixture
def runner(program: Path, folder: Path) -> Runner:
    return Runner(program, folder)


@RUNS
def test_each_call_fails(runner, run, checks):
    """Each call of a run returns an error once, and each error from one call on."""
    plain = runner.run(run)
    assert is_right(run, plain)
    calls = calls_of(plain.trace)
    assert len(calls) > 3, plain.trace
    for call in calls:
        for error, when in ways(call):
            outcome = runner.run(run, (f"--inject={call.name}:{error}:when={call.number}{when}",))
            judge_failure(checks, f"{call.name} {call.number}{when} with {error}", run, call, error, outcome)


def ways(call: Call) -> Iterator[Tuple[str, str]]:
    """How a call fails: by which error, once or from this call on."""
    if call.name == "brk":
        yield from (("retval=0", ""), ("retval=0", "+"))  # it returns no error, except out of memory
        return
    if call.name == "write":
        yield "retval=0", ""
    for error in (*ERRORS, "ENOSPC") if call.name in ("openat", "write", "ftruncate") else ERRORS:
        yield f"error={error}", ""
    yield "error=EIO", "+"
    if call.name not in ("openat", "ftruncate", "fdatasync"):
        yield "error=EINTR", "+"


def judge_failure(checks, name: str, run: Run, call: Call, error: str, outcome: Outcome) -> None:
    if not outcome.injected:
        checks.check(name, False, f"the call was not reached: {outcome.trace[-300:]}")
        return
    lines = lines_due(run, call, outcome.injected[0], error)
    well = outcome.errors == b"" and (is_right(run, outcome) or says(run, outcome, lines))
    checks.check(name, well, f"status {outcome.status}, {outcome.output[-80:]!r} {outcome.errors[-80:]!r}, {outcome.injected[0]}")


# ---- a kill at each system call


@NORMALISES
def test_a_kill_at_each_call(runner, run, checks):
    """OUT is unchanged, empty, a prefix or complete, and every other file is unchanged."""
    left = set()
    for it in calls_of(runner.run(run).trace):
        outcome = runner.run(run, (f"--inject={it.name}:signal=SIGKILL:when={it.number}",))
        checks.equal(f"{it.name} {it.number}", (outcome.status, keeps_files(run, outcome.files)), (-signal.SIGKILL, True))
        left.add(outcome.files.get(run.words[2]))
    checks.check("before and behind the writes", len(left) > 1 or run.status == 2, left)


# ---- writes that stop


def test_cut_writes(runner, checks):
    """If a file takes only a number of bytes, it has exactly these, and the status is 4."""
    for name, most in (("turned", range(len(ONE))), ("record", range(0, len(form_of(FILES["record"])), 997))):
        form = form_of(FILES[name])
        for length in most:
            outcome = runner.run(Run(["normalise", name, "OUT"]), trace=False, limits=((resource.RLIMIT_FSIZE, max(length, 1)),))
            came = (outcome.status, outcome.output, outcome.files["OUT"])
            checks.equal(f"{name}: a write of {max(length, 1)} bytes", came, (4, WRITE + b"\n", form[: max(length, 1)]))
