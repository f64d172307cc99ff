"""Runs a program as a user does, in a new folder with the files of a case, and returns what it wrote and left."""

import os
import subprocess
import tempfile
import threading
from dataclasses import dataclass, field

CLOSED_PIPE = "a closed pipe"  # in place of a device: nothing reads the pipe any more


@dataclass
class Outcome:
    status: object  # a number; below 0 the signal that stopped it; or 'no end' where it had to be stopped
    output: bytes
    errors: bytes  # what came on standard error
    files: dict = field(default_factory=dict)


def run(program, case, environment=None, seconds=600, keeps_open=()):
    """Runs the program with the case's arguments, files and input."""
    with tempfile.TemporaryDirectory() as folder:
        for name in case.folders:
            os.mkdir(os.path.join(folder, name))
        for name, octets in case.files.items():
            with open(os.path.join(folder, name), "wb") as it:
                it.write(octets)
        outcome = run_in(folder, program, case, environment, seconds, keeps_open)
        for name in sorted(set(os.listdir(folder)) - set(case.folders)):
            with open(os.path.join(folder, name), "rb") as it:
                outcome.files[name] = it.read()
        return outcome


def run_in(folder, program, case, environment, seconds, keeps_open):
    given = os.open(os.path.join(folder, case.input_from), os.O_RDONLY) if case.input_from else subprocess.PIPE
    taken = sink(case.output_to) if case.output_to else subprocess.PIPE
    try:
        started = subprocess.Popen(
            [program, *case.words],
            cwd=folder,
            stdin=given,
            stdout=taken,
            stderr=subprocess.PIPE,
            env={"PATH": os.environ.get("PATH", ""), "LANG": "C", **(environment or {})},
            pass_fds=keeps_open,
        )
    finally:
        if case.input_from:
            os.close(given)
        if case.output_to:
            taken.close()
    if case.in_pieces or case.endless:
        stdin, started.stdin = started.stdin, None
        threading.Thread(target=feed, args=(stdin, case), daemon=True).start()
    try:
        output, errors = started.communicate(case.input if started.stdin else None, seconds)
        status = started.returncode
    except subprocess.TimeoutExpired:
        started.kill()
        output, errors = started.communicate(timeout=300)
        status = "no end"
    return Outcome(status, output or b"", errors)


def sink(name):
    """Where the program's standard output goes if the test doesn't read it."""
    if name != CLOSED_PIPE:
        return open(name, "wb")
    reads, writes = os.pipe()
    os.close(reads)
    return os.fdopen(writes, "wb")


def feed(stream, case):
    """Writes the case's input in its pieces, and then the bytes that it repeats without end."""
    piece = case.in_pieces or max(len(case.input), 1)
    try:
        for at in range(0, len(case.input), piece):
            stream.write(case.input[at : at + piece])
            stream.flush()
        while case.endless:
            stream.write(case.endless * 65536)
    except OSError:
        pass  # the program reads no more
    try:
        stream.close()
    except OSError:
        pass
