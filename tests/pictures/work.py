"""Counts what commands of exifnorm-pictures do, each in a process of its own, which a first one forks: to start Python takes longer than most.

What is counted doesn't depend on the machine: calls of Python, steps of SQLite, bytes that were asked of the allocator and that were hashed,
and the most bytes that were in use. Only `seconds`, of a processor, does.
"""

import ctypes
import hashlib
import importlib
import json
import os
import pkgutil
import resource
import sqlite3
import subprocess
import sys
import traceback
from pathlib import Path
from typing import NamedTuple

from studio import TESTS_PATH, Studio

SOURCE = Path(__file__).parent / "count_work.c"
COUNTED = ("calls", "steps", "asked", "hashed", "written", "memory")  # what doesn't depend on the machine
SECONDS = 100  # of a processor, after which a command is ended


class Work(NamedTuple):
    """What a command did, its status, and what it printed."""

    status: int
    calls: int
    steps: int  # of SQLite, in hundreds
    asked: int  # bytes, all requests together
    hashed: int
    written: int  # bytes, by calls of the system
    memory: int  # bytes in use at one time, more than before the command
    resident: int  # bytes of the whole process, at most
    seconds: float
    out: bytes
    err: str


def compiled(folder):
    """The library that counts, in a folder."""
    library = folder / "count_work.so"
    subprocess.run(["gcc", "-std=c11", "-Wall", "-Wextra", "-Werror", "-O2", "-shared", "-fPIC", "-o", library, SOURCE], check=True)
    return library


class Counting:
    """A process that runs commands and counts."""

    def __init__(self, library):
        more = {"PYTHONPATH": TESTS_PATH, "PATH": "/nowhere", "EXIFNORM_DEBUG": "1"}
        environment = Studio.environment(LD_PRELOAD=str(library), PYTHONMALLOC="malloc", **more)
        words = [sys.executable, __file__, str(library)]
        self.process = subprocess.Popen(words, stdin=subprocess.PIPE, stdout=subprocess.PIPE, env=environment)

    def run(self, folder, *words):
        """What a command does in a folder."""
        self.process.stdin.write(json.dumps([str(folder), words]).encode() + b"\n")
        self.process.stdin.flush()
        answer = json.loads(self.process.stdout.readline())
        out, err = ((Path(folder) / name).read_bytes() for name in (".out", ".err"))
        return Work(**answer, out=out, err=err.decode("utf-8", "replace"))

    def close(self):
        self.process.stdin.close()
        self.process.wait()
        self.process.stdout.close()


# In the process that is started


class Hash:
    """A digest that counts the bytes."""

    hashed = 0

    def __init__(self, inner):
        self.inner = inner

    def update(self, data):
        Hash.hashed += len(data)
        self.inner.update(data)

    def __getattr__(self, name):
        return getattr(self.inner, name)


def counting_hash(make):
    def made(data=b"", **more):
        Hash.hashed += len(data)
        return Hash(make(data, **more))

    return made


class Steps:
    """Hundreds of steps of SQLite."""

    counted = 0

    @classmethod
    def stepped(cls):
        cls.counted += 1


class Connection(sqlite3.Connection):
    """One that counts steps also after the catalogue has set a handler of its own."""

    def set_progress_handler(self, *_):
        super().set_progress_handler(Steps.stepped, 100)


def count_in_sqlite():
    connect = sqlite3.connect

    def connected(*words, **more):
        base = connect(*words, **more, factory=Connection)
        base.set_progress_handler()
        return base

    sqlite3.connect = connected


def import_all():
    """All modules of the package, and those that it imports only for some pictures: they would count in each process."""
    import exifnorm_pictures

    for module in pkgutil.walk_packages(exifnorm_pictures.__path__, "exifnorm_pictures."):
        if not module.name.endswith("__main__"):
            importlib.import_module(module.name)
    import json.decoder  # noqa: F401


def status_memory(name):
    with open("/proc/self/status") as file:
        return next(int(line.split()[1]) << 10 for line in file if line.startswith(name))


def written_bytes():
    with open("/proc/self/io") as file:
        return next(int(line.split()[1]) for line in file if line.startswith("wchar:"))


def counted(library, words):
    """Runs a command in this process, and counts."""
    from exifnorm_pictures.cli import main
    from exifnorm_pictures.catalogue import store
    from exifnorm_pictures.export import rows
    from exifnorm_pictures.extract import sidecars
    from exifnorm_pictures.model import budgets
    from exifnorm_pictures.scan import index, workers

    budgets.SECONDS = budgets.PROGRAM_SECONDS = 1000.0  # what is counted ends a picture, and not the clock of a slow machine,
    index.LONGEST_WAIT = workers.LONGEST_WAIT = 1e9  # which doesn't commit more often, either
    sidecars.MOST = 20  # of a picture, up to which the work for many pictures of one name is quadratic
    store.CACHE = rows._CACHE = 1000  # kB, which soon are in use
    budgets.READY_BYTES = 1 << 20
    number = {name: ctypes.c_longlong.in_dll(library, f"work_{name}") for name in ("calls", "asked", "used", "peak")}
    profile = ctypes.pythonapi.PyEval_SetProfile
    profile.argtypes, profile.restype = [ctypes.c_void_p, ctypes.c_void_p], None
    used, asked = number["used"].value, number["asked"].value
    number["peak"].value = used
    written = written_bytes()
    before = resource.getrusage(resource.RUSAGE_SELF)
    profile(ctypes.cast(library.work_call, ctypes.c_void_p), None)
    try:
        status = main._run(words)
        sys.stdout.flush()
    except SystemExit as ended:
        status = ended.code
    finally:
        profile(None, None)
    after = resource.getrusage(resource.RUSAGE_SELF)
    return {
        "status": status,
        "calls": number["calls"].value,
        "steps": Steps.counted,
        "asked": number["asked"].value - asked,
        "hashed": Hash.hashed,
        "written": written_bytes() - written,
        "memory": number["peak"].value - used,
        "resident": status_memory("VmHWM"),
        "seconds": after.ru_utime + after.ru_stime - before.ru_utime - before.ru_stime,
    }


def run_in_child(library, folder, words, out):
    """Runs a command, and writes what it did as JSON."""
    os.chdir(folder)
    resource.setrlimit(resource.RLIMIT_CPU, (SECONDS, SECONDS))
    for stream, name in ((1, ".out"), (2, ".err")):
        os.dup2(os.open(name, os.O_WRONLY | os.O_CREAT | os.O_TRUNC), stream)
    Path("/proc/self/clear_refs").write_text("5")  # the most memory of the process that was forked doesn't count
    try:
        answer = counted(library, words)
    except BaseException:
        traceback.print_exc()
        os._exit(1)
    os.write(out, json.dumps(answer).encode() + b"\n")
    os._exit(0)


def serve():
    """Runs the commands that standard input names, one in each line."""
    library = ctypes.PyDLL(sys.argv[1])
    hashlib.sha256, hashlib.blake2b = counting_hash(hashlib.sha256), counting_hash(hashlib.blake2b)
    count_in_sqlite()
    import_all()
    answers = os.dup(1)
    for line in sys.stdin.buffer:
        folder, words = json.loads(line)
        child = os.fork()
        if not child:
            run_in_child(library, folder, words, answers)
        status = os.waitstatus_to_exitcode(os.waitpid(child, 0)[1])
        if status:
            failed = {"status": -abs(status), **dict.fromkeys((*COUNTED, "resident", "seconds"), 1 << 50)}
            os.write(answers, json.dumps(failed).encode() + b"\n")


if __name__ == "__main__":
    serve()
