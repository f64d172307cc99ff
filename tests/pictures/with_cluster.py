"""A Dask cluster on this machine for the tests of `index --shards --scheduler`."""

import json
import os
import shutil
import subprocess
import time
from contextlib import ExitStack

from studio import Studio, WithPictures, interpreter_with, write

EXV = b"\xff\x01Exiv2\xff\xd9"  # exiv2's own format, which has no reader here
PATIENCE = 600  # seconds that a process of the cluster may take to begin or to end, also on a very busy machine
PATIENT = ("--limit", str(PATIENCE))  # for a command, which otherwise waits a minute for the first worker


class WithCluster(WithPictures):
    """Each test has a scheduler and workers, each with its nanny, which begins it again where it is killed."""

    def setUp(self):
        super().setUp()
        self.python = interpreter_with("distributed")
        self.open = ExitStack()
        self.addCleanup(self.open.close)

    def started(self, *words, **more):
        log = self.open.enter_context(open(self.path("cluster.log"), "ab"))
        # away from the folder of the pictures, so that a name that isn't absolute leads nowhere
        patient = {f"DASK_DISTRIBUTED__COMM__TIMEOUTS__{it}": f"{PATIENCE}s" for it in ("CONNECT", "TCP")}
        it = subprocess.Popen([self.python, "-m", *words], cwd="/", env=Studio.environment(**patient, **more), stdout=log, stderr=log)
        self.open.callback(it.wait, PATIENCE)
        self.open.callback(it.terminate)

    def cluster(self, workers=1, **more):
        """The address of a new cluster, whose scheduler drops a task at which more workers died than `failures`."""
        told = self.path("scheduler.json")
        self.started(
            "distributed.cli.dask_scheduler",
            "--host",
            "127.0.0.1",
            "--port",
            "0",
            "--no-dashboard",
            "--scheduler-file",
            told,
            DASK_DISTRIBUTED__SCHEDULER__ALLOWED_FAILURES=more.pop("failures", "3"),
        )
        ends = time.monotonic() + PATIENCE
        while not self.is_written(told) and time.monotonic() < ends:
            time.sleep(0.1)
        words = ("--scheduler-file", told, "--nthreads", "2", "--no-dashboard")
        for number in range(workers):
            self.started("distributed.cli.dask_worker", *words, "--local-directory", self.path(f"worker{number}"), **more)
        with open(told) as file:
            return json.load(file)["address"]

    def is_written(self, name):
        """Whether a file is there with its JSON: the scheduler makes it before it writes to it."""
        try:
            with open(name) as file:
                json.load(file)
        except (FileNotFoundError, ValueError):
            return False
        return True

    def deadly(self, condition):
        """An ExifTool that kills the worker that calls it, if the condition is true."""
        os.mkdir(self.path("bin"))
        real = shutil.which("exiftool")
        text = f'#!/bin/sh\nif {condition}; then kill -9 $PPID; exit; fi\nexec {real} "$@"\n'
        write(self.path("bin", "exiftool"), text.encode())
        os.chmod(self.path("bin", "exiftool"), 0o755)
        return self.path("bin") + os.pathsep + Studio.environment()["PATH"]


# Without a cluster


class Task:
    """A task of a cluster: what it returns, or raises."""

    def __init__(self, outcome):
        self.outcome = outcome

    def result(self):
        if isinstance(self.outcome, Exception):
            raise self.outcome
        return self.outcome
