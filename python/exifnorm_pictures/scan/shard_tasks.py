"""`index --shards` with `--scheduler`: the workers of a Dask cluster index the parts of an archive, each into its catalogue. A task is a part.

Folders go to the workers, and counts come back: no name and no row of a picture goes through the scheduler or this process. If a worker dies,
another one goes on from what it has committed. (Debian: python3-distributed.)
"""

from __future__ import annotations

import contextlib
import logging
import os
import time
from collections import Counter
from itertools import islice
from typing import Any, Iterator, Sequence

from ..extract import programs
from ..model.problems import Problem
from .walk import How
from .index import IndexOptions
from .parts import Outcome, Plan, Shard, WrongFolder, indexed, not_looked_at, plan

try:
    import distributed
    from distributed.comm import CommClosedError
    from distributed.scheduler import KilledWorker
except ImportError:
    distributed = None

TRIES = 3  # times that a part is given to the cluster, which gives it to some workers each time
WAITING = 2  # tasks of each thread of a worker, which runs one of them
POLL = 2.0  # seconds without a result after which the workers are counted
_DIED = "the workers that indexed it died; what they committed is kept, and the next run goes on from there"


def index_there(where: str, shard: Shard, again: bool, how: How, patterns: Sequence[str]) -> Outcome:
    """A worker's task: looks at the pictures of a part, and keeps them in its catalogue."""
    return indexed(where, shard, IndexOptions([], again, quiet=True, how=how), patterns)


class Parts:
    """The client of a cluster, of which each task is a part of an archive. Some of them wait for each thread of a worker."""

    def __init__(self, scheduler: str, where: str, again: bool, how: How, patterns: Sequence[str]) -> None:
        if distributed is None:
            raise programs.Failed("--scheduler needs Dask's distributed. In Debian: apt-get install python3-distributed")
        # the workers are the processes: each task looks at one picture after another
        self.scheduler, self.how = scheduler, how._replace(room="", jobs=1, lines=None)
        self.where, self.again, self.patterns = os.path.abspath(where), again, patterns
        self.deaths: "Counter[str]" = Counter()  # how often workers died at a part, by its catalogue
        self.tasks: dict[Any, Shard] = {}  # that haven't ended
        self.threads = 0  # of all workers, when they were last counted
        self.counted = 0.0

    def planned(self, names: Sequence[bytes]) -> Plan:
        """The parts of some folders, as a worker sees them. Raises `WrongFolder`, and `programs.Failed` if the cluster fails."""
        with self._connected() as client:
            task = client.submit(plan, self.where, [os.path.abspath(name) for name in names], self.patterns, pure=False)
            self._finished(client, [task])
            try:
                planned: Plan = task.result()
            except WrongFolder:
                raise
            except Exception as error:
                raise programs.Failed(f"a worker of {self.scheduler} failed: {type(error).__name__}: {error}") from error
            return planned

    def outcomes(self, planned: Plan, how: How) -> Iterator[tuple[Shard, Outcome]]:
        """Each part with its outcome, in order of arrival; few wait for each worker."""
        shards = iter(planned.shards)
        with self._connected() as client:
            while True:
                for shard in islice(shards, self._lacking(client)):
                    self._submit(client, shard, how)
                if not self.tasks:
                    return
                for task in self._finished(client, list(self.tasks)):
                    shard = self.tasks.pop(task)
                    outcome = self._outcome(task, shard)
                    if not outcome:
                        self._submit(client, shard, how)
                    else:
                        yield shard, outcome

    @contextlib.contextmanager
    def _connected(self) -> Iterator[Any]:
        """The client while it is connected. Raises `programs.Failed`."""
        logging.disable(logging.CRITICAL)  # Dask writes tracebacks; what is wrong is in the errors below
        try:
            with self._client() as client:
                yield client
        except (OSError, CommClosedError) as error:
            raise programs.Failed(f"the cluster {self.scheduler} failed: {error}") from error

    def _client(self) -> Any:
        """A client of the scheduler. Dask has errors of many kinds for a name that is no address, or one with TLS without its files."""
        try:
            return distributed.Client(self.scheduler, timeout=max(self.how.seconds, 1.0))
        except (ValueError, TypeError, KeyError, RuntimeError) as error:
            raise programs.Failed(f"the cluster {self.scheduler} failed: {error}") from error

    def _lacking(self, client: Any) -> int:
        """How many tasks can be given to the workers now; one at least if none has any."""
        if not self.counted or time.monotonic() - self.counted > POLL:
            self.threads = sum(client.nthreads().values())
            self.counted = time.monotonic()
        return max(0, WAITING * max(1, self.threads) - len(self.tasks))

    def _submit(self, client: Any, shard: Shard, how: How) -> None:
        there = self.how._replace(pixels=how.pixels, sidecars=how.sidecars)
        self.tasks[client.submit(index_there, self.where, shard, self.again, there, self.patterns, pure=False)] = shard

    def _finished(self, client: Any, tasks: list[Any]) -> list[Any]:
        """Those of some tasks that have ended, at least one. Raises `programs.Failed` if there has been no worker for too long."""
        since = time.monotonic()
        while True:
            try:
                return list(distributed.wait(tasks, timeout=POLL, return_when="FIRST_COMPLETED").done)
            except TimeoutError:
                pass
            if client.nthreads():
                since = time.monotonic()
            elif time.monotonic() - since > self.how.seconds:
                raise programs.Failed(f"the cluster {self.scheduler} has no worker")

    def _outcome(self, task: Any, shard: Shard) -> Outcome | None:
        """The outcome of a task; None if its part is to be given to a worker once more, which goes on from what is committed."""
        try:
            return task.result()  # type: ignore[no-any-return]
        except KilledWorker:
            self.deaths[shard.name] += 1
            return None if self.deaths[shard.name] < TRIES else not_looked_at(shard, Problem.TOOL_FAILED, _DIED, self.patterns)
        except Exception as error:  # its catalogue is damaged, or the worker has other packages
            detail = f"the worker failed: {type(error).__name__}: {error}"
            return not_looked_at(shard, Problem.TOOL_FAILED, detail, self.patterns)
