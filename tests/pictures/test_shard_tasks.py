"""`index --shards --scheduler`: each worker of a Dask cluster writes the catalogues of its folders, also where workers are killed."""

import itertools
import os
import pickle
from types import SimpleNamespace
from unittest import mock

import pytest
from made_files import app1, exif, jpeg, title
from studio import needs, run, write
from test_shards import folders, picture, rows
from with_cluster import EXV, PATIENT, Task, WithCluster

from exifnorm_pictures.catalogue import shards
from exifnorm_pictures.catalogue.store import Catalogue
from exifnorm_pictures.extract import programs
from exifnorm_pictures.scan import shard_tasks
from exifnorm_pictures.scan.walk import How
from exifnorm_pictures.scan.parts import WrongFolder
from exifnorm_pictures.scan.shard_tasks import TRIES, Parts

__all__ = ["folders"]  # a fixture
KILLS = 10
FOLDERS = 5
FAR = "tcp://127.0.0.1:9"


@needs("exiftool", "distributed")
class Cluster(WithCluster):
    def setUp(self):
        super().setUp()
        for number in range(FOLDERS):
            for name in (f"p/{number}/{number}.jpg", f"p/{number}/deep/{number}.jpg"):
                os.makedirs(os.path.dirname(self.path(name)), exist_ok=True)
                write(self.path(name), jpeg(app1(exif(name.encode()))))
            write(self.path("p", str(number), "x.exv"), EXV)

    def asked(self, *words, status=0):
        done = run([self.python, "-m", "exifnorm_pictures", *words], self.folder)
        self.assertEqual(done.returncode, status, done)
        return done.stdout.decode().splitlines()

    def test_workers_that_are_killed_ten_times_lose_nothing(self):
        """ExifTool kills the worker that begins it, in each folder, until it has done so ten times."""
        once = " || ".join(f'mkdir "{self.path(f"killed{number}")}" 2>/dev/null' for number in range(KILLS))
        scheduler = self.cluster(workers=2, PATH=self.deadly(once))
        lines = self.asked("index", "p", "--shards", "shards", "--scheduler", scheduler, *PATIENT)
        killed = [it for it in os.listdir(self.folder) if it.startswith("killed")]
        self.assertEqual(len(killed), KILLS, "a worker for each")
        self.assertIn("folders go on from a run that was stopped", "".join(lines))
        self.assertIn(f"{3 * FOLDERS} unchanged", self.asked("index", "p", "--shards", "shards", "--scheduler", scheduler, *PATIENT))
        self.asked("index", "p", "--catalogue", "all", "--quiet")
        # the blocks of the JPEGs are refused, so that these may be the same
        for words, status in (("same --json", 2), ("list --json", 0)):
            self.assertEqual(*(self.asked(*words.split(), name, status=status) for name in ("shards", "all")))
        self.assertEqual(self.asked("changed", "shards", "all", "--no-programs")[0], f"{3 * FOLDERS} pictures compared: none changed.")


# Without a cluster


class Near:
    """A cluster in this process: what goes through the network is pickled, and some tasks end otherwise than they would."""

    def __init__(self, outcomes=(), threads=2, error=None, slow=0):
        self.outcomes, self.threads, self.sent, self.returned, self.waits = list(outcomes), threads, [], [], []
        self.error, self.slow = error, slow

    def Client(self, scheduler, timeout):
        if self.error:
            raise self.error
        return self

    def __enter__(self):
        return self

    def __exit__(self, *_):
        pass

    def submit(self, function, *words, pure):
        self.sent.append(pickle.dumps((function, *words)))
        outcome = self.outcomes.pop(0) if self.outcomes else None
        if outcome is None:
            called, *given = pickle.loads(self.sent[-1])
            try:
                outcome = called(*given)
            except Exception as error:
                outcome = error
            self.returned.append(pickle.dumps(outcome))
        return Task(outcome)

    def nthreads(self):
        return {"one": self.threads} if self.threads else {}

    def wait(self, tasks, timeout, return_when):
        self.waits.append(len(tasks))
        if len(self.waits) <= self.slow:
            raise TimeoutError
        return SimpleNamespace(done={tasks[0]})


class Killed(Exception):
    """In place of Dask's KilledWorker."""


@pytest.fixture
def indexed(folders):
    """Indexes the folder p on such a cluster: the outcome of each part, by its folder."""

    def call(near, patterns=()):
        with mock.patch.multiple(shard_tasks, create=True, distributed=near, KilledWorker=Killed, CommClosedError=Killed):
            parts = Parts(FAR, str(folders / "shards"), False, How(), patterns)
            planned = parts.planned([os.fsencode(folders / "p")])
            outcomes = {os.path.basename(shard.part.folder): it for shard, it in parts.outcomes(planned, How(pixels=True, sidecars=True))}
        return planned, outcomes

    return call


def test_no_name_of_a_picture_and_no_row_goes_through_the_client(folders, indexed):
    near = Near()
    _, outcomes = indexed(near)
    assert {name: dict(it.counts) for name, it in outcomes.items()} == {b"a": {"accepted": 2}, b"b": {"accepted": 2}, b"p": {"accepted": 1}}
    assert len(rows(folders)) == 5
    for octets in (*near.sent, *near.returned):
        assert b".jpg" not in octets and b"deep" not in octets
    assert max(map(len, near.returned[1:])) < 400, "counts of a part"


def test_sidecars_are_read_by_workers(folders, indexed):
    (folders / "p" / "b" / "3.xmp").write_bytes(title("beside"))
    _, outcomes = indexed(Near())
    assert outcomes[b"b"].counts == {"accepted": 2}
    with Catalogue(shards.shards_of(str(folders / "shards")).there[1]) as catalogue:
        first = next(catalogue.pictures())
        assert catalogue.has_sidecars() and first.xmp and first.coded_picture is not None


def test_few_parts_wait_for_each_worker(folders, indexed):
    for number in range(30):
        (folders / "p" / f"more{number}").mkdir()
    near = Near(threads=2)
    indexed(near)
    assert max(near.waits) == 2 * shard_tasks.WAITING and len(near.sent) == 1 + 33


def test_a_part_at_which_workers_die_is_tried_again(folders, indexed):
    """The first outcome is the plan's."""
    _, outcomes = indexed(Near([None, *[Killed()] * (TRIES - 1)]))
    assert sum((it.counts for it in outcomes.values()), outcomes[b"a"].counts.__class__())["accepted"] == 5
    near = Near([None, *[Killed()] * 30], threads=1)
    _, outcomes = indexed(near)
    assert {it.problem.problem for it in outcomes.values()} == {"ToolFailed"} and len(near.sent) == 1 + 3 * TRIES
    assert "the next run goes on from there" in outcomes[b"a"].problem.detail
    assert len(rows(folders)) == 5, "what was committed stays"


def test_an_error_of_a_worker_is_a_line_of_its_part(folders, indexed):
    indexed(Near())
    (folders / "shards" / list(shards.listed(str(folders / "shards")))[1]).write_bytes(b"no catalogue")
    with pytest.raises(programs.Failed, match="is no catalogue"):
        indexed(Near())
    indexed_now = Near([None, ValueError("no package")])
    (folders / "shards" / list(shards.listed(str(folders / "shards")))[1]).unlink()
    _, outcomes = indexed(indexed_now)
    assert [it.problem.detail for it in outcomes.values() if it.problem] == ["the worker failed: ValueError: no package"]


def test_what_is_wrong_with_a_folder_is_wrong_use(folders, indexed):
    (folders / "shards").mkdir()
    (folders / "shards" / "file").write_bytes(picture(1))
    with pytest.raises(WrongFolder, match="is no folder of catalogues"):
        indexed(Near())


def test_a_cluster_without_workers(folders, indexed, monkeypatch):
    """It may take as long as a program may take for one file; while there are workers, it may take any time."""
    now = itertools.count(step=10)
    monkeypatch.setattr(shard_tasks.time, "monotonic", lambda: next(now))
    assert indexed(Near(slow=40))[1]
    near = Near(threads=0, slow=1000)
    with pytest.raises(programs.Failed, match=f"^the cluster {FAR} has no worker$"):
        indexed(near)
    assert 6 <= len(near.waits) <= 8, "a minute"


@pytest.mark.parametrize("error", [OSError("Timed out"), Killed("Timed out"), ValueError("Timed out")], ids=repr)
def test_a_cluster_that_cannot_be_reached(error, folders, indexed):
    with pytest.raises(programs.Failed, match=f"^the cluster {FAR} failed: Timed out$"):
        indexed(Near(error=error))


def test_without_dask(called_lines, folders):
    with mock.patch.object(shard_tasks, "distributed", None):
        status, _, messages = called_lines("index", "p", "--shards", "shards", "--scheduler", FAR)
    assert status == 4 and "python3-distributed" in messages
