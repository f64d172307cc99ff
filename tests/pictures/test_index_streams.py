"""`index` lists folders while it reads pictures: it holds a few names, and its catalogue is that of a run which lists everything first."""

import os
import shutil
import tempfile
import tracemalloc
from itertools import count, islice
from unittest import mock

import pytest
from hypothesis import given, settings, strategies as st
from made_blocks import MAKE, block, with_exif
from studio import SMALL_JPEG

from exifnorm_pictures.catalogue.store import Catalogue
from exifnorm_pictures.model.records import PictureRecord
from exifnorm_pictures.scan import index, workers
from exifnorm_pictures.scan.walk import Excluded, How, batch

NAMES = [b"a", b"a/b", b"a/b/c", b"a/d", b"e"]  # of folders
FILES = [b"1.jpg", b"1.xmp", b"2.jpg", b"3.txt"]


def looked(work, how):
    """What is found of each file without reading it, so that it can be recognised under another name."""
    for file in work:
        yield PictureRecord.of(file.path, file.root, file.stamp, "JPEG", sidecars=" ".join(it.file.decode() for it in file.sidecars))


def run(catalogue, names, ahead, look=looked, **more):
    """Indexes with so many files found at once; the counts."""
    how = How(jobs=1, sidecars=more.pop("sidecars", False))
    with mock.patch.object(index, "AHEAD", ahead):
        return index.index(index.IndexOptions(names, quiet=True, how=how, look=look, **more), catalogue)


def rows(catalogue):
    """What a catalogue has of each picture, in the order in which it has them."""
    return list(catalogue.rows("SELECT path, root, size, modified, inode, problem, detail, sidecars, run FROM pictures ORDER BY id"))


def edit(top, edits):
    """Adds, removes and moves files and folders."""
    for kind, folder, name, other in edits:
        path, to = os.path.join(top, folder, name), os.path.join(top, other, name)
        if kind == "add" and not os.path.isdir(path):
            os.makedirs(os.path.dirname(path), exist_ok=True)
            with open(path, "ab") as file:
                file.write(b"x")
        elif kind == "remove" and os.path.exists(path):
            os.remove(path)
        elif kind == "move" and os.path.exists(path) and os.path.isdir(os.path.dirname(to)):
            os.rename(path, to)
        elif kind == "folder" and folder != b"":
            shutil.rmtree(os.path.join(top, folder), ignore_errors=True)


FOLDER = st.sampled_from([b"", *NAMES])
EDITS = st.lists(
    st.tuples(st.sampled_from(["add", "add", "add", "remove", "move", "folder"]), FOLDER, st.sampled_from(FILES), FOLDER), max_size=9
)
RUNS = st.lists(
    st.tuples(
        EDITS,
        st.lists(st.sampled_from([b"", *NAMES, b"a/1.jpg"]), min_size=1, max_size=3),
        st.booleans(),
        st.sampled_from([(), ("a/b*",), ("*.txt",)]),
    ),
    min_size=1,
    max_size=4,
)


@settings(max_examples=25)
@given(RUNS, st.integers(1, 4), st.booleans())
def test_the_catalogue_is_that_of_a_run_which_lists_everything_first(runs, ahead, sidecars):
    with tempfile.TemporaryDirectory() as folder:
        top = os.fsencode(folder)
        with Catalogue(os.path.join(folder, "1"), make=True) as one, Catalogue(os.path.join(folder, "2"), make=True) as two:
            os.mkdir(os.path.join(top, b"p"))
            known_as_moved = set()
            for edits, names, again, patterns in runs:
                edit(os.path.join(top, b"p"), edits)
                before = {path for path, *_ in rows(one)}
                paths = [os.path.join(top, b"p", it) if it else os.path.join(top, b"p") for it in names]
                counts = [
                    run(it, paths, at_once, again=again, excluded=Excluded(patterns), sidecars=sidecars)
                    for it, at_once in ((one, ahead), (two, 1 << 20))
                ]
                assert counts[0] == counts[1]
                assert rows(one) == rows(two)
                moved = {detail for *_, problem, detail, _, _ in rows(one) if problem == "Moved"} - known_as_moved
                known_as_moved |= moved
                assert not moved & {f"to {os.fsdecode(it)}" for it in before}, "a picture that was known before"
                if names == [b""] and not patterns and not sidecars:
                    files = {os.path.join(it, name) for it, _, those in os.walk(paths[0]) for name in those}
                    assert {path for path, *_, problem, _, _, _ in rows(one) if problem is None} == files


def many(folder, size):
    """So many files in folders of a hundred."""
    for number in range(size // 100):
        os.mkdir(os.path.join(folder, b"%04d" % number))
        for name in range(100):
            with open(os.path.join(folder, b"%04d" % number, b"%08d.jpg" % name), "wb"):
                pass


@pytest.mark.parametrize("again", (False, True))
def test_memory_does_not_grow_with_the_names(tmp_path, again):
    peaks = []
    for size in (500, 2000):
        names = [os.path.join(os.fsencode(tmp_path), b"p%d" % size)]
        os.mkdir(names[0])
        many(names[0], size)
        with Catalogue(str(tmp_path / f"c{size}"), make=True) as catalogue, mock.patch.object(index, "BATCH", 25):
            if again:
                run(catalogue, names, 25)
            tracemalloc.start()
            try:
                assert run(catalogue, names, 25, again=again).total() == size
                peaks.append(tracemalloc.get_traced_memory()[1])
            finally:
                tracemalloc.stop()
    assert peaks[1] - peaks[0] < 100_000, "a name takes some 500 bytes"


def test_a_run_that_is_stopped_takes_no_picture_for_gone(tmp_path):
    top = os.fsencode(tmp_path / "p")
    os.mkdir(top)
    many(top, 500)

    def stopped(work, how):
        yield from looked(islice(work, 120), how)
        raise KeyboardInterrupt

    with Catalogue(str(tmp_path / "c"), make=True) as catalogue, mock.patch.object(index, "BATCH", 10):
        run(catalogue, [top], 50)
        shutil.rmtree(os.path.join(top, b"0003"))
        with pytest.raises(KeyboardInterrupt):
            run(catalogue, [top], 50, stopped, again=True)
        assert not [it for it in rows(catalogue) if it[5]]
        assert run(catalogue, [top], 50, again=True)["Vanished"] == 100
        assert {os.path.basename(os.path.dirname(it[0])) for it in rows(catalogue) if it[5]} == {b"0003"}


def test_rows_of_files_and_single_results_keep_the_order(tmp_path):
    """A catalogue takes rows of files over before it adds others, and several processes return both."""
    (tmp_path / "p").mkdir()
    many(os.fsencode(tmp_path / "p"), 100)

    def mixed(work, how):
        for number, result in enumerate(looked(work, how)):
            yield batch(str(tmp_path / f"rows{number}"), [result], [], None) if number % 5 in (1, 2) else result

    found = []
    for name, look in (("one", looked), ("mixed", mixed)):
        with Catalogue(str(tmp_path / name), make=True) as catalogue:
            run(catalogue, [os.fsencode(tmp_path / "p")], 50, look)
            found.append([row[0] for row in rows(catalogue)])
    assert found[0] == found[1] and len(found[0]) == 100


@pytest.mark.parametrize("processes", (1, 3, 64))
def test_parts_of_the_work(processes):
    """The first ones are small, and the last ones so that all processes end at nearly the same time; few files are taken ahead."""
    for size in (0, 1, 7, 100, 1000, 20_000):
        parts = list(workers.chunks_of(iter(range(size)), processes))
        assert [it for part in parts for it in part] == list(range(size))
        assert all(0 < len(part) <= workers.CHUNK for part in parts)
        if size >= 2 * processes * workers.PARTS * workers.LEAST_CHUNK:
            assert len(parts[0]) == workers.LEAST_CHUNK
            assert all(len(part) <= size // (processes * 2) for part in parts)
    endless = count()
    given = [it for part in islice(workers.chunks_of(endless, processes), 1000) for it in part]
    assert next(endless) - len(given) <= workers.AHEAD + workers.CHUNK


def test_files_are_found_while_pictures_are_read(tmp_path):
    """A process reads the first pictures before the last folder is listed."""
    top = os.fsencode(tmp_path / "p")
    os.mkdir(top)
    many(top, 1200)
    listed, listed_at_first = [], []
    real = os.scandir

    def look(work, how):
        for result in looked(work, how):
            listed_at_first.append(len(listed)) if not listed_at_first else None
            yield result

    with mock.patch.object(os, "scandir", lambda it: listed.append(it) or real(it)), Catalogue(str(tmp_path / "c"), make=True) as made:
        run(made, [top], 200, look)
    assert listed_at_first[0] < 7 < 13 == len(listed)


def equal(work, how):
    """Files of the same bytes, as copies are."""
    for file in work:
        yield PictureRecord.of(file.path, file.root, file.stamp, "JPEG")._replace(exif_octets="0" * 64, sha256="1" * 64)


def test_a_picture_moves_to_its_own_name_first(tmp_path):
    """Of several that are gone and have the same bytes, a new one is that of its name in its folder, or else the first that has no new name."""
    with Catalogue(str(tmp_path / "c"), make=True) as catalogue:
        for names in (("b/x", "c/a", "d/a"), ("e/a", "e/q")):
            shutil.rmtree(tmp_path / "p", ignore_errors=True)
            for name in names:
                (tmp_path / "p" / name).parent.mkdir(parents=True, exist_ok=True)
                (tmp_path / "p" / name).write_text(name[:0])
                os.utime(tmp_path / "p" / name, ns=(0, 1000 * ord(name[0]) + ord(name[2])))  # a new file may have an earlier inode
            counts = run(catalogue, [os.fsencode(tmp_path / "p")], 50, equal)
        assert (counts["Moved"], counts["Vanished"]) == (2, 1)
        found = {path: detail for path, *_, problem, detail, _, _ in rows(catalogue) if problem == "Moved"}
        p = os.fsencode(tmp_path / "p")
        assert found == {p + b"/b/x": f"to {tmp_path}/p/e/q", p + b"/c/a": f"to {tmp_path}/p/e/a"}


def test_many_copies_that_move_take_no_longer_each(counting, tmp_path):
    """Pictures that are gone and have copies under other names, all of the same bytes."""
    picture = with_exif(SMALL_JPEG, block([MAKE]))
    works = []
    for size in (60, 120):
        folder = tmp_path / str(size)
        for top, name in (("p", ""), ("copy", "new")):
            (folder / top).mkdir(parents=True)
            for number in range(size):
                (folder / top / f"{name}{number:03}.jpg").write_bytes(picture)
        words = ["index", "p", "--catalogue", "c", "--jobs", "1", "--quiet", "--pixels"]
        assert counting.run(folder, *words).status == 0
        shutil.rmtree(folder / "p")
        os.rename(folder / "copy", folder / "p")
        works.append(counting.run(folder, *words))
        assert works[-1].out.decode().splitlines()[0] == f"{size} accepted, {size} moved since an earlier run"
    assert works[1].steps <= 2.3 * works[0].steps + 20
    assert works[1].calls <= 2.3 * works[0].calls + 3000


def test_a_picture_moves_to_no_name_that_was_known(tmp_path):
    """It took the place of another one, of which nobody knows where it is."""
    top = os.fsencode(tmp_path / "p")
    os.mkdir(top)
    many(top, 100)
    first, second = (os.path.join(top, b"0000", b"%08d.jpg" % it) for it in (1, 2))
    with Catalogue(str(tmp_path / "c"), make=True) as catalogue:
        run(catalogue, [top], 50)
        os.rename(first, second)
        assert run(catalogue, [top], 50) == {"no block": 1, "unchanged": 98, "Vanished": 1}
