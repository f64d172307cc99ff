"""Signals at moments that no call of the system marks."""

import gc
import os
import signal
import sys
import tempfile
import weakref

import pytest

from exifnorm_pictures.catalogue import store
from exifnorm_pictures.files import folders, signals, tempdir


@pytest.mark.parametrize("opened", [lambda _: tempdir.room(), lambda it: folders.replaced(os.fsencode(it / "r"), "list", [])])
def test_a_signal_when_a_folder_was_just_made(opened, folder, monkeypatch):
    """It comes once the run knows the folder, and removes it."""

    def made(*words, **more):
        name = mkdtemp(*words, **more)
        signal.raise_signal(signal.SIGHUP)  # to this thread, as a process with one has it
        return name

    def stop(*_):
        raise signals.Stopped(signal.SIGHUP)

    mkdtemp = tempfile.mkdtemp
    monkeypatch.setattr(tempfile, "tempdir", str(folder))
    monkeypatch.setattr(tempfile, "mkdtemp", made)
    before = signal.signal(signal.SIGHUP, stop)
    try:
        with pytest.raises(signals.Stopped), opened(folder):
            pass
    finally:
        signal.signal(signal.SIGHUP, before)
    assert list(folder.iterdir()) == []


def test_a_query_that_is_open_when_python_ends(folder, monkeypatch):
    """Python has removed the names of the module by then."""
    with store.Catalogue(str(folder / "c"), make=True) as catalogue:
        rows = catalogue.rows("SELECT 1 UNION SELECT 2")
        assert next(rows) == (1,)
        with monkeypatch.context() as patched:
            for name in ("sqlite3", "Damaged"):
                patched.setattr(store, name, None)
            rows.close()


def test_what_a_signal_raised_is_gone_before_python_ends(monkeypatch):
    """With all that it knows, as a pool of processes, whose functions need modules that Python removes."""

    class Pool:
        pass

    def run():
        pool = Pool()
        seen.append(weakref.ref(pool))
        signal.raise_signal(signal.SIGHUP)

    monkeypatch.setattr(signals, "_stopped", None)  # and again after the test, for the next ones in this process
    seen, hook = [], sys.unraisablehook
    before = {it: signal.getsignal(it) for it in signals._HEEDED}
    signal.signal(signal.SIGHUP, signal.SIG_DFL)
    try:
        signals.heed_signals()
        with pytest.raises(signals.Stopped) as raised:
            run()
        del raised
        signals.heed_no_more()
        gc.collect()
        assert seen[0]() is None
    finally:
        sys.unraisablehook = hook
        for number, handler in before.items():
            signal.signal(number, handler)
