"""Fixtures of the tests of the library and of the package exifnorm."""

import ctypes
import importlib.machinery
import importlib.util
import sysconfig
from pathlib import Path

import pytest

import exifnorm
from commands import run
from compiling import HERE, HEADERS
from exifnorm import _calls, _library, _reading
from small_blocks import outcome


@pytest.fixture(scope="session")
def shared(library):
    """The built shared library."""
    return library / "libexifnorm.so.1"


@pytest.fixture(scope="session")
def archive(library):
    """The built static library."""
    return library / "libexifnorm.a"


@pytest.fixture(scope="session")
def version(pytestconfig):
    """The version that the library prints."""
    build = pytestconfig.getoption("--build")
    return f"{exifnorm.__version__} ({build})" if build else exifnorm.__version__


# ---- the two ways in which the package calls the library


@pytest.fixture(scope="session")
def extension(session_folder):
    """The file of the extension module."""
    headers, path = sysconfig.get_paths()["include"], session_folder / "_native.abi3.so"
    if not Path(headers, "Python.h").exists():
        pytest.skip(f"there is no {headers}/Python.h (Debian's package python3-dev)")
    run("make", path, f"built={session_folder}", f"PYTHONINCLUDE={headers}", "CC=cc -Werror")
    return path


@pytest.fixture
def native(extension):
    """A new extension module, which no library was loaded for."""
    loader = importlib.machinery.ExtensionFileLoader("exifnorm._native", str(extension))
    module = importlib.util.module_from_spec(importlib.util.spec_from_loader("exifnorm._native", loader))
    loader.exec_module(module)
    return module


@pytest.fixture(params=["ctypes", "extension"])
def way(request, monkeypatch, shared):
    """How the package calls the built library in a test: each test with this fixture runs twice."""
    monkeypatch.setattr(_library, "_native", request.getfixturevalue("native") if request.param == "extension" else None)
    normal = _calls.in_c(_calls.normal)
    for module in (exifnorm, exifnorm.blocks, _calls, _reading):
        monkeypatch.setattr(module, "normal", normal)
    monkeypatch.setenv("EXIFNORM_LIBRARY", str(shared))
    _library.library.cache_clear()
    yield request.param
    _library.library.cache_clear()


# ---- a library that counts its calls


@pytest.fixture(scope="session")
def watched_library(session_folder):
    """The file of the library of watched.c."""
    path = session_folder / "watched.so"
    words = ["cc", "-std=c99", "-Wall", "-Wextra", "-Werror", "-O1", "-shared", "-fPIC", "-I", HEADERS, "-o", path]
    run(*words, HERE / "watched.c", "-ldl", "-lpthread")
    return path


class Watch:
    """The counts of watched.c."""

    CALLS = ("check", "normalise", "compare", "show", "captions", "cause_name", "version", "jpeg_parts", "photoshop_resources", "jpeg_same")
    CALLS += ("jpeg_blocks", "jpeg_unread", "xmp_check", "xmp_normalise", "jpeg_xmp", "jpeg_same_blocks", "xmp_unsorted")

    def __init__(self, path):
        self.library = ctypes.CDLL(str(path))
        self.counts = (ctypes.c_ulong * len(self.CALLS)).in_dll(self.library, "watched_calls")
        self.inside = ctypes.c_ulong.in_dll(self.library, "watched_inside")  # the most threads in a call at once
        self.inside.value = 0

    def of(self, call, *arguments):
        """How often one call of the package makes each call of the library."""
        before = list(self.counts)
        outcome(call, *arguments)
        return {name: now - was for name, now, was in zip(self.CALLS, self.counts, before) if now != was}


@pytest.fixture
def watch(way, watched_library, shared, monkeypatch):
    """Lets the package call the library that counts, in the same way."""
    monkeypatch.setenv("RIGHT", str(shared))
    monkeypatch.setenv("EXIFNORM_LIBRARY", str(watched_library))
    _library.library.cache_clear()
    yield Watch(watched_library)
    _library.library.cache_clear()
