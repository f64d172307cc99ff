"""Where the package exifnorm looks for its library, and what it does with one that is missing, wrong or broken."""

import json
import os
import shutil
import subprocess
import sys

import pytest

import exifnorm
from commands import TOP
from exifnorm import _library
from small_blocks import ONE

PRINT_VERSION = "import exifnorm\ntry: print(exifnorm.version())\nexcept exifnorm.LibraryMissing as why: print('missing:', why)"


class Packages:
    """Copies of the package, with the extension module or without, and a Python that imports one of them."""

    def __init__(self, folder, way, extension, shared):
        self.folder, self.way, self.extension, self.shared = folder, way, extension, shared

    def copy(self, name, library=None):
        """A copy, perhaps with a file in place of the library beside it."""
        path = self.folder / name
        shutil.copytree(TOP / "python" / "exifnorm", path / "exifnorm", ignore=shutil.ignore_patterns("*.so*", "__pycache__"))
        if library:
            shutil.copy(library, path / "exifnorm" / "libexifnorm.so.1")
        if self.way == "extension":
            shutil.copy(self.extension, path / "exifnorm" / "_native.abi3.so")
        return path

    def printed(self, packages, code, **environment):
        """What a Python prints that finds the package there, with these variables alone of those that matter."""
        kept = {name: it for name, it in os.environ.items() if name not in ("EXIFNORM_LIBRARY", "LD_LIBRARY_PATH", "PYTHONPATH")}
        variables = {name: str(it) for name, it in environment.items()}
        ran = subprocess.run(
            [sys.executable, "-B", "-c", code],
            env={**kept, "PYTHONPATH": str(packages), "RIGHT": str(self.shared), **variables},
            capture_output=True,
            text=True,
            cwd=self.folder,
            check=False,
        )
        return ran.stdout.strip() or ran.stderr.strip()[-500:]


@pytest.fixture
def packages(folder, way, extension, shared):
    return Packages(folder, way, extension, shared)


@pytest.mark.parametrize("beside", ["", "another", "broken"])
@pytest.mark.parametrize("by_system", [False, True])
@pytest.mark.parametrize("variable", [None, "", "built"])
def test_places_of_the_library(packages, watched_library, shared, version, beside, by_system, variable):
    """The variable's file alone if it is set; otherwise the one beside the package, and then the system's."""
    files = {"": None, "another": watched_library, "broken": __file__}
    environment = {"VERSION": "9.9.9"}  # which the other library prints
    if by_system:
        environment["LD_LIBRARY_PATH"] = shared.parent
    if variable is not None:
        environment["EXIFNORM_LIBRARY"] = variable and shared
    found = packages.printed(packages.copy("copy", files[beside]), PRINT_VERSION, **environment)
    if variable == "built":
        assert found == version
    elif beside == "another":
        assert found == "9.9.9"
    elif by_system:
        assert found == version
    else:
        assert found.startswith("missing: the library libexifnorm.so.1 can't be loaded")
        for place in (
            packages.folder / "copy" / "exifnorm" / "libexifnorm.so.1 (",
            " libexifnorm.so.1 (",
            "EXIFNORM_LIBRARY",
            "make install",
        ):
            assert str(place) in found


def test_the_extension_module_is_used_where_it_is(packages, shared):
    code = (
        "import exifnorm; from exifnorm import _library as it; print(*(type(it).__name__ for it in (exifnorm.normal, it.library().show)))"
    )
    expected = {"extension": "builtin_function_or_method builtin_function_or_method", "ctypes": "function method"}
    assert packages.printed(packages.copy("copy"), code, EXIFNORM_LIBRARY=shared) == expected[packages.way]


def test_an_extension_module_for_another_kind_of_python(packages, shared, version):
    copy = packages.copy("copy")
    (copy / "exifnorm" / "_native.abi3.so").write_bytes(b"no library")
    assert packages.printed(copy, PRINT_VERSION, EXIFNORM_LIBRARY=shared) == version


@pytest.mark.parametrize(
    "file, reason",
    [
        ("/no/such/libexifnorm.so.1", "there is no such file"),
        ("libc.so.6", "it has no exifnorm_check"),
        (__file__, "invalid ELF header"),
    ],
)
def test_a_variable_that_names_no_library(packages, shared, file, reason):
    """No other place is tried."""
    environment = {"EXIFNORM_LIBRARY": file, "LD_LIBRARY_PATH": shared.parent}
    found = packages.printed(packages.copy("copy", shared), PRINT_VERSION, **environment)
    assert found.startswith("missing: ") and f"tried: {file} (" in found and reason in found


def test_a_variable_that_is_corrected(packages, version):
    """A failed search is no last one, and an import needs no library."""
    code = """
import exifnorm, os
try:
    exifnorm.version()
except exifnorm.LibraryMissing:
    os.environ["EXIFNORM_LIBRARY"] = os.environ["RIGHT"]
    print("missing, then", exifnorm.version())
"""
    copy = packages.copy("copy")
    assert packages.printed(copy, code, EXIFNORM_LIBRARY="/no/such/library") == f"missing, then {version}"


@pytest.mark.parametrize(
    "status, expected, of_packet",
    [
        (1, "AssertionError", "AssertionError"),
        (2, "Refused", "XmpRefused"),
        (3, "NormalTooLong", "AssertionError"),
        (4, "MemoryError", "MemoryError"),
        (5, "AssertionError", "AssertionError"),
        (6, "Refused", "AssertionError"),
        (7, "AssertionError", "AssertionError"),
        (9, "AssertionError", "XmpRefused"),
    ],
)
def test_exception_for_each_status(packages, watched_library, status, expected, of_packet):
    """From a library that always returns this status. One that asks for no more bytes than it got is not asked again."""
    code = """
import exifnorm, json
def outcome(call, *blocks):
    try: call(*blocks)
    except Exception as why: return type(why).__name__
calls = exifnorm.kind, exifnorm.normal, exifnorm.digest, exifnorm.show, exifnorm.fields, exifnorm.captions
print(json.dumps([*(outcome(it, b"ab") for it in calls), outcome(exifnorm.same, b"a", b"b"), outcome(exifnorm.xmp_normal, b"<a/>")]))
"""
    found = packages.printed(packages.copy("copy"), code, EXIFNORM_LIBRARY=watched_library, STATUS=status)
    assert json.loads(found) == [*[expected] * 7, of_packet]


def test_little_memory(packages, shared):
    """An allocation of the library that fails raises MemoryError. The limit needs a process of its own."""
    code = """
import exifnorm, resource
block = b"\\x1c\\x02\\x19\\x00\\x01k" * 2_000_000
exifnorm.same(block[:6], block[:6])
pages = int(open("/proc/self/statm").read().split()[0])
resource.setrlimit(resource.RLIMIT_AS, (pages * resource.getpagesize() + 8_000_000, -1))
try: print("no error", exifnorm.same(block, block))
except MemoryError: print("MemoryError")
"""
    assert packages.printed(packages.copy("copy"), code, EXIFNORM_LIBRARY=shared) == "MemoryError"


def test_two_libraries(way, shared, watched_library, watch, monkeypatch):
    """Functions keep calling the library that they were made for."""
    of_watched = _library.library().normalise
    monkeypatch.setenv("EXIFNORM_LIBRARY", str(shared))
    _library.library.cache_clear()
    assert watch.of(exifnorm.show, ONE) == {}
    assert watch.of(of_watched, ONE) == {"normalise": 1}
