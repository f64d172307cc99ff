"""The C interface: the exports, the declarations in Python, and calls whose arguments are at the limits of what is allowed. The laws in fuzz/ are
compiled with the header's numbers and structs."""

import re

import pytest

import exifnorm
from commands import run, text_of
from compiling import C99, HEADERS, HERE, STRICT, need
from exifnorm import _library
from jpeg_made import PICTURE
from judged import NAMES
from kinds import small_kinds
from meanings import LIMIT
from small_packets import packet_of, small_packets

FOR_CPP = [it for it in STRICT if it != "-Wstrict-prototypes"]
HEADER = (HEADERS / "exifnorm.h").read_text(encoding="utf-8")
VERSION = re.search(r'VERSION: &str = "(.*)";', text_of("crates", "px_engine", "src", "version.rt"))[1]
STATUSES = dict(re.findall(r"pub const (\w+): u32 = (\d+);", text_of("crates", "px_c", "src", "statuses.rt")))


def prototypes(text):
    """Each function of a C text, with its type and its parameters."""
    plain = re.sub(r"\s+", " ", re.sub(r"/\*.*?\*/", "", text, flags=re.S))
    found = re.findall(r"(\w+) (exifnorm_\w+)\(([^()]*)\);", plain)
    return {name: (kind, [it.strip() for it in parameters.split(",")]) for kind, name, parameters in found}


def test_exports_are_those_of_the_header(shared, archive):
    names = set(prototypes(HEADER))
    shown = run("nm", "-D", "--defined-only", shared).splitlines()
    assert {it.split()[-1].partition("@")[0] for it in shown} - {"EXIFNORM_1"} == names
    shown = run("nm", "-g", "--defined-only", archive).splitlines()
    assert {it.split()[-1] for it in shown if " T " in it or " D " in it} == names


@pytest.mark.linked
def test_each_export_has_the_version_of_the_interface(shared):
    shown = run("nm", "-D", "--defined-only", shared).splitlines()
    assert {it.split()[-1] for it in shown} == {"EXIFNORM_1", *(f"{it}@@EXIFNORM_1" for it in prototypes(HEADER))}


def test_needs_the_c_library_alone(shared):
    assert re.findall(r"\(NEEDED\).*\[(.*)\]", run("readelf", "-dW", shared)) == ["libc.so.6"]


@pytest.mark.linked
def test_is_hardened(shared):
    dynamic, segments = run("readelf", "-dW", shared), run("readelf", "-lW", shared)
    assert re.search(r"SONAME.*\[libexifnorm\.so\.1\]", dynamic)
    assert "BIND_NOW" in dynamic or re.search(r"FLAGS_1.*NOW", dynamic)
    assert "GNU_RELRO" in segments and re.search(r"GNU_STACK .* RW +0x", segments)


def test_python_has_the_same_statuses_causes_and_version(way, version):
    assert {it.name: str(it.value) for it in exifnorm.Status} == STATUSES
    assert [_library.library().cause_name(at + 1) for at in range(len(NAMES) + 1)] == [*NAMES, ""]
    assert (exifnorm.LIMIT, exifnorm.version(), exifnorm.__version__) == (LIMIT, version, VERSION)


def test_is_called_from_cpp(archive, folder):
    need("c++")
    run("c++", *FOR_CPP, "-x", "c++", HERE / "examples" / "compare.c", "-x", "none", archive, "-o", folder / "plus")
    assert run(folder / "plus") == "same\n"


@pytest.mark.parametrize("kind", ["shared", "static"])
def test_arguments_at_their_limits(kind, shared, archive, folder, version):
    """Empty and largest blocks, outputs of each length, and each status; edges.c prints a line for each failure."""
    library = [shared, f"-Wl,-rpath,{shared.parent}"] if kind == "shared" else [archive]
    run("cc", "-std=c99", "-O1", *STRICT, HERE / "edges.c", "-o", folder / "edges", *library)
    assert re.fullmatch(r"[1-9]\d* checks\n", run(folder / "edges", version, *NAMES))


def test_threads_at_once_get_the_same(shared, folder):
    """Sixteen, each on a stack of the size that exifnorm.h names. One packet has as many elements in one another as are read."""
    deepest = "<d:a r:parseType='Resource'>" * 96 + "<d:a/>" + "</d:a>" * 96
    inputs = [*small_packets(), packet_of(deepest).encode(), *(it.blocks[0] for it in small_kinds()), PICTURE]
    files = [folder / str(number) for number in range(len(inputs))]
    for file, octets in zip(files, inputs):
        file.write_bytes(octets)
    program = folder / "threads"
    run(*C99, HERE / "threads.c", "-o", program, shared, f"-Wl,-rpath,{shared.parent}", "-lpthread")
    assert run(program, *files) == f"{len(files)} inputs\n"
