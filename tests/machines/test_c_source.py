"""The library as C source: on other machines and by other compilers it answers as the built library does, and it is refused where it
would not."""

from __future__ import annotations

import re
import shutil
import sys
import tarfile
from pathlib import Path
from typing import Dict, List

import c_source
import guard
import pytest
from machines import HERE, MACHINES, VERSION, Builds, Machine
from reading import CAUSES

from commands import TOP, run

pytestmark = pytest.mark.xdist_group("C source")  # it is made once
EACH = pytest.mark.parametrize("machine", [pytest.param(machine, id=machine.name) for machine in MACHINES])


# ---- what it answers


@EACH
def test_worked_cases(builds: Builds, c_folder: Path, machine: Machine) -> None:
    said = builds.said(machine, c_folder / "cases.c", c_folder / "cases.txt")
    number = len((c_folder / "cases.txt").read_text(encoding="ascii").splitlines())
    assert said.splitlines()[-1].endswith(f"(C): {number} cases have the expected result, 0 have not"), said


@EACH
def test_it_answers_as_the_built_library(builds: Builds, files: Path, answers: str, machine: Machine) -> None:
    lines = builds.said(machine, HERE / "answers.c", files).splitlines()
    different = [(ours, theirs) for ours, theirs in zip(lines, answers.splitlines()) if ours != theirs]
    assert different[:5] == []
    assert len(lines) == len(answers.splitlines())


def test_arguments_at_their_limits(builds: Builds) -> None:
    """As of the built library: empty and largest blocks, outputs of each length, and each status."""
    clang = next(machine for machine in MACHINES if machine.name == "clang")
    assert re.fullmatch(r"[1-9]\d* checks\n", builds.said(clang, TOP / "tests/library/edges.c", f"{VERSION} (C)", *CAUSES))


def test_products_and_quotients_of_128_bits(c_folder: Path, folder: Path) -> None:
    run("gcc", "-O1", "-w", "-fsanitize=undefined", "-fno-sanitize-recover", "-I", c_folder, "-o", folder / "products", HERE / "products.c")
    run(folder / "products")


@pytest.mark.parametrize("compiler", [["aarch64-linux-gnu-gcc", "-mbig-endian"], ["aarch64-linux-gnu-gcc", "-mabi=ilp32"]], ids=" ".join)
def test_other_machines_are_refused(c_folder: Path, compiler: List[str]) -> None:
    """One that stores the most significant byte first, and one with addresses of 32 bits."""
    if not shutil.which(compiler[0]):
        pytest.skip(f"{compiler[0]} is not installed")
    said = run(*compiler, "-w", "-fsyntax-only", c_folder / "exifnorm.c", status=1)
    first = next(line for line in said.splitlines() if "error" in line)
    assert "exifnorm is for machines" in first


def test_it_shows_the_calls_of_the_header_alone(builds: Builds, c_folder: Path) -> None:
    builds.program(MACHINES[0], c_folder / "cases.c")
    names = re.findall(r"(?m)^[0-9a-f]+ [A-Z] (\w+)$", run("nm", "-g", builds.folder / f"{MACHINES[0].name}-exifnorm.o"))
    assert sorted(names) == sorted(c_source.calls())


# ---- how it is built


def test_the_wheel_for_windows(builds: Builds, c_folder: Path, folder: Path) -> None:
    """It has the packages, and a library that a program for Windows loads, in Wine."""
    (windows,) = (it for it in MACHINES if it.name == "windows")
    windows.need()
    run("make", "windows", f"IN_C={c_folder}", f"PYTHON={sys.executable}", folder=TOP)
    (wheel,) = (TOP / "out/windows/wheel").glob("*.whl")
    assert wheel.name == f"exifnorm-{VERSION}-py3-none-win_amd64.whl"
    shutil.unpack_archive(wheel, folder, "zip")
    libraries = [it.name for it in (folder / "exifnorm").iterdir() if it.suffix in (".dll", ".so", ".pyd")]
    assert libraries == ["exifnorm.dll"] and (folder / "exifnorm_pictures/api.py").exists()
    assert builds.said(windows, HERE / "load.c", folder / "exifnorm/exifnorm.dll") == f"{VERSION} (C): same\n"


def test_make(c_folder: Path, folder: Path) -> None:
    """The Makefile builds, checks and installs what a program is then compiled with."""
    shutil.copytree(c_folder, folder / "source")
    run("make", "CFLAGS=-O0", "check", "install", f"PREFIX={folder}/usr", folder=folder / "source")
    compiled = ["cc", f"-I{folder}/usr/include", HERE / "answers.c", f"-L{folder}/usr/lib", "-lexifnorm", "-o", folder / "answers"]
    run(*compiled)
    (folder / "none").touch()
    assert "cause 7 0 8 Overlap" in run(folder / "answers", folder / "none")


def test_cmake(c_folder: Path, folder: Path) -> None:
    """CMake builds a static library, or builds and tests a shared one, and another project finds what it installs."""
    run("cmake", "-S", c_folder, "-B", folder / "static")
    assert "libexifnorm.a:" in (folder / "static/CMakeFiles/exifnorm.dir/build.make").read_text(encoding="utf-8")
    run("cmake", "-S", c_folder, "-B", folder / "build", "-DBUILD_SHARED_LIBS=ON", f"-DCMAKE_INSTALL_PREFIX={folder}/usr")
    run("cmake", "--build", folder / "build")
    run("ctest", folder=folder / "build")
    run("cmake", "--install", folder / "build")
    text = "cmake_minimum_required(VERSION 3.12)\nproject(other C)\nfind_package(exifnorm REQUIRED CONFIG)\nadd_executable(answers answers.c)\n"
    (folder / "other").mkdir()
    (folder / "other/CMakeLists.txt").write_text(f"{text}target_link_libraries(answers exifnorm::exifnorm)\n", encoding="utf-8")
    shutil.copyfile(HERE / "answers.c", folder / "other/answers.c")
    run("cmake", "-S", "other", "-B", "made", f"-DCMAKE_PREFIX_PATH={folder}/usr", folder=folder)
    run("cmake", "--build", "made", folder=folder)


# ---- the archive


def test_the_archive(c_archive: Path, c_folder: Path) -> None:
    """It has the files of one folder, with the version in place of its mark, and no trace of the machine that made it."""
    with tarfile.open(c_archive) as archive:
        members = archive.getmembers()
    assert {member.name for member in members} == {f"exifnorm-{VERSION}-c/{file.name}" for file in c_folder.iterdir()}
    assert {(member.uid, member.uname, member.mtime) for member in members} == {(0, "", 10**9)}
    for file in c_folder.iterdir():
        text = file.read_text(encoding="utf-8")
        assert "@VERSION@" not in text and str(TOP) not in text, file.name


def test_what_was_compiled_without_proofs_is_refused(folder: Path, monkeypatch: pytest.MonkeyPatch) -> None:
    """A module of another kind than asked for leaves nothing."""
    monkeypatch.setattr(c_source.wasm, "source_of", lambda _: folder / "module")
    monkeypatch.setattr(c_source, "module_in_c", lambda _: '"1.0.0-unproved"')
    with pytest.raises(c_source.Failed, match="ends with -unproved"):
        c_source.make(VERSION, 0, folder / "c", True)
    assert not (folder / "c").exists()


@pytest.mark.parametrize("version, is_refused", [(b"1.0.0\0", False), (b"1.0.0-unproved\0", True)])
def test_the_source_of_a_module_without_proofs_is_refused(
    folder: Path, monkeypatch: pytest.MonkeyPatch, version: bytes, is_refused: bool
) -> None:
    """Also if the version is in two pieces of the constants, as each 80 bytes are a string of their own."""
    module = c_source.Written(bytes(70) + version, ["static u32 w2c_f1(Z_exifnorm_instance_t* instance) {", "}"])
    for name, result in (("compile_module", None), ("in_c", ""), ("written", module)):
        monkeypatch.setattr(c_source, name, lambda *_, result=result: result)
    (folder / "module.c").write_text(c_source.module_in_c(folder), encoding="ascii")
    assert bool(guard.refused(folder / "module.c")) == is_refused


# ---- C of a kind that isn't expected


def function(*lines: str) -> List[str]:
    return ["static void w2c_f1(Z_exifnorm_instance_t* instance, u64 w2c_p0) {", *lines, "}"]


LOAD = "  w2c_j1 = i64_load(&instance->w2c_memory, (u64)(w2c_i1) + 8u);"
FRAME = ["  w2c_j0 = *stack;", "  w2c_j1 = 32ull;", "  w2c_j0 -= w2c_j1;"]


def test_an_address_is_taken_before_it_is_cut() -> None:
    text = c_source.functions_of(function("  w2c_j1 = w2c_p0;", "  w2c_i1 = (u32)(w2c_j1);", LOAD))
    assert "i64_load(w2c_j1 + 8u)" in text and "(u32)" not in text


@pytest.mark.parametrize(
    "between",
    ["  w2c_j1 = 5ull;", "  w2c_i1 = 5u;", "  w2c_j1 += w2c_j2;", "  w2c_B1:;", "  }", "  if (w2c_i2) {w2c_j1 = w2c_j2; goto w2c_B1;}"],
)
def test_an_address_that_may_have_changed_is_refused(between: str) -> None:
    with pytest.raises(c_source.Failed, match="no number of 64 bits"):
        c_source.functions_of(function("  w2c_j1 = w2c_p0;", "  w2c_i1 = (u32)(w2c_j1);", between, LOAD))


@pytest.mark.parametrize(
    "one, other",
    [
        ("  w2c_j1 = 65542ull;", "  w2c_j1 = 131079ull;"),  # not the same constant
        ("  w2c_j1 = 65542ull;", "  w2c_j2 = 131078ull;"),
        ("  w2c_j1 = 65742ull;", "  w2c_j1 = 131278ull;"),  # after the constants
        ("  w2c_j1 = 1ull;", "  w2c_j1 = 65537ull;"),  # far before them
        ("  w2c_f1();", "  w2c_f1(w2c_j0);"),
    ],
)
def test_two_modules_that_differ_otherwise_are_refused(one: str, other: str) -> None:
    with pytest.raises(c_source.Failed, match="differ"):
        c_source.joined_line(one, other, 100)


@pytest.mark.parametrize(
    "calls, frames",
    [
        ({"a": "bc", "b": "d", "c": "", "d": ""}, 3),  # those of a chain of calls, and none of another branch
        ({"a": "b", "b": "c", "c": "bd", "d": ""}, 1 + 2 * c_source.LEVELS + 1),  # all in a cycle for each element, and what calls it
        ({"a": "a"}, c_source.LEVELS),
    ],
)
def test_the_stack_is_that_of_the_deepest_call(calls: Dict[str, str], frames: int) -> None:
    bodies = {name: "".join(f"  w2c_{it}(stack, w2c_j0);\n" for it in called) for name, called in calls.items()}
    text = "".join(f"static void w2c_{name}(u64 *stack) {{\n" + "\n".join(FRAME) + f"\n{body}}}\n" for name, body in bodies.items())
    assert c_source.stack_of(text) == frames * 32


def test_a_frame_of_unknown_size_is_refused() -> None:
    with pytest.raises(c_source.Failed, match="stack"):
        c_source.stack_of("static void w2c_a(u64 *stack) {\n  w2c_j0 = *stack;\n  w2c_j0 -= w2c_p0;\n}\n")
