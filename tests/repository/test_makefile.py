"""Tests of the Makefile's rules for the program and the library, over the toolchain of room.py: which change builds what again, and that
nothing that was compiled without proofs passes for proved.

They need make, cc, ld, objcopy and ar. test_installed.py tests what is installed.
"""

import os
import shutil
import subprocess
import sys

import pytest
from room import TOP, Room

CRATES = "px_bytes: byteorder\npx_engine: px_bytes\npx_aside: px_bytes\npx_cli: px_engine\npx_c staticlib: px_bytes px_engine\n"
LIBRARIES = ["libexifnorm.a", "libexifnorm.so.1", "exifnorm.h"]
TARGETS = ["all", "program", "library", "check", "stage", "install", "uninstall", "wheel", "dist", "FORCE"]


def own_code(room: Room, text: str) -> None:
    """The code of the toolchain that the library is linked with."""
    folder = room.folder / "kit/c"
    folder.mkdir(exist_ok=True)
    (folder / "own.c").write_text(f'const char of_the_toolchain[] = "own";\n{text}')
    subprocess.run(["cc", "-c", "-o", "own.o", "own.c"], cwd=folder, check=True)
    subprocess.run("rm -f liblibc_c.a && ar rc liblibc_c.a own.o", shell=True, cwd=folder, check=True)


@pytest.fixture
def made(folder):
    """A repository in which make has built all."""
    room = Room(folder, CRATES)
    for name in ("packaging", "debian"):
        shutil.copytree(TOP / name, room.top / name, ignore=shutil.ignore_patterns("__pycache__"))
    shutil.copy(TOP / "python/setup.py", room.top / "python")
    room.write("crates/px_engine/src/version.rt", "pub const VERSION")
    room.write("crates/px_c/include/exifnorm.h", "/* one */\n")
    room.command(room.top / "test", '#!/bin/sh\nexit "$(cat status)"\n')
    own_code(room, 'const char exifnorm_own[] = "own one";\n')
    for name in TARGETS:
        room.write(name, "")  # a file of this name is no reason to do nothing
    ran = room.make()
    assert ran.returncode == 0, ran
    return room


def built(room: Room) -> dict:
    """The time of the last write of each file that make builds, and its content."""
    paths = [*(room.top / "out/lib").iterdir(), room.top / "out/proved/libpx_c.a", room.top / "out/exifnorm"]
    return {path.name: (path.stat().st_mtime_ns, path.read_bytes()) for path in paths}


def contents(files: dict) -> dict:
    return {name: data for name, (_, data) in files.items()}


def test_make_builds_the_program_and_the_library_once(made):
    assert sorted(made.built()) == ["px_bytes", "px_c", "px_cli", "px_engine"]
    assert made.call("a", program=made.top / "out/exifnorm").stdout == "one: a\n"
    before = built(made)
    assert {*LIBRARIES} <= {*before} and b"toolchain 1" in before["libexifnorm.a"][1] and b"own one" in before["libexifnorm.so.1"][1]
    for name in ("crates.txt", "crates/px_c/src/lib.rt", "crates/px_cli/src/main.rt", "build/compiler.py", "HANDLES"):
        (made.top / name).touch()
    made.write("crates/px_aside/src/lib.rt", "two")
    made.write("crates/px_c/must-fail/one.edit", "text")
    for words in ((), ("library",), ("program", "-j4")):
        ran = made.make(*words)
        assert ran.returncode == 0 and "ld " not in ran.stdout and "cc " not in ran.stdout, ran
    assert built(made) == before and made.built() == []


@pytest.mark.parametrize("name", ["px_bytes/src/lib.rt", "px_engine/specs/Words.antt", "px_c/proofs/Answers.antt"])
def test_each_changed_source_is_in_the_library(made, name):
    before = built(made)
    made.write(f"crates/{name}", "changed")
    assert made.make("library").returncode == 0
    after = built(made)
    for file in ("libpx_c.a", "exifnorm.o", *LIBRARIES[:2]):
        assert after[file][0] > before[file][0] and ("px_c" not in name or b"changed" in after[file][1]), file


def test_other_changes_are_in_what_is_built(made):
    made.main.write_text("two")
    made.write("crates/px_c/include/exifnorm.h", "/* two */\n")
    (made.folder / "version").write_text("toolchain 2\n")
    own_code(made, 'const char exifnorm_own[] = "own two";\n')
    assert made.make("LDFLAGS=-Wl,--build-id=0x0123456789abcdef").returncode == 0
    assert made.call("a", program=made.top / "out/exifnorm").stdout == "two: a\n"
    files = contents(built(made))
    assert files["exifnorm.h"] == b"/* two */\n" and bytes.fromhex("0123456789abcdef") in files["libexifnorm.so.1"]
    assert all(b"toolchain 2" in files[name] and b"own two" in files[name] for name in LIBRARIES[:2])


@pytest.mark.parametrize("crate, target", [("px_bytes", "library"), ("px_cli", "program")])
def test_a_proof_that_fails_fails_make(made, crate, target):
    (made.folder / f"says-{crate}").write_text("logic=failed functions=1 sum=1f\n")
    made.write(f"crates/{crate}/proofs/Answers.antt", "wrong")
    for _ in range(2):
        assert made.make(target).returncode != 0, f"make {target} takes what is not proved"
    (made.folder / f"says-{crate}").unlink()
    made.write(f"crates/{crate}/proofs/Answers.antt", "one")
    assert made.make(target).returncode == 0, "it is not built again"


def test_a_library_that_is_half_made_is_made_again(made):
    whole = contents(built(made))
    for tool in ("ld", "objcopy", "ar", "cc"):
        breaks = 'for it; do case $it in out/lib/*) echo half >"$it"; exit 1 ;; esac; done'
        broken = made.command(made.bin / tool, f'#!/bin/sh\n{breaks}\nexec /usr/bin/{tool} "$@"\n')
        for name in ("exifnorm.o", *LIBRARIES[:2]):
            (made.top / "out/lib" / name).unlink(missing_ok=True)
        assert made.make("library").returncode != 0, tool
        broken.unlink()
        assert made.make("library").returncode == 0 and contents(built(made)) == whole, f"{tool} left half of a file"
    for name in (*LIBRARIES, "libexifnorm.so"):
        (made.top / "out/lib" / name).unlink()
        os.utime(made.write(f"out/lib/{name}", "half"), (10**9, 10**9))
    assert made.make("library").returncode == 0 and contents(built(made)) == whole, "what another left is kept"


def test_check_ends_as_the_tests_do_and_other_targets_are_made_whatever_files_there_are(made):
    for status in (0, 1, 127):
        made.write("status", str(status))
        assert (made.make("check").returncode == 0) == (status == 0), status
    for name in ("_native.c", "_packed.h"):
        made.write(f"python/exifnorm/{name}", "")
    for target in ("uninstall", "dist"):
        assert " packaging/" in made.make("-n", target).stdout


# ---- nothing that is compiled without proofs passes for proved

INSTALLED = {
    "install": ["make", "install", "DESTDIR=installed"],
    "archive": ["make", "dist"],
    "debian": ["make", "-f", "debian/rules", "override_dh_auto_build"],
}
OF_LIBRARY = {
    "make": ["make", "library"],
    "wheel": ["make", "wheel"],
    "setup": ["env", "-C", "python", sys.executable, "setup.py", "build"],
}


@pytest.mark.parametrize("name", ["proved/px_cli", "lib/libexifnorm.a", "lib/libexifnorm.so.1"])
def test_nothing_without_proofs_passes_for_proved(made, name):
    (made.top / "out" / name).rename(made.folder / "away")
    made.write(f"out/{name}", "exifnorm 1.2.3-unproved")
    every = {**INSTALLED, **OF_LIBRARY} if name.endswith("1") else {"make": ["make", "all"], **INSTALLED}
    for words in every.values():
        ran = made.call(*words[1:], program=words[0], cwd=made.top)
        assert ran.returncode != 0 and "was compiled without proofs" in ran.stderr, (words, ran)
        assert not [*made.top.glob("installed"), *made.top.glob("out/dist/*"), *made.top.rglob("*.whl")]
