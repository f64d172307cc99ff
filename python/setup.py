"""Puts the library libexifnorm.so.1 and the extension module into the wheel, and gives the wheel the tag of the machine that they are for.

`make` builds both, and setuptools builds in out/wheel, so the sources stay unchanged. With EXIFNORM_MACHINE=aarch64 or windows
in the environment the wheel is for that machine, and has no extension module: this Python's headers are for this one.
"""

from __future__ import annotations

import os
import platform
import re
import shutil
import subprocess
import sys
from pathlib import Path

from setuptools import Distribution, setup
from setuptools.command.build_py import build_py
from wheel.bdist_wheel import bdist_wheel

TOP = Path(__file__).resolve().parent.parent
MACHINE = os.environ.get("EXIFNORM_MACHINE") or platform.machine()
IS_FOR_ANOTHER = MACHINE != platform.machine()
BUILT, TOOLS = (TOP / "out" / MACHINE, f"{MACHINE}-linux-gnu-") if IS_FOR_ANOTHER else (TOP / "out", "")
IS_FOR_WINDOWS = MACHINE == "windows"
LIBRARY = BUILT / "lib" / ("exifnorm.dll" if IS_FOR_WINDOWS else "libexifnorm.so.1")
ROOM = BUILT / "wheel" / "room"
EXTENSION = "_native.abi3.so"
LIBC = "libc.so.6"
OLDEST = (2, 5)  # the glibc of manylinux1


def glibc_needed(library: Path) -> tuple[int, int] | None:
    """The GNU C library that a library needs, as (2, 14). None if it needs another library, or a symbol whose version is no number
    of glibc: then it can't have a tag of manylinux."""
    listing = subprocess.run(["readelf", "-dVW", library], stdout=subprocess.PIPE, check=True, encoding="utf-8").stdout
    needed = re.findall(r"\(NEEDED\).*\[(.*)\]", listing)
    if not needed:
        return OLDEST
    if needed != [LIBC]:
        return None
    needs = listing.partition(".gnu.version_r")[2]
    names = re.findall(r"Name: (\S+)", needs)
    versions = [re.fullmatch(r"GLIBC_(\d+)\.(\d+)(?:\.\d+)?", it) for it in names]
    if not versions or None in versions or re.findall(r"File: (\S+)", needs) != [LIBC]:
        return None
    return max((int(it[1]), int(it[2])) for it in versions if it)


def platform_tag(machine: str, glibc: list[tuple[int, int] | None]) -> str:
    """The tag of a machine, as `linux_x86_64`, with what each library needs of glibc.

    >>> platform_tag("linux_x86_64", [(2, 5), (2, 14)])
    'manylinux_2_14_x86_64'
    >>> platform_tag("linux_x86_64", [(2, 5), None])
    'linux_x86_64'
    """
    if None not in glibc and machine.startswith("linux_"):
        major, minor = max(OLDEST, *(it for it in glibc if it))
        return f"manylinux_{major}_{minor}_{machine.removeprefix('linux_')}"
    return machine


class BuildWithLibrary(build_py):
    """Copies the library beside the modules, and the extension module if `make` has built it. Any CPython from 3.9 on can load it, and
    another Python does without it: so it doesn't change for which Pythons the wheel is."""

    def run(self) -> None:
        if not LIBRARY.exists():
            raise SystemExit(f"{LIBRARY} is missing: run `make` first, which builds it")
        subprocess.run([sys.executable, TOP / "build" / "guard.py", LIBRARY], check=True)
        super().run()
        target = Path(self.build_lib, "exifnorm", LIBRARY.name)
        shutil.copyfile(LIBRARY, target)
        target.chmod(0o755)
        if not IS_FOR_WINDOWS:  # its linker has stripped it
            subprocess.run([f"{TOOLS}strip", "--strip-unneeded", target], check=True)
        if LIBRARY.with_name(EXTENSION).exists():
            shutil.copyfile(LIBRARY.with_name(EXTENSION), target.with_name(EXTENSION))


class ForOneMachine(Distribution):
    """Packages that belong with the libraries of a machine."""

    def has_ext_modules(self) -> bool:
        return True


class TaggedWheel(bdist_wheel):
    """A wheel for one machine and every Python 3."""

    def get_tag(self) -> tuple[str, str, str]:
        if IS_FOR_WINDOWS:
            return "py3", "none", "win_amd64"
        machine = f"linux_{MACHINE}" if IS_FOR_ANOTHER else super().get_tag()[2]
        folder = Path(self.get_finalized_command("build_py").build_lib, "exifnorm")
        return "py3", "none", platform_tag(machine, [glibc_needed(it) for it in (LIBRARY, *folder.glob(EXTENSION))])


shutil.rmtree(ROOM, ignore_errors=True)  # with modules that were removed since the last build
ROOM.mkdir(parents=True)
setup(
    distclass=ForOneMachine,
    cmdclass={"build_py": BuildWithLibrary, "bdist_wheel": TaggedWheel},
    options={"build": {"build_base": str(ROOM)}, "egg_info": {"egg_base": str(ROOM)}, "bdist_wheel": {"bdist_dir": str(ROOM / "wheel")}},
)
