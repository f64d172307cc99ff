"""Builds the drivers: the library's, that of plain C, and one of each peer that is installed."""

import os
import shutil
import subprocess
from dataclasses import dataclass
from pathlib import Path
from typing import Dict, List, Optional

HERE = Path(__file__).resolve().parent
COUNTING = HERE.parent.parent / "tests" / "library" / "fuzz"
REGISTRY = Path(os.environ.get("KAMADAK", "/usr/share/cargo/registry"))
CC = ["cc", "-std=c99", "-D_POSIX_C_SOURCE=200809L", "-Wall", "-Wextra"]
OWN, C, C_BY_OFFSETS = "exifnorm", "C", "C, by offsets"
PEERS = {"libexif": "libexif.c", "libiptcdata": "libiptcdata.c", "exiv2": "exiv2.cpp", "kamadak-exif": "kamadak.rs"}


@dataclass
class Driver:
    """A program that times one library, and for the two whose memory is counted one that prints what a call allocates."""

    path: str
    counting: str = ""
    is_for_exif: bool = True
    is_for_iim: bool = True


def run(*words: object) -> subprocess.CompletedProcess:
    return subprocess.run(list(map(str, words)), stdin=subprocess.DEVNULL, capture_output=True, text=True, check=False)


def compiled(*words: object) -> bool:
    return run(*words).returncode == 0


def must_compile(*words: object) -> None:
    ran = run(*words)
    if ran.returncode != 0:
        raise SystemExit(f"{' '.join(map(str, words))}: {ran.stderr}")


def own_drivers(folder: Path, library: Path) -> Dict[str, Driver]:
    """The library and plain C, which must be there."""
    limits = sorted((HERE / "limits").glob("*.c"))
    sources = {
        OWN: ["-O2", HERE / "exifnorm.c", "-I", library, library / "libexifnorm.a"],
        C: ["-O3", HERE / "plain_c.c", *limits],
        C_BY_OFFSETS: ["-O3", "-DWAY=BY_OFFSETS", HERE / "plain_c.c", *limits],
    }
    drivers = {}
    for number, (name, them) in enumerate(sources.items()):
        out, counting = folder / f"own{number}", folder / f"own{number}-counting"
        must_compile(*CC, *them, "-o", out)
        must_compile(*CC, "-DCOUNTS_MEMORY", *them, "-I", COUNTING, COUNTING / "memory.c", "-o", counting)
        drivers[name] = Driver(str(out), str(counting), is_for_exif=name != C_BY_OFFSETS)
    return drivers


def whole_copy(folder: Path) -> str:
    """The C program that copies a file as a filter must that judges a block before it writes."""
    must_compile(*CC, "-O2", HERE / "whole.c", "-o", folder / "whole")
    return str(folder / "whole")


def flags(package: str) -> Optional[List[str]]:
    """What pkg-config prints for a package; nothing if it isn't installed."""
    ran = run("pkg-config", "--cflags", "--libs", package)
    return ran.stdout.split() if ran.returncode == 0 else None


def peer_drivers(folder: Path) -> Dict[str, Driver]:
    """The peers that are installed."""
    drivers = {}
    for name, source in PEERS.items():
        out, path = folder / name, HERE / source
        if path.suffix == ".rs":
            is_built = built_kamadak(folder, path, out)
        else:
            uses, compiler = flags(name), "g++" if path.suffix == ".cpp" else "cc"
            is_built = uses is not None and compiled(compiler, "-O2", "-o", out, path, *uses)
        if is_built:
            drivers[name] = Driver(str(out), is_for_exif=name != "libiptcdata", is_for_iim=name in ("libiptcdata", "exiv2"))
        else:
            print(f"{name} is not installed, and is left out", flush=True)
    return drivers


def built_kamadak(folder: Path, source: Path, out: Path) -> bool:
    """kamadak-exif and the crate that it uses, from their sources in a registry folder."""
    crates = [next(iter(sorted(REGISTRY.glob(f"{name}-[0-9]*"))), None) for name in ("mutate_once", "kamadak-exif")]
    if None in crates or not shutil.which("rustc"):
        return False
    once, kamadak = (it / "src" / "lib.rs" for it in crates if it)
    library = ["rustc", "--edition", "2018", "-O", "--crate-type", "rlib", "--cap-lints", "allow", "-L", folder, "--out-dir", folder]
    return (
        compiled(*library, "--crate-name", "mutate_once", once)
        and compiled(*library, "--crate-name", "exif", "--extern", "mutate_once", kamadak)
        and compiled("rustc", "--edition", "2021", "-O", "-L", folder, "--extern", "exif", "-o", out, source)
    )


def all_drivers(folder: Path, library: Path) -> Dict[str, Driver]:
    return {**own_drivers(folder, library), **peer_drivers(folder)}
