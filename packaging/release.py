#!/usr/bin/env python3
"""Makes out/release: the packages, the archives, their sums and a README, from the sources that git lists. `make release` calls it.

  packaging/release.py VERSION SECONDS [KEY]

SECONDS is the time of the files since 1970. With KEY, gpg signs the sums. Everything is built in a folder that is unpacked from the
archive of the sources, with the proofs of this folder. So a file that git doesn't list is in no package, and each run writes the same
bytes. The folder out/release is replaced at the end, if everything was made.
"""

from __future__ import annotations

import hashlib
import os
import platform
import shutil
import subprocess
import sys
from pathlib import Path
from typing import Iterator

TOP = Path(__file__).resolve().parent.parent
sys.dont_write_bytecode = True
sys.path.insert(0, str(TOP / "build"))

import cross
import module
from crates import Crates
from prove import NotBuilt

WORK, MADE = TOP / "out" / "releasing", TOP / "out" / "release"
TOKEN = "OWNER-" + "FILLS-IN"  # marks what only the owner of the repository knows; in two parts, so that it doesn't mark this line
PYTHON = "/usr/bin/python3"  # that of the packages
TOOLS = {"dpkg-buildpackage": "dpkg-dev", "dh": "debhelper", "dh_python3": "dh-python", "rt": "the Rattle kit", "git": "git"}
TOOLS |= {"wasm-opt": "binaryen", "wasm2c": "wabt", "aarch64-linux-gnu-gcc": "gcc-aarch64-linux-gnu"}
# of out/proved, and of the folders of other machines: with these nothing is proved again
KEPT = ("px_cli", "libpx_c.a", "*.made-from")
KEPT_THERE = ("px_cli.o", "libpx_c.a", "*.made-from")


class Failed(Exception):
    """Why there is no release."""


def run(*words: str | Path, folder: Path) -> None:
    """Runs a command in a folder. What it prints goes to standard error."""
    done = subprocess.run(words, cwd=folder, stdout=sys.stderr, check=False, umask=0o022)
    if done.returncode:
        raise Failed(f"{words[0]} ended with status {done.returncode}")


def sources() -> list[str]:
    """The files that git lists and that exist."""
    listed = subprocess.run(["git", "ls-files", "-z"], cwd=TOP, stdout=subprocess.PIPE, check=False).stdout
    names = sorted(it for it in os.fsdecode(listed).split("\0") if it and os.path.lexists(TOP / it))
    if not names:
        raise Failed("git lists no sources: make the release in a clone")
    return names


def missing() -> Iterator[str]:
    """What the owner has to fill in, as FILE:LINE: TEXT."""
    for name in sources():
        lines = (TOP / name).read_text(encoding="utf-8", errors="replace").splitlines() if (TOP / name).is_file() else []
        yield from (f"{name}:{number}: {line.strip()}" for number, line in enumerate(lines, 1) if TOKEN in line)


def check(key: str) -> None:
    """Reports what is missing. Without it, or with changes that aren't committed, nothing is signed."""
    needed = {**TOOLS, "gpg": "gnupg"} if key else TOOLS
    lacking = sorted(package for tool, package in needed.items() if not shutil.which(tool))
    if lacking:
        raise Failed(f"to build the packages, install {', '.join(lacking)}")
    gaps = list(missing())
    if gaps:
        print(f"release: the owner still has to replace {TOKEN} in these lines:", *gaps, sep="\n  ", file=sys.stderr)
    if key and gaps:
        raise Failed("nothing is signed as long as these are missing")
    changed = subprocess.run(["git", "status", "--porcelain"], cwd=TOP, stdout=subprocess.PIPE, check=True).stdout
    if key and changed:
        raise Failed("nothing is signed, because not every change is committed")


def archive_sources(target: Path, root: str, seconds: int) -> None:
    """Writes the archive of the sources."""
    listing = WORK / "sources"
    listing.write_bytes(b"".join(os.fsencode(it) + b"\0" for it in sources()))
    names = ["--null", f"--files-from={listing}", f"--transform=flags=r;s,^,{root}/,", "--sort=name"]
    same = [f"--mtime=@{seconds}", "--owner=0", "--group=0", "--numeric-owner", "--mode=u=rwX,go=rX", "--format=gnu"]
    plain = target.with_suffix("")
    run("tar", "--create", f"--file={plain}", *names, *same, folder=TOP)
    run("gzip", "-9", "-n", "--force", plain, folder=TOP)


def unpack(archive: Path, folder: Path) -> None:
    folder.mkdir(parents=True)
    run("tar", "--extract", "--same-permissions", "--no-same-owner", f"--file={archive}", folder=folder)


def copy_proofs(out: Path) -> None:
    """Copies the proved program and library, and those for other machines."""
    for name, patterns in (("proved", KEPT), *((machine, KEPT_THERE) for machine in cross.MACHINES)):
        (out / name).mkdir(parents=True)
        for pattern in patterns:
            for file in (TOP / "out" / name).glob(pattern):
                shutil.copy2(file, out / name)


def copy_module(out: Path) -> None:
    """Copies the library's module, which is not made again without the proved crates below it."""
    kept = module.kept(Crates.read(TOP))
    shutil.copytree(kept, out / "module" / kept.name, ignore=shutil.ignore_patterns("tmp*"))  # what another command makes beside it


def build(tree: Path, source: Path, version: str, seconds: int) -> list[Path]:
    """Builds everything in a folder with the sources and the proofs. The results, without the archive of the sources."""
    python = f"PYTHON={PYTHON}"
    for words in (
        ["all"],
        ["dist", python],
        ["wheel", python],
        ["wheel", python, "MACHINE=aarch64"],
        ["static"],
        ["sdist"],
        ["npm"],
        ["page"],
    ):
        run("make", *words, folder=tree)
    run("dpkg-buildpackage", "-b", "-us", "-uc", folder=tree)
    run("dpkg-buildpackage", "-B", "-us", "-uc", "--host-arch", "arm64", folder=tree)
    run("dpkg-source", "-b", source.name, folder=source.parent)
    out, listing = tree / "out", tree / "out" / f"exifnorm-{version}.spdx.json"
    kit = Path(subprocess.check_output(["rt", "doc"], encoding="utf-8").strip()).parent
    run(sys.executable, "packaging/components.py", version, str(seconds), kit, listing, "--release", folder=tree)
    module_file = shutil.copyfile(out / "wasm" / "exifnorm.wasm", out / f"exifnorm-{version}.wasm")
    patterns = (
        "dist/*.tar.gz",
        "wheel/*.whl",
        "aarch64/wheel/*.whl",
        "static/*.tar.gz",
        "c/*.tar.gz",
        "sdist/*.tar.gz",
        "npm/*.tgz",
        "page/*.html",
    )
    files = [listing, module_file, *(file for pattern in patterns for file in out.glob(pattern))]
    return [*files, *tree.parent.glob("*.deb"), *source.parent.glob("*.dsc"), *source.parent.glob("*.debian.tar.*")]


def readme(folder: Path, version: str) -> str:
    """The README, with the names of the files."""
    patterns = (f"*-linux-{platform.machine()}.tar.gz", f"*_{platform.machine()}.whl", "*_aarch64.whl")
    archive, wheel, other_wheel = (next(folder.glob(pattern)).name for pattern in patterns)
    text = (TOP / "packaging" / "release" / "README").read_text(encoding="utf-8")
    names = {"VERSION": version, "WHEEL": wheel, "AARCH64": other_wheel, "ARCHIVE": archive, "FOLDER": archive[: -len(".tar.gz")]}
    for name, value in names.items():
        text = text.replace(f"@{name}@", value)
    return text


def write_sums(folder: Path) -> None:
    lines = (f"{hashlib.sha256(it.read_bytes()).hexdigest()}  {it.name}\n" for it in sorted(folder.iterdir()))
    (folder / "SHA256SUMS").write_text("".join(list(lines)), encoding="utf-8")


def release(version: str, seconds: int, key: str) -> None:
    """Makes the release."""
    check(key)
    shutil.rmtree(WORK, ignore_errors=True)
    (new := WORK / "release").mkdir(parents=True)
    sources_archive, root = new / f"exifnorm_{version}.orig.tar.gz", f"exifnorm-{version}"
    archive_sources(sources_archive, root, seconds)
    unpack(sources_archive, WORK / "build")
    copy_proofs(WORK / "build" / root / "out")
    copy_module(WORK / "build" / root / "out")
    unpack(sources_archive, WORK / "source")
    shutil.copy2(sources_archive, WORK / "source")
    for file in build(WORK / "build" / root, WORK / "source" / root, version, seconds):
        shutil.copy2(file, new)
    (new / "README").write_text(readme(new, version), encoding="utf-8")
    write_sums(new)
    if key:
        run("gpg", "--batch", "--local-user", key, "--armor", "--detach-sign", new / "SHA256SUMS", folder=WORK)
    shutil.rmtree(MADE, ignore_errors=True)
    new.rename(MADE)
    shutil.rmtree(WORK)


def main(words: list[str]) -> int:
    if len(words) not in (2, 3):
        sys.exit(__doc__)
    try:
        release(words[0], int(words[1]), "".join(words[2:]))
        print(f"release: {MADE.relative_to(TOP)} has {len(list(MADE.iterdir()))} files; its README says which is for whom")
    except (Failed, NotBuilt, OSError, subprocess.SubprocessError) as why:
        print(f"release: {why}", file=sys.stderr)
        return 1
    return 0


if __name__ == "__main__":
    sys.exit(main(sys.argv[1:]))
