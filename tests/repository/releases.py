"""Two releases of the sources as they are, which the tests of packages share."""

import os
import shutil
import subprocess
from concurrent.futures import ThreadPoolExecutor
from pathlib import Path

import machines
import pytest
import release

TOP = Path(__file__).resolve().parents[2]
DEBS = ("exifnorm_*_amd64", "exifnorm-pictures_*_all", "libexifnorm-dev_*_amd64", "libexifnorm1_*_amd64", "python3-exifnorm_*_all")


def run(*words, status=0, **more):
    """What a command printed. It must end with this status."""
    ran = subprocess.run(
        list(map(str, words)), stdout=subprocess.PIPE, stderr=subprocess.STDOUT, encoding="utf-8", errors="replace", **more
    )
    assert ran.returncode == status, f"{words} ended with {ran.returncode}:\n{ran.stdout[-3000:]}"
    return ran.stdout


def environment(**more):
    """The environment without what leads Python and programs to the library of the sources."""
    kept = {name: it for name, it in os.environ.items() if name not in ("PYTHONPATH", "EXIFNORM_LIBRARY", "LD_LIBRARY_PATH")}
    return {**kept, "PYTHONDONTWRITEBYTECODE": "1", **more}


def listed():
    """The files of the sources that git lists or would list."""
    words = ["git", "ls-files", "-z", "--cached", "--others", "--exclude-standard"]
    names = subprocess.run(words, cwd=TOP, stdout=subprocess.PIPE, check=True).stdout.split(b"\0")
    return [it for it in map(os.fsdecode, names) if it and os.path.lexists(TOP / it)]


def clone(folder):
    """A repository with the sources as they are, and with the proofs."""
    for name in listed():
        (folder / name).parent.mkdir(parents=True, exist_ok=True)
        shutil.copy2(TOP / name, folder / name, follow_symlinks=False)
    machines.make("aarch64", "static")
    release.copy_proofs(folder / "out")
    release.copy_module(folder / "out")
    run("git", "init", "-q", cwd=folder)
    run("git", "add", "-A", cwd=folder)
    return folder


def other_times_and_modes(folder):
    """Gives the sources the times and the modes of a clone that another user made at another time."""
    for name in listed():
        if not (folder / name).is_symlink():
            os.utime(folder / name, (10**9, 10**9))
            (folder / name).chmod((folder / name).stat().st_mode & 0o700)


def two_releases(session_folder):
    """Two releases, from folders with other names, times, modes, masks, time zones and locales, and a module that isn't in the repository.
    The second one replaces that of an earlier version."""
    if not shutil.which("rt"):
        pytest.skip("there is no command rt, which the licences of the toolchain are found with")
    one, other = clone(session_folder / "one"), session_folder / "an other"
    shutil.copytree(one, other, symlinks=True)
    other_times_and_modes(other)
    (other / "out/release").mkdir()
    (other / "out/release/exifnorm_0.9-1_all.deb").touch()
    ways = ((one, 0o022, {}), (other, 0o077, {"TZ": "Asia/Tokyo", "LC_ALL": "C.UTF-8"}))
    for folder, mask, _ in ways:
        (folder / "python/exifnorm" / f"stray_{mask}.py").write_text('"""Not listed."""\n')
    with ThreadPoolExecutor() as pool:  # each takes a minute of a processor
        runs = [pool.submit(run, "make", "release", cwd=folder, umask=mask, env=environment(**more)) for folder, mask, more in ways]
    for ended in runs:
        ended.result()
    return [one / "out/release", other / "out/release"]


def one(folder, pattern):
    (found,) = folder.glob(pattern)
    return found
