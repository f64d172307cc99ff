"""Runs programs that must end as expected."""

from __future__ import annotations

import os
import subprocess
from pathlib import Path

TOP = Path(__file__).resolve().parent.parent


def run(*words: str | Path, folder: Path = TOP, status: int = 0, mask: int = 0o022, **environment: str) -> str:
    """Runs a command, which must end with a status, and returns what it prints.

    >>> run("echo", "a")
    'a\\n'
    """
    ran = subprocess.run(
        [str(it) for it in words],
        cwd=folder,
        env={**os.environ, **environment},
        stdin=subprocess.DEVNULL,
        stdout=subprocess.PIPE,
        stderr=subprocess.STDOUT,
        umask=mask,
        timeout=4 * 3600,  # a guard alone, also on a very busy machine
        check=False,
    )
    said = ran.stdout.decode("utf-8", "replace")
    if ran.returncode != status:
        raise AssertionError(f"{' '.join(map(str, words))[:200]} ended with status {ran.returncode}: {said[-2000:].strip()}")
    return said


def text_of(*path: str) -> str:
    return TOP.joinpath(*path).read_text(encoding="utf-8")
