"""The rule for what counts as proved: the compiler's verdict on a crate, and the permissions of the repository's crates.

`rt ci` checks more, from the sources and from the linked program; build/prove.py lists what it leaves to it.
"""

from __future__ import annotations

import re
import subprocess
from pathlib import Path

# The one line of HANDLES: no crate may end the process, wait, start threads or programs, or open sockets.
HANDLES = "Handles allowed: none.\n"

# The words that the compiler's verdict may have besides `logic=proved`. Any other word may mean that the proof leaves something out:
# `may-wait=1` counts functions that need not return, `hides=1` contracts that may state nothing, `bugs=1` parts that were not checked.
WORDS = {"functions", "axioms", "target", "cpu", "sum", "native", "logic-built", "libraries-built", "statements"}

# Contracts that no call can meet, so that any body proves them; or the search for these did not end.
EMPTY = re.compile(r"^(?:warning: no call of `(?![^`]*::fn::)|note: the search for empty contracts ).*", re.M)


def refused_handles(top: Path) -> str:
    """Why the file HANDLES is refused; empty if it is unchanged."""
    try:
        text = (top / "HANDLES").read_bytes()
    except OSError as why:
        return f"cannot read HANDLES: {why}"
    return "" if text == HANDLES.encode() else f"HANDLES was changed; it must be the line {HANDLES!r}"


def refused_verdict(said: str) -> str:
    """Why a crate does not count as proved, by the compiler's output; empty if it does.

    >>> refused_verdict("logic=proved functions=2 sum=1f\\n")
    ''
    >>> refused_verdict("logic=proved functions=2 may-wait=1 sum=1f\\n")
    'the verdict has may-wait=1'
    >>> refused_verdict("error: no proof\\n")
    'the compiler gave 0 verdicts'
    """
    verdicts = re.findall(r"^logic=.*", said, re.M)
    if len(verdicts) != 1:
        return f"the compiler gave {len(verdicts)} verdicts"
    first, *words = verdicts[0].split()
    if first != "logic=proved":
        return f"the verdict is {first}"
    for line in words:
        if line.partition("=")[0] not in WORDS:
            return f"the verdict has {line}"
    empty = EMPTY.search(said)
    return empty[0] if empty else ""


def starts(program: Path) -> bool:
    """Whether a program that was built starts here, and ends with success."""
    null = subprocess.DEVNULL
    try:
        ended = subprocess.run([str(program), "--version"], stdin=null, stdout=null, stderr=null, timeout=60, check=False)
        return ended.returncode == 0
    except (OSError, subprocess.TimeoutExpired):
        return False
