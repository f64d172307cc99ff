"""The bounds that the contracts state on what a call asks the allocator for, read from the definitions of the crates."""

import re
from functools import lru_cache
from pathlib import Path
from types import SimpleNamespace

CRATES = Path(__file__).resolve().parent.parent.parent / "crates"
SPECS = (
    "px_bytes/specs/Reading.antt",
    "px_bytes/specs/Claimed.antt",
    "px_iim/specs/Asking.antt",
    "px_tree/specs/Asking.antt",
    "px_engine/specs/Asking.antt",
    "px_pictures/specs/Asking.antt",
)
DEFINITION = re.compile(r"^(\w+_(?:request|bytes)) ?(n|end|) = ((?!.*\bmax\b)[\w ()+*/]+)$", re.M)


@lru_cache(maxsize=None)
def bounds():
    """Each definition as a number, or as a function of a number.

    >>> bounds().read_request(80), bounds().mark_bytes(65), bounds().item_bytes
    (729898, 16, 24)
    """
    found = [it for name in SPECS for it in DEFINITION.findall((CRATES / name).read_text("utf-8"))]
    applied = re.compile(rf"\b({'|'.join(name for name, variable, _ in found if variable)}) ([a-z]+)\b")
    scope = {}
    for name, variable, body in found:
        body = applied.sub(r"\1(\2)", body).replace("/", "//")
        scope[name] = eval(f"lambda {variable}: {body}" if variable else body, scope)  # pylint: disable=eval-used
    return SimpleNamespace(**scope)
