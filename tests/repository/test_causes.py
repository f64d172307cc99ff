"""Each cause of a refusal is named wherever it must be: this test prints the places that lack one.

The compiler asks for the other places in the crates. packaging/pages.py prints the rest.
"""

from __future__ import annotations

import re
from pathlib import Path
from typing import Iterator

from exifnorm import _causes, _jpeg
from exifnorm_pictures.refusals.causes import CAUSES
from reading import CAUSES as BLOCKS

TOP = Path(__file__).resolve().parent.parent.parent


def found(path: str, pattern: str) -> list[str]:
    """What a pattern finds in the lines of a file."""
    return re.findall(pattern, (TOP / path).read_text(encoding="utf-8"), re.M)


def variants(path: str, name: str) -> list[str]:
    """The variants of an enum."""
    (body,) = found(path, rf"(?s)pub enum {name} \{{(.*?)^\}}")
    return re.findall(r"(?m)^    (\w+),$", body)


def places() -> Iterator[tuple[str, list[str], list[str]]]:
    """Each place with the names that it must have, in their order, and with those that it has."""
    blocks = variants("crates/px_bytes/src/causes.rt", "Cause")
    yield "OF_BLOCKS in exifnorm/_causes.py", blocks, [*_causes.OF_BLOCKS]
    yield "exifnorm_pictures/refusals/causes.py", blocks, [*CAUSES]
    yield "CAUSES in blocks/reading.py", blocks, [*BLOCKS]
    yield "DIAGRAMS in packaging/refusals_page.py", blocks, found("packaging/refusals_page.py", r'^    "(\w+)": f?"')

    in_c = "crates/px_c/src/names.rt"
    names = dict(found(in_c, r'^ +(\d+) => b"(\w+)",$'))
    numbers = found("crates/px_c/src/jpeg.rt", r"HeadCause::\w+ => (\d+),")
    numbers += found("crates/px_c/src/pictures.rt", r"const TOO_LONG: u32 = (\d+);")
    heads = [names.get(it, f"a name of {it}") for it in numbers]
    yield in_c, heads, [it for it in names.values() if it.startswith("Jpeg")]
    yield "docs/FORMAT.md, 9", heads, found("docs/FORMAT.md", r"^\| (Jpeg\w+) \|")
    yield "OF_HEADS in exifnorm/_causes.py", heads, [*_causes.OF_HEADS]
    yield "CAUSES in exifnorm/_jpeg.py", [*zip(map(int, numbers), heads)], [*_jpeg.CAUSES.items()]

    packets = [f"Xmp{it}" for it in variants("crates/px_xmp_forms/src/faults.rt", "Cause")]
    yield "OF_PACKETS in exifnorm/_causes.py", packets, [*_causes.OF_PACKETS]


def test_each_cause_is_named_in_each_place() -> None:
    wrong = []
    for place, expected, listed in places():
        lacking = [f"{place} lacks {it}" for it in expected if it not in listed]
        lacking += [f"{place} has {it}, which nothing reports" for it in listed if it not in expected]
        wrong += lacking or [f"{place} has another order"] * (listed != expected)
    assert not wrong, "\n".join(wrong)
