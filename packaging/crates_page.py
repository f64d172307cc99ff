"""crates/README.md: of each crate the first paragraph of its lib.rt or main.rt, what it uses and exports, and its definitions."""

from __future__ import annotations

import re
import sys
from pathlib import Path

CRATES = Path(__file__).resolve().parent.parent / "crates"
LIST = CRATES.parent / "crates.txt"
READING = CRATES.parent / "docs" / "READING.md"
USED = re.compile(r"(?m)^(?:pub )?use Rattle\.(px_\w+)\.specs\.([A-Z]\w*)\b")
# from the ground up
GROUPS = {
    "Ground": "px_bytes",
    "IPTC": "px_iim",
    "Exif": "px_field px_meaning px_tree px_layout px_plans",
    "XMP": "px_xmp_text px_xmp_marks px_xmp_markup px_xmp_forms px_xmp_document px_xmp px_xmp_lines",
    "Engine": "px_text px_engine",
    "Pictures": "px_jpeg px_pictures px_xmp_pictures",
    "Doors": "px_c px_words px_runs px_cli",
    "Tests": "px_calls",
}
HEAD = """# The crates

This page is printed by `packaging/pages.py`. A crate uses only crates to its left in its row of this map, and crates in the rows below:

```
{}
```

`.rt` files are code, `.antt` files definitions (`specs/`) and proofs (`proofs/`).

A call's contract, above its body in `crates/NAME/src`, says what it promises, and the comment above that says it in words. To trust a contract, read it and the definitions that it names; [READING](../docs/READING.md) explains their words, and [PROOFS](../docs/PROOFS.md) lists the promises of the library and the program. To trust all of them, read the definitions below in this order, together with [FORMAT](../docs/FORMAT.md). Two folders need no reading: `specs/lemmas` has what is proved of the definitions, as `proofs/` has, and `specs/calls` has definitions for single calls.
"""


def first_paragraph(source: str) -> str:
    """The first paragraph of a crate's comment.

    >>> first_paragraph("//! One\\n//! two.\\n//!\\n//! Three.\\nmod a;\\n")
    'One two.'
    """
    comment = "\n".join(line[3:].strip() for line in source.splitlines() if line.startswith("//!"))
    return " ".join(comment.partition("\n\n")[0].split())


def exported(source: str) -> list[str]:
    """The names that a crate exports.

    >>> exported("pub use a::{b, C};\\npub use d::e;\\npub mod laws;\\npub(crate) use f::g;\\n")
    ['b', 'C', 'e', 'laws']
    """
    found = re.findall(r"(?m)^pub (?:use [\w:]*?(?:\{([^}]*)\}|(\w+))|mod (\w+));", source)
    return [name for parts in found for name in re.findall(r"\w+", " ".join(parts))]


def definitions(crate: str) -> list[Path]:
    """The files of definitions that must be read, each after those of this crate that it uses."""
    found = (it for it in (CRATES / crate / "specs").glob("[A-Z]*.antt") if it.stem != "Lib")
    left = sorted(found, key=lambda it: (it.stem == "Laws", it.stem))
    used = {it.stem: {name for owner, name in USED.findall(it.read_text(encoding="utf-8")) if owner == crate} for it in left}
    ordered: list[Path] = []
    while left:
        names = {it.stem for it in left}
        ordered.append(next(it for it in left if not used[it.stem] & names - {it.stem}))
        left.remove(ordered[-1])
    return ordered


def of_headline(crate: str) -> list[str]:
    """The files of definitions that READING lists for the headline."""
    listed = re.search(rf"(?m)^\| {crate} \| (.*) \|$", READING.read_text(encoding="utf-8"))
    return re.findall(r"`(\w+)`", listed[1]) if listed else []


def section(crate: str, uses: str) -> str:
    """What the page has of a crate."""
    (root,) = [it for name in ("lib.rt", "main.rt") if (it := CRATES / crate / "src" / name).exists()]
    source, files, first = root.read_text(encoding="utf-8"), definitions(crate), of_headline(crate)
    lines = sum(len(it.read_text(encoding="utf-8").splitlines()) for it in files)
    rows = [
        ("Uses", uses.split()),
        ("Exports", [f"`{it}`" for it in exported(source)]),
        ("Definitions of the headline", [f"`{it}`" for it in first]),
        (f"Definitions, {lines} lines", [f"`{it.stem}`" for it in files]),
    ]
    listed = "".join(f"- {title}: {', '.join(names)}\n" for title, names in rows if names)
    return f"\n### {crate}\n\n{first_paragraph(source)}\n\n{listed}"


def drawn() -> str:
    """The map: a row for each group, the ground lowest."""
    return "\n".join(f"{title.lower():10}{names.replace(' ', '  ')}" for title, names in reversed(list(GROUPS.items())))


def checked(uses: dict[str, str]) -> None:
    """That the map has each crate, and is true."""
    ordered = [name for names in GROUPS.values() for name in names.split()]
    if sorted(ordered) != sorted(uses):
        sys.exit(f"crates_page: GROUPS and crates.txt differ by {sorted(set(ordered) ^ set(uses))}")
    for at, name in enumerate(ordered):
        if above := set(uses[name].split()) & set(ordered[at:]):
            sys.exit(f"crates_page: {name} uses {sorted(above)}, which come after it in GROUPS")


def page() -> str:
    """The whole page."""
    rows = [line.partition(":") for line in LIST.read_text(encoding="utf-8").splitlines() if line.strip()]
    uses = {name.split()[0]: used for name, _, used in rows}
    checked(uses)
    parts = [HEAD.format(drawn())]
    for title, names in GROUPS.items():
        parts += [f"\n## {title}\n", *(section(it, uses[it]) for it in names.split())]
    return "".join(parts)
