#!/usr/bin/env python3
"""Makes the page that compares pictures in a browser: one HTML file that has everything in it, and makes no requests.

  packaging/page.py WASM TARGET

WASM is exifnorm.wasm, and TARGET the page. The sources are in page/, and the modules that read pictures in javascript/. The names of fields,
the words for numbers and the causes of refusals are the tables of exifnorm_pictures. The module, and the worker's scripts with the tables, are
in the page as gzip in base64. The same sources make the same bytes. A page with a module that was compiled without proofs has the mark by which
build/guard.py refuses it.
"""

from __future__ import annotations

import base64
import gzip
import hashlib
import re
import sys
from pathlib import Path

TOP = Path(__file__).resolve().parent.parent
sys.path[:0] = [str(TOP / "build"), str(TOP / "packaging")]

import guard
import words as words_of
from scripts import READING, joined, text_of

PAGE = TOP / "page"
LONGEST = 300_000  # bytes of the page; a module without proofs has checks in their place, and is longer
MODULES = [*READING, "page/edits.js", "page/worker.js"]  # the scripts of the worker
ENDS = re.compile("</(?:script|style)|<!--", re.I)


class Failed(Exception):
    """Why there is no page."""


def digest(text: str) -> str:
    """The source expression of a script or style in a content security policy."""
    return f"'sha256-{base64.b64encode(hashlib.sha256(text.encode()).digest()).decode()}'"


def policy(style: str, script: str) -> str:
    """A content security policy that allows this style, this script and its worker, and no request."""
    return "; ".join(
        [
            "default-src 'none'",
            f"script-src {digest(script)} 'wasm-unsafe-eval'",
            "worker-src blob:",
            "img-src blob:",
            f"style-src {digest(style)}",
            "base-uri 'none'",
            "form-action 'none'",
            "require-trusted-types-for 'script'",
            "trusted-types exifnorm",
        ]
    )


def packed(octets: bytes) -> str:
    """Bytes as gzip in base64."""
    return base64.b64encode(gzip.compress(octets, mtime=0)).decode()


def samples() -> str:
    """Two sample pictures: the length of the first one, and both as gzip in base64."""
    first, second = ((TOP / "samples" / side / "ceramics" / "2003-12-bowl.jpg").read_bytes() for side in ("before", "after"))
    return f"{len(first)} {packed(first + second)}"


def page(wasm: bytes) -> str:
    """The page."""
    style, script = text_of("page/page.css"), text_of("page/page.js")
    parts = {
        "POLICY": policy(style, script),
        "STYLE": style,
        "SCRIPT": script,
        "WORKER": packed(joined(words_of.script("types"), MODULES).encode()),
        "RESULTS": words_of.json_of(words_of.tables()["results"]),
        "MODULE": packed(wasm),
        "SAMPLES": samples(),
        "MARK": guard.MARK if guard.MARK.encode() in wasm else "",
    }
    for name, text in parts.items():
        if ENDS.search(text):
            raise Failed(f"the part {name} would end its element")
    text = re.sub("@([A-Z]+)@", lambda match: parts[match[1]], (PAGE / "page.html.in").read_text(encoding="utf-8"))
    if len(text.encode()) > LONGEST and not parts["MARK"]:
        raise Failed(f"the page has {len(text.encode())} bytes, more than {LONGEST}")
    return text


def main(words: list[str]) -> int:
    if len(words) != 2:
        sys.exit(__doc__)
    try:
        text = page(Path(words[0]).read_bytes())
        Path(words[1]).parent.mkdir(parents=True, exist_ok=True)
        Path(words[1]).write_text(text, encoding="utf-8")
    except (Failed, OSError) as why:
        print(f"page: {why}", file=sys.stderr)
        return 1
    return 0


if __name__ == "__main__":
    sys.exit(main(sys.argv[1:]))
