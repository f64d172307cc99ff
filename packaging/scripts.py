"""Modules of JavaScript as one script: each in a function of its own, of which only the exported names are seen."""

from __future__ import annotations

import re
from pathlib import Path
from typing import Sequence

TOP = Path(__file__).resolve().parent.parent
EXPORT = re.compile(r"^export (?=(?:async )?(?:const|class|function\*?) (\w+))", re.M)
IMPORT = re.compile(r"^(?:import|export \{[^}]*\} from) [^;]*;\n", re.M)
# what a script needs no bytes for: comments that are lines of their own, and indentation
COMMENTS = re.compile(r"^ */\*[\s\S]*?\*/\n|^ *//.*\n|^ +", re.M)
# those that read pictures, each after those that it imports from
READING = [
    f"javascript/{name}.js"
    for name in (
        "xmp engine sha256 md5 values listing xmp_values parts inflate png webp tiff_directories notes tiff heif_items heif formats jpeg head own rows"
    ).split()
]


def text_of(name: str) -> str:
    """The text of a source, without comments and indentation. No text in it goes over the end of a line."""
    return COMMENTS.sub("", (TOP / name).read_text(encoding="utf-8"))


def joined(tables: str, names: Sequence[str]) -> str:
    """The modules as one script, with the statement of the tables that they import."""
    pieces = ['"use strict";', tables]
    for name in names:
        text = IMPORT.sub("", text_of(name))
        exported = ", ".join(EXPORT.findall(text))
        text = EXPORT.sub("", text)
        pieces.append(f"const {{ {exported} }} = (() => {{\n{text}return {{ {exported} }};\n}})();" if exported else text)
    return "\n".join(pieces)
