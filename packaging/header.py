"""exifnorm.h: the version and the lists of causes of blocks and of packets.

The version is px_engine's. The causes, what they mean and their numbers are those of px_bytes and of
px_xmp_forms.
"""

from __future__ import annotations

import re
import sys
from pathlib import Path

CRATES = Path(__file__).resolve().parent.parent / "crates"
HEADER = CRATES / "px_c" / "include" / "exifnorm.h"
VERSION = CRATES / "px_engine" / "src" / "version.rt"
MACROS = re.compile(r'#define EXIFNORM_VERSION ".*"\n(?:#define EXIFNORM_VERSION_[A-Z]+ \d+\n){3}')
MEMBER = re.compile(r"((?:    /// .*\n)+)    (\w+),\n")
NUMBER = re.compile(r"Cause::(\w+) => (\d+),")
# of each list how its names begin, and the source with the causes
LISTS = (
    ("EXIFNORM_CAUSE", "px_bytes/src/causes.rt"),
    ("EXIFNORM_XMP", "px_xmp_forms/src/faults.rt"),
)


def name_in_c(begins: str, name: str) -> str:
    """The name of a cause as a constant in C.

    >>> name_in_c("EXIFNORM_CAUSE", "DataSetCut")
    'EXIFNORM_CAUSE_DATASET_CUT'
    """
    parts = re.findall("[A-Z][a-z]+", name.replace("DataSet", "Dataset"))
    return "_".join([begins, *parts]).upper()


def meaning(comment: str) -> str:
    """The first sentence of a comment in Rattle, as a comment in C.

    >>> meaning("    /// Rare: longer than `LIMIT`\\n    /// bytes. More.\\n")
    '/* longer than EXIFNORM_LIMIT bytes */'
    """
    words = re.sub("^ *///", "", comment, flags=re.M).split()
    sentence = " ".join(words).partition(". ")[0].rstrip(".").replace("Rare: ", "")
    plain = sentence.replace("`LIMIT`", "EXIFNORM_LIMIT").replace("`", "")
    return f"/* {plain[0].lower()}{plain[1:]} */"


def members(begins: str, source: str) -> str:
    """The members of a list of the header."""
    declared = re.search(r"pub enum Cause \{\n(.*?)\n\}", source, re.S)
    causes = MEMBER.findall(declared[1] + "\n" if declared else "")
    numbers = dict(NUMBER.findall(source))
    lines = [f"    {name_in_c(begins, name)} = {numbers[name]}," for _, name in causes]
    lines[-1] = lines[-1].rstrip(",")
    width = max(map(len, lines))
    comments = [meaning(comment) for comment, _ in causes]
    return "".join(f"{line:{width}} {comment}\n" for line, comment in zip(lines, comments))


def macros(source: str) -> str:
    """The macros of the version.

    >>> print(macros('pub const VERSION: &str = "1.20.3";'), end="")
    #define EXIFNORM_VERSION "1.20.3"
    #define EXIFNORM_VERSION_MAJOR 1
    #define EXIFNORM_VERSION_MINOR 20
    #define EXIFNORM_VERSION_PATCH 3
    """
    version = re.findall(r'VERSION: &str = "(.*)";', source)[0]
    numbers = zip(("MAJOR", "MINOR", "PATCH"), version.split("."))
    return f'#define EXIFNORM_VERSION "{version}"\n' + "".join(f"#define EXIFNORM_VERSION_{name} {number}\n" for name, number in numbers)


def printed() -> str:
    """The header with the printed parts as they must be."""
    header, parts = HEADER.read_text(encoding="utf-8"), [(MACROS, macros(VERSION.read_text(encoding="utf-8")))]
    for begins, source in LISTS:
        text = (CRATES / source).read_text(encoding="utf-8")
        listed = re.compile(rf"(?<=enum \{{\n)    {begins}_TOO_LONG = .*?(?=\}};\n)", re.S)
        parts.append((listed, members(begins, text)))
    for pattern, part in parts:
        header, count = pattern.subn(lambda _: part, header)
        if count != 1:
            sys.exit("the header has no list of causes, or no version")
    return header
