"""exifnorm_names.h: names of fields, and sentences for statuses and causes. They are those of the Python package."""

from __future__ import annotations

import re
import sys
from pathlib import Path
from typing import Dict, Iterable, List, Tuple

TOP = Path(__file__).resolve().parent.parent
HEADER = TOP / "crates" / "px_c" / "include" / "exifnorm.h"
sys.path.insert(0, str(TOP / "python"))

from exifnorm._causes import CAUSE_WORDS  # noqa: E402
from exifnorm._jpeg import CAUSES as JPEG_CAUSES  # noqa: E402
from exifnorm_pictures.fields.names import TABLES, group_of, plain_name  # noqa: E402

# of EXIFNORM_DIRECTORY_MAIN and those after it
DIRECTORIES = ("main", "iptc", "exif", "interop", "gps", "thumb")

STATUSES = {
    "DONE": "The call has succeeded.",
    "REFUSED": "The block, the packet or the head of the JPEG is refused; of two, the first.",
    "TOO_LONG": "The block is valid, but its normal form is too long.",
    "NO_MEMORY": "There is not enough memory.",
    "TOO_LITTLE_ROOM": "The output is too short.",
    "SECOND_REFUSED": "The second block or JPEG is refused.",
    "NOT_READ": "A part of the JPEG was not read; or of the first of two, which are the same as far as they were read.",
    "SECOND_NOT_READ": "Two JPEGs are the same as far as they were read; a part of the second was not read.",
    "RARE": "The packet of XMP is in a rare form, which this library does not read.",
}

TEXT = """/* exifnorm_names.h: names of fields, and sentences for statuses and causes. packaging/names.py prints this file.
 *
 *     while (exifnorm_fields_next(&fields, &field))
 *         printf("%s:%s\\n", exifnorm_field_group(&field), exifnorm_field_name(&field));      IFD0:Artist
 *
 * The names and the groups are those that ExifTool and the command exifnorm-pictures print. All texts are ASCII, are in the program
 * itself, and end with a zero byte. A header alone, for C99 and C++11; a program that doesn't need its {bytes:,} bytes of texts leaves it out.
 */
#ifndef EXIFNORM_NAMES_H
#define EXIFNORM_NAMES_H

#include "exifnorm_fields.h"

#ifdef __cplusplus
extern "C" {{
#endif

struct exifnorm_name_ {{
    uint32_t tag;
    const char *name;
}};

{tables}/* The name in a table whose tags ascend, or NULL. */
static inline const char *exifnorm_find_(const struct exifnorm_name_ *names, size_t count, uint32_t tag) {{
    size_t first = 0;
    while (first < count) {{
        size_t middle = first + (count - first) / 2;
        if (names[middle].tag == tag)
            return names[middle].name;
        if (names[middle].tag < tag)
            first = middle + 1;
        else
            count = middle;
    }}
    return NULL;
}}

/* The name of a field, as "Artist", "GPSLatitude" or "Keywords". NULL if its tag or DataSet has none: then print the number. */
static inline const char *exifnorm_field_name(const struct exifnorm_field *field) {{
    if (field->type == EXIFNORM_TYPE_JPEG)
        return {jpeg};
    if (field->type == EXIFNORM_TYPE_STRIP)
        return {strip};
    switch (field->directory) {{
{cases}    default: return NULL;
    }}
}}

/* The group of a field: {groups}. "" for a number that is no directory. */
static inline const char *exifnorm_field_group(const struct exifnorm_field *field) {{
    static const char *const groups[{count}] = {{{groups}}};
    return field->directory < {count} ? groups[field->directory] : "";
}}

/* What a status means, in a sentence. "" for a number that is no status. */
static inline const char *exifnorm_status_text(uint32_t status) {{
    switch (status) {{
{statuses}    default: return "";
    }}
}}

/* What is wrong, in a sentence, by the cause of a block's refusal, that of a JPEG's head or that of a packet of XMP. "" for a number that is
 * no cause. */
static inline const char *exifnorm_cause_text(uint32_t cause) {{
    switch (cause) {{
{causes}    default: return "";
    }}
}}

#ifdef __cplusplus
}}
#endif

#endif
"""


def tag_of(key: str) -> int:
    """The tag of a field in C.

    >>> hex(tag_of("010f")), hex(tag_of("2:25"))
    ('0x10f', '0x219')
    """
    record, colon, number = key.partition(":")
    return int(record) * 256 + int(number) if colon else int(key, 16)


def names_in(directory: str) -> Dict[int, str]:
    """The names of a directory's fields by their tags.

    >>> names_in("gps")[2], names_in("iptc")[0x0278], names_in("main")[0x9003]
    ('GPSLatitude', 'Caption-Abstract', 'DateTimeOriginal')
    """
    return dict(sorted((tag_of(key), plain_name(directory, key)) for table in TABLES[directory] for key in table))


def literal(text: str) -> str:
    """A text as a constant in C.

    >>> print(literal('the "head"'))
    "the \\"head\\""
    """
    if not text.isascii() or not text.isprintable():
        raise ValueError(f"not printable ASCII: {text!r}")
    return '"' + text.replace("\\", "\\\\").replace('"', '\\"') + '"'


def array(name: str, names: Dict[int, str]) -> str:
    """A table of names, as many in a line as fit."""
    lines = [""]
    for entry in (f"{{0x{tag:04X}, {literal(text)}}}, " for tag, text in names.items()):
        if len(lines[-1]) + len(entry) > 132:
            lines.append("")
        lines[-1] += entry
    body = "\n".join(f"    {line.rstrip()}" for line in lines).rstrip(",")
    return f"static const struct exifnorm_name_ {name}[{len(names)}] = {{\n{body}}};\n\n"


def tables() -> Tuple[str, str]:
    """The tables, each once, and the cases that choose one for a directory."""
    known: Dict[str, Dict[int, str]] = {}
    cases = []
    for directory in DIRECTORIES:
        names = names_in(directory)
        name = next((name for name, other in known.items() if other == names), f"exifnorm_{directory}_names_")
        known[name] = names
        number = {"iptc": "RECORD", "thumb": "THUMBNAIL"}.get(directory, directory.upper())
        cases.append(f"    case EXIFNORM_DIRECTORY_{number}: return exifnorm_find_({name}, {len(names)}, field->tag);\n")
    return "".join(array(name, names) for name, names in known.items()), "".join(cases)


def switch(texts: Iterable[Tuple[str, str]]) -> str:
    """The cases of a function that returns texts."""
    return "".join(f"    case EXIFNORM_{name}: return {literal(text)};\n" for name, text in texts)


def statuses(source: str) -> List[Tuple[str, str]]:
    """The constant and the sentence of each status that exifnorm.h lists.

    >>> statuses("/* The statuses. */ enum { EXIFNORM_DONE = 0 };")
    [('DONE', 'The call has succeeded.')]
    """
    listed = re.findall(r"EXIFNORM_(\w+) = ", source.partition("/* The statuses. */")[2].partition("};")[0])
    if unknown := [name for name in listed if name not in STATUSES]:
        sys.exit(f"packaging/names.py has no sentence for the status {unknown[0]}")
    return [(name, STATUSES[name]) for name in listed]


def causes(source: str) -> List[Tuple[str, str]]:
    """The constant and the sentence of each cause that exifnorm.h lists."""
    listed = re.findall(r"EXIFNORM_(CAUSE_\w+|JPEG_\w+|XMP_\w+) = (\d+)", source)
    names = ((constant, JPEG_CAUSES.get(int(number), name_of_cause(constant))) for constant, number in listed)
    return [(constant, CAUSE_WORDS[name][0]) for constant, name in names if name in CAUSE_WORDS]


def name_of_cause(constant: str) -> str:
    """The name of a cause, from its constant in C.

    >>> name_of_cause("CAUSE_DATASET_CUT"), name_of_cause("CAUSE_NO_MARKER"), name_of_cause("XMP_NO_RDF")
    ('DataSetCut', 'NoMarker', 'XmpNoRdf')
    """
    return "".join(word.capitalize() for word in constant.split("_") if word != "CAUSE").replace("Dataset", "DataSet")


def header() -> str:
    """The text of the header."""
    arrays, cases = tables()
    groups = [literal(group_of(directory)) for directory in DIRECTORIES]
    source = HEADER.read_text(encoding="utf-8")
    switches = {"statuses": switch(statuses(source)), "causes": switch(causes(source))}
    size = sum(len(text) - 1 for text in re.findall(r'"(?:[^"\\]|\\.)*"', arrays + "".join(switches.values())))
    pictures = {key: literal(plain_name("thumb", key)) for key in ("jpeg", "strip")}
    return TEXT.format(tables=arrays, cases=cases, groups=", ".join(groups), count=len(groups), bytes=size, **pictures, **switches)
