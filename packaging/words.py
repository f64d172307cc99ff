#!/usr/bin/env python3
"""The tables of exifnorm_pictures that the page and the JavaScript package have: the names of fields, words for numbers, causes, labels.

  packaging/words.py                 prints them in JSON
"""

from __future__ import annotations

import json
import sys
from pathlib import Path
from typing import Any, Iterable

TOP = Path(__file__).resolve().parent.parent
sys.path[:0] = [str(TOP / "python")]

from exifnorm._causes import OF_HEADS, OF_PACKETS
from exifnorm_pictures.comparison.changed import edits
from exifnorm_pictures.extract import structure
from exifnorm_pictures.extract.formats import heif, jpeg_segments, tiff, tiff_directories, trailers, webp
from exifnorm_pictures.fields import labels, listing, names, plain_values, typed
from exifnorm_pictures.model import budgets, found, tiff_types, xmp_names
from exifnorm_pictures.model.texts import Result
from exifnorm_pictures.refusals import causes

_OF_RESULTS = {  # by the words of the scripts
    "different": Result.DIFFERENT,
    "refused": Result.REFUSED,
    "moved": Result.MOVED,
    "partly": Result.NOT_WHOLLY_READ,
    "unread": Result.NOT_READ,
}
_PIXELS = "Pixels are not compared."
RESULTS = {
    "same": [Result.SAME, f"{Result.SAME.sentence} {_PIXELS}"],
    "none": ["no metadata", f"No Exif, IPTC or XMP in either picture. {_PIXELS}"],
    **{word: [it, it.sentence] for word, it in _OF_RESULTS.items()},
}


def names_of(where: str) -> dict[str, str]:
    """The names of a directory's fields by tag or DataSet."""
    keys = {key for table in names.TABLES[where] for key in table}
    return {key: names.plain_name(where, key) for key in sorted(keys)}


def labels_of() -> dict[str, str]:
    """The labels, by the place of a field of Exif or IPTC, and by the key of a property of XMP; in the order in which they are shown."""
    by_place: dict[str, str] = {}
    for label in labels.LABELS:
        directory = "exif" if label.exif.startswith("9") else "main"
        by_place |= {
            key: label.word for key, part in ((f"{directory} {label.exif}", label.exif), (f"iptc {label.iptc}", label.iptc)) if part
        }
        by_place |= {f"main {tag}": word for tag, word in labels.WINDOWS.items() if word == label.word}
        if label.xmp:
            by_place[label.xmp] = label.word
    windows = {f"main {tag}": word for tag, word in labels.WINDOWS.items() if word == labels.COMMENT}
    return {**by_place, "exif 9286": labels.COMMENT, **windows, "exif:UserComment": labels.COMMENT}


def own_texts_of() -> dict[str, Any]:
    """The rules of texts that cameras and programs write by themselves. JavaScript writes the end of a text in another way."""
    rules = {"program": labels._PROGRAM, "camera": labels._OF_CAMERA, "file": labels._FILE.replace(r"\Z", "$")}
    return {"texts": sorted(labels._TEXTS), **rules, "filling": sorted(labels._FILLING)}


def _words(names: Iterable[bytes]) -> list[str]:
    return sorted(it.decode() for it in names)


def of_formats() -> dict[str, Any]:
    """What the readers of files know of their formats."""
    return {
        "private": structure.PRIVATE,
        "links": structure._LINKS,
        "sizes": {number: it.size for number, it in tiff_types.TIFF.items()},
        "pixels": [*tiff_directories.PIXELS],
        "notCompared": [[marker, head.decode("latin-1")] for marker, head, _ in jpeg_segments.RESTS if head],
        "trailers": [[sign.decode("latin-1").replace(r"\Z", "$"), it.name] for sign, it in trailers._SIGNS],
        "mayHave": [*found._MAY_HAVE.items()],
        "pointers": tiff._POINTERS,
        "otherPointers": tiff.OTHER_POINTERS,
        "ofPixels": tiff._PAIRS,
        "webp": _words({*webp.PIXELS, b"VP8X", b"ICCP"}),
        "brands": _words(heif.BRANDS),
        "items": _words(heif.PICTURES),
        "boxes": _words(heif._WITHOUT),
        "boxesInMeta": _words({*heif.READERS, b"iprp", *heif._WITHOUT_IN_META}),
        "limits": {name.replace(" ", "_"): most for name, most in budgets.LIMITS.items()} | {"packet": budgets.PACKET_BYTES},
    }


def of_fields() -> dict[str, Any]:
    """Which fields have a value of some kind."""
    return {
        "dates": sorted(map(" ".join, typed._DATES)),
        "versions": sorted(f"{directory} {tag}" for _, directory, tag in typed._VERSIONS),
        "iptcDates": listing.DATASET_DATES,
        "iptcTimes": listing.DATASET_TIMES,
        "iptcNumbers": listing.DATASET_NUMBERS,
        "iptcPictures": sorted(listing._OTHER_DATASETS),
        "wideTexts": sorted(listing.WIDE_TEXTS),
        "repeated": edits._REPEATED,
    }


def tables() -> dict[str, Any]:
    """What the scripts have of exifnorm_pictures."""
    return {
        **of_formats(),
        **of_fields(),
        "results": RESULTS,
        "groups": names._GROUPS,
        "names": {**{where: names_of(where) for where in names.TABLES}, "thumb": {**names_of("thumb"), **names._PICTURES}},
        "words": plain_values.WORDS,
        "flash": plain_values.FLASH,
        "noFlash": plain_values.NO_FLASH,
        "directions": plain_values.DIRECTIONS,
        "units": plain_values.UNITS,
        "altitudes": plain_values.ALTITUDES,
        "causes": {cause.name: [cause.sentence, cause.meaning, cause.remedy, cause.cost] for cause in causes._CAUSES},
        "heads": {name: list(texts) for name, texts in OF_HEADS.items()},
        "packets": {name: [sentence, "", remedy, ""] for name, (sentence, remedy) in OF_PACKETS.items()},
        "spaces": xmp_names._SPACES,
        "labels": labels_of(),
        "labelled": labels.label_of_fields(),
        "byThemselves": edits.BY_THEMSELVES,
        "own": own_texts_of(),
        "types": typed.TYPES,
    }


def script(*left_out: str) -> str:
    """The tables, but for some, as the first statement of a script."""
    return f"const tables = {json_of({name: it for name, it in tables().items() if name not in left_out})};"


def json_of(value: Any) -> str:
    return json.dumps(value, ensure_ascii=False, separators=(",", ":")).replace("<", "\\u003c")


if __name__ == "__main__":
    print(json_of(tables()))
