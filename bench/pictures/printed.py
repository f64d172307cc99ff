"""How many of the values and names that programs print find their picture, over a folder of real files.

    python3 bench/pictures/printed.py FOLDER

It prints for each program how many keys `in` finds (those of ExifTool's -G1, -G and no group, and exiv2's), how many it leaves out and why,
and how many values of `show` the question NAME = VALUE finds. A base is `apt-get source libimage-exiftool-perl exiv2 pillow libmetadata-extractor-java`.
MakerNotes, File, Composite and ICC profiles aren't asked for.
"""

from __future__ import annotations

import collections
import contextlib
import io
import json
import os
import re
import subprocess
import sys
import tempfile
from typing import Callable, Dict, Iterable, Iterator, List, Tuple

import exifnorm
from exifnorm_pictures.catalogue.asking import Answer
from exifnorm_pictures.catalogue.store import Catalogue
from exifnorm_pictures.cli import main
from exifnorm_pictures.fields.questions import LONGEST, question_of
from exifnorm_pictures.model.problems import Problem

AT_ONCE = 40  # names that are asked together
GROUPS = ("-EXIF:all", "-IPTC:all", "-XMP:all")
LEFT_OUT = {  # keys that are no fields here, by why
    "attributes of the packet": re.compile("XMPToolkit|(^|:)About$"),
    "further pages and directories": re.compile("SubIFD|IFD[1-9]"),
    "exiv2's other directories, such as MakerNotes": re.compile(r"Exif\.(?!(Image|Photo|GPSInfo|Iop)\.)"),
    "pointers": re.compile("Tag$|Offsets?$|ByteCounts$|ThumbnailLength$"),
    "members of structures as exiv2 has them": re.compile(r"[\[/]"),
    "blocks": re.compile("XMLPacket|Exif.Image.(ImageResources|IPTCNAA)$"),
}
OF_SIDECAR = "Exif and IPTC that exiv2 makes of XMP"


def printed(*words: str) -> str:
    """What the command prints."""
    with contextlib.redirect_stdout(io.StringIO()) as out, contextlib.redirect_stderr(io.StringIO()):
        main._run(list(words))
    return out.getvalue()


def values_of(paths: Iterable[str]) -> Dict[str, Dict[str, set[str]]]:
    """The values that `show` prints of each name, and the pictures that have them."""
    values: Dict[str, Dict[str, set[str]]] = collections.defaultdict(lambda: collections.defaultdict(set))
    for path in paths:
        for line in printed("show", path).splitlines():
            match = re.fullmatch(r"  (\S+:\S+) +(.*)", line)
            if match:
                values[match[1]][match[2]].add(os.path.realpath(path))
    return values


def found_values(name: str, values: Dict[str, Dict[str, set[str]]]) -> Iterator[Tuple[str, str, bool]]:
    """Each name with a value, and whether the question finds all pictures that have it."""
    with Catalogue(name) as catalogue, catalogue.reading(is_answer=True):
        numbers = {os.path.realpath(os.fsdecode(it.path)): it.id for it in catalogue.pictures()}
        names = list(values)
        for first in range(0, len(names), AT_ONCE):
            some = names[first : first + AT_ONCE]
            answer = Answer(catalogue, None, shown=some)
            for word, text in ((word, text) for word in some for text in values[word]):
                doubled = text.replace('"', '""')
                if len(word) + len(doubled) > LONGEST - 10:  # which a question refuses
                    continue
                found = answer._finder.of(question_of(f'"{word}" = "{doubled}"')).sure
                yield word, text, all(numbers[it] in found for it in values[word][text] if it in numbers)


def keys_of_exiftool(path: str, *words: str) -> List[str]:
    """The keys that ExifTool prints."""
    ended = subprocess.run(["exiftool", "-config", "", "-j", "-a", *words, *GROUPS, path], capture_output=True)
    return [it for it in json.loads(ended.stdout or "[{}]")[0] if it != "SourceFile"]


def keys_of_exiv2(path: str) -> List[str]:
    """The keys that exiv2 prints."""
    return subprocess.run(["exiv2", "-PEIXk", path], capture_output=True, text=True, errors="replace").stdout.split()


PROGRAMS: Dict[str, Callable[[str], List[str]]] = {
    "exiftool -G1": lambda path: keys_of_exiftool(path, "-G1"),
    "exiftool -G": lambda path: keys_of_exiftool(path, "-G"),
    "exiftool": keys_of_exiftool,
    "exiv2": keys_of_exiv2,
}


def reason(path: str, program: str, key: str) -> str:
    """Why a key is left out; empty if it isn't."""
    if program == "exiv2" and path.lower().endswith(".xmp") and not key.startswith("Xmp"):
        return OF_SIDECAR
    return next((why for why, pattern in LEFT_OUT.items() if pattern.search(key)), "")


def found_keys(paths: Iterable[str]) -> Iterator[Tuple[str, str, bool]]:
    """Each program with a key, and whether it finds a field; of pictures that are read as a whole."""
    left: "collections.Counter[Tuple[str, str]]" = collections.Counter()
    count = 0
    for path in paths:
        with contextlib.suppress(exifnorm.NoPicture, exifnorm.NotReadable, OSError):
            picture = exifnorm.read(path)
            if picture.is_whole and picture.keys():
                count += 1
                keys = [(program, key) for program, keys_of in PROGRAMS.items() for key in keys_of(path)]
                left.update((program, why) for program, key in keys for why in [reason(path, program, key)] if why)
                yield from ((*it, it[1] in picture) for it in keys if not reason(path, *it))
    print(f"{count:,} pictures that are read as a whole")
    print(*(f"left out of {program}: {number:,} {why}" for (program, why), number in sorted(left.items())), sep="\n")


def say(what: str, results: Iterable[Tuple[str, str, bool]]) -> None:
    """The share of each program, and the first ones that aren't found."""
    counts: Dict[str, List[int]] = collections.defaultdict(lambda: [0, 0])
    missing: "collections.Counter[str]" = collections.Counter()
    for program, key, is_found in results:
        count = counts[program if what == "keys" else "show"]
        count[0] += is_found
        count[1] += 1
        missing[f"{program} {key[:60]!r}"] += not is_found
    for program, (found, total) in counts.items():
        print(f"{what} of {program}: {found:,} of {total:,} ({found / total:.2%})")
    print(*(f"  not found: {it} ({count})" for it, count in missing.most_common(20) if count), sep="\n")


if __name__ == "__main__":
    with tempfile.TemporaryDirectory() as room:
        printed("index", sys.argv[1], "--quiet", "--catalogue", f"{room}/c")
        with Catalogue(f"{room}/c") as indexed, indexed.reading():
            pictures = [os.fsdecode(it.path) for it in indexed.pictures() if it.problem != Problem.NO_PICTURE]
        print(f"{len(pictures):,} pictures")
        say("keys", found_keys(pictures))
        say("values", found_values(f"{room}/c", values_of(pictures)))
