"""How many values agree with ExifTool's, over the pictures of a folder.

    python3 bench/pictures/agreement.py FOLDER

It reads each picture by `exifnorm.read`, without other programs, and by `exiftool -j -n -struct -G1:4 -a`, and prints for each form of a value
that both have how many agree, and each value that differs, with who is right. Offsets of image data, MakerNotes and attributes of packets are left
out, as in printed.py. What only ExifTool has is listed of pictures that are read as a whole.
"""

from __future__ import annotations

import collections
import contextlib
import hashlib
import json
import re
import subprocess
import sys
from datetime import date, datetime, time
from fractions import Fraction
from pathlib import Path
from typing import Any, Dict, Iterator, List, Tuple

import exifnorm

LEFT_OUT = re.compile("XMPToolkit$|About$|SubIFD|IFD[2-9]|Tag$|Offsets?$|ByteCounts$|ThumbnailLength$|JpgFromRaw|PreviewImage|OtherImage")
BLANK = " \0\n\r\t"
BOOLEANS = {"true": "True", "false": "False"}
WHY = {  # of a value that differs, by its name and by what both have: who is right
    "bytes that ExifTool decodes; both are right": re.compile("CFAPattern|RawDataUniqueID|Thumbnails"),
    "a thumbnail that goes on beyond its block; ExifTool": re.compile("ThumbnailImage"),
    "a number over 65,535 for ColorSpace, which ExifTool cuts; both": re.compile("ColorSpace"),
    "IPTC in UTF-8 that isn't declared; exifnorm": re.compile("^IPTC.*[\u00c2\u00c3]"),
    "a character set that other parts of the file show, which ExifTool takes for Windows-1252; exifnorm": re.compile(
        "Trübiger|^IPTC.*Kropáček"
    ),
    "a character set that isn't declared: a guess here, ? there; Field.guess marks it": re.compile(r"/ .*\?|Ronald Reagan"),
    "a date in another form than its standard's, kept as a text; both": re.compile("Date"),
    "an exposure of 2 to the power of millions; both": re.compile("ShutterSpeedValue: Fraction"),
    "a number with words or commas, kept as a text, of which ExifTool takes the first digits; exifnorm": re.compile(
        r": ' ?\d+[,.] ?\d.*' / "
    ),
    "a property twice, of which ExifTool has the first; exifnorm": re.compile(
        r"Interoperability|XMP-exif:Image(Width|Length): \(|xxxx:Test"
    ),
    "a structure of which ExifTool leaves out members; exifnorm": re.compile("RegionInfo"),
    "a fraction with the denominator 0; exifnorm": re.compile("None"),
    "no text in a field of texts, which ExifTool cuts at a NUL; both": re.compile("x00|XPAuthor"),
}
NUMBER = re.compile(r"[-+]?(\d+\.?\d*|\.\d+)(e[-+]?\d+)?", re.I)


def texts(value: Any) -> List[str]:
    """A value of either program as texts: those of a list, and of a structure its members by their names."""
    if isinstance(value, dict):
        members = sorted((re.split("[:/#]", name.rstrip(">"))[-1].casefold(), str(it), it) for name, it in value.items())
        return [f"{name} {text}" for name, _, it in members for text in texts(it)]
    if isinstance(value, (list, tuple)):
        return [text for it in value for text in texts(it)]
    if isinstance(value, bool):
        return [str(value)]
    if value is None:
        return ["undef"]
    if isinstance(value, datetime):
        part = f"{value.microsecond:06}".rstrip("0")
        zone = value.isoformat()[-6:] if value.utcoffset() is not None else ""
        return [f"{value:%Y:%m:%d %H:%M:%S}{'.' * bool(part)}{part}{zone}"]
    if isinstance(value, date):
        return [f"{value:%Y:%m:%d}"]
    if isinstance(value, time):
        return [value.isoformat()]
    if isinstance(value, (int, float, Fraction)):
        return [repr(float(value))]
    return [str(value)]


def parts(value: Any) -> List[str]:
    """The words of a value: numbers by their first six digits, for ExifTool rounds fractions."""
    words = " ".join(texts(value)).replace("Z", "+00:00").replace("\0", " ").split()
    words = [re.sub(r"(:\d\d)\.0+\b", r"\1", it) for it in words]
    return [f"{float(it):.6g}" if NUMBER.fullmatch(it) else BOOLEANS.get(it, it) for it in words]


def form(field: Any, theirs: Any) -> str:
    """The form in which both values agree; empty if they don't."""
    ours = field.value
    if parts(ours) == parts(theirs):
        return "the same"
    if isinstance(ours, (bytes, type(None))):
        return of_bytes(field, field.raw, theirs)
    if isinstance(ours, tuple) and all(isinstance(it, Fraction) for it in ours) and len(ours) == 3:
        degrees = float(ours[0] + ours[1] / 60 + ours[2] / 3600)
        if isinstance(theirs, (int, float)) and abs(abs(theirs) - degrees) < 1e-6:
            return "degrees"
        clock = re.fullmatch(r"(\d+):(\d+):(\d+(?:\.\d+)?)", str(theirs))
        if clock and abs(sum(float(it) * n for it, n in zip(clock.groups(), (3600, 60, 1))) - 3600 * degrees) < 0.01:
            return "time"
    if isinstance(ours, Fraction) and NUMBER.fullmatch(str(theirs)):
        powers = [2 ** (float(ours) / 2), 2 ** -float(ours)] if abs(ours) < 1000 else []
        if any(abs(it - float(theirs)) <= 1e-4 * max(abs(it), 1e-3) for it in powers):
            return "APEX"
    if parts(re.sub(r"(\d+)/(\d+)", divided, " ".join(texts(ours)))) == parts(theirs):
        return "a fraction as a text here"
    if parts([it.rpartition("/")[2] for it in texts(ours)]) == parts(theirs):
        return "a URI here, its end there"
    if str(theirs).startswith(("(Binary data", "(large array")):
        return "bytes"
    if isinstance(ours, (datetime, date, time, str)) and re.sub("[-T:]", " ", str(theirs)).split() in [
        re.sub("[-T:]", " ", it).split() for it in (str(ours), re.sub(":00(?=[+-])", "", str(ours)))
    ]:
        return "date"
    if re.sub(r"\W", "", "".join(texts(ours))) == re.sub(r"\W", "", "".join(texts(theirs))):
        return "blanks, signs"
    if field.name.endswith("FileSource") or isinstance(ours, int):
        return of_bytes(field, field.raw, theirs)
    return ""


def divided(match: "re.Match[str]") -> str:
    """A fraction divided, as ExifTool prints it."""
    return str(int(match[1]) / int(match[2])) if int(match[2]) else "undef"


def of_bytes(field: Any, raw: bytes, theirs: Any) -> str:
    """Bytes here, which ExifTool counts, prints as numbers, or decodes."""
    length = re.match(r"\(Binary data (\d+) bytes", str(theirs))
    if length:
        return "bytes" if int(length[1]) == len(raw) else ""
    text = raw.decode("latin-1").strip(BLANK)
    numbers = [f"{it:.6g}" for it in raw]
    if (
        str(theirs).strip(BLANK) == text
        or parts(theirs) in (numbers, parts(text))
        or parts(theirs) == [f"{int.from_bytes(raw, 'big'):.6g}"]
    ):
        return "bytes"
    return ""


def pairs(picture: Any, printed: Dict[str, Any]) -> Iterator[Tuple[str, Any, Any]]:
    """Each name with the fields of both programs; ExifTool marks a name that comes again."""
    theirs: Dict[str, List[Any]] = collections.defaultdict(list)
    for key, value in printed.items():
        theirs[re.sub(r"Copy\d+:", "", key)].append(value)
    for name, values in theirs.items():
        if not LEFT_OUT.search(name):
            fields = picture.find(name)
            if len(fields) > len(values) and name.startswith("IPTC:") and isinstance(values[0], list):
                yield name, fields, values
            else:
                yield from ((name, [field], [value]) for field, value in zip(fields, values))
                yield from ((name, [], [value]) for value in values[len(fields) :])


class Several:
    """The fields of a DataSet that is repeated."""

    def __init__(self, fields: Any) -> None:
        self.name, self.value, self.raw = fields[0].name, tuple(it.value for it in fields), fields[0].raw


def main(found: List[Dict[str, Any]]) -> None:
    """Prints the shares, and what differs."""
    counts: "collections.Counter[str]" = collections.Counter()
    differ: "collections.Counter[str]" = collections.Counter()
    missing: "collections.Counter[str]" = collections.Counter()
    seen = set()
    for printed in found:
        path = printed.pop("SourceFile")
        digest = hashlib.sha256(Path(path).read_bytes()).digest()
        if digest in seen:
            continue
        seen.add(digest)
        with contextlib.suppress(exifnorm.NoPicture, exifnorm.NotReadable, OSError), exifnorm.Reader(programs=False) as reader:
            picture = reader.read(path)
            counts["pictures"] += bool(picture)
            counts["read as a whole"] += bool(picture) and picture.is_whole
            for name, fields, values in pairs(picture, printed):
                if not fields:
                    missing[name] += picture.is_whole
                    continue
                field = fields[0] if len(fields) == 1 else Several(fields)
                way = form(field, values[0] if len(values) == 1 else values)
                counts[way or "different"] += 1
                if not way:
                    differ[f"{name}: {field.value!r:.90} / {values!r:.90}"] += 1
    pictures, whole = counts.pop("pictures"), counts.pop("read as a whole")
    total = sum(counts.values())
    print(f"{pictures} pictures, {whole} read as a whole, {total} values, {1 - counts['different'] / total:.4%} agree", dict(counts))
    kinds: "collections.Counter[str]" = collections.Counter()
    for it, count in differ.items():
        kinds[next((why for why, pattern in WHY.items() if pattern.search(it)), "others")] += count
    print(*(f"  {count} {it}" for it, count in kinds.most_common()), sep="\n")
    print(*(f"    {count} {it}" for it, count in differ.most_common(200)), sep="\n")
    print("only ExifTool:", missing.most_common(30))


if __name__ == "__main__":
    words = [
        "exiftool",
        "-config",
        "",
        "-q",
        "-q",
        "-j",
        "-n",
        "-struct",
        "-G1:4",
        "-a",
        "-EXIF:all",
        "-IPTC:all",
        "-XMP:all",
        "-r",
        sys.argv[1],
    ]
    main(json.loads(subprocess.run(words, stdout=subprocess.PIPE, encoding="utf-8", errors="replace", check=False).stdout))
