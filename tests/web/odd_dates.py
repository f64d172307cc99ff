"""Pictures with dates in Exif, IPTC and XMP, of which some are none: no calendar or clock has them, or they have another form."""

import hashlib
import struct
from random import Random

from made_blocks import ASCII, LONG, UNDEFINED
from made_files import app1, app1_xmp, app13, data_set, jpeg, resource, small_tiff, tiff, xmp

YEARS, MONTHS, DAYS = (1900, 2000, 2023, 2024, 2025, 0, 1), (2, 4, 12, 1, 0, 13), (28, 29, 30, 31, 0, 32)
HOURS, MINUTES, SECONDS = (0, 9, 23, 24), (0, 59, 60), (0, 7, 59, 60)  # the last two of each are rare
ZONES = " Z +02:00 -05:30 -00:00 -00:30 +23:59 +24:00 +01:75 +2:00 CEST".split(" ") + [" +02:00 "]
PARTS = f" 5 25 250 000 1234567 {'0' * 21} x 2.5".split(" ") + [" 25 "]
CLOCKS = " 093007 153000+0100 153000-0030 000000+0000 246060+0100 153000.5 1530 153000+01:00".split(" ")
SPACES = "xmlns:photoshop='http://ns.adobe.com/photoshop/1.0/' xmlns:exif='http://ns.adobe.com/exif/1.0/'"
LANGUAGES = ("", "", "", " xml:lang='de'")


def written(chance: Random, form: str) -> str:
    """A moment in a form, sometimes with blanks around it, with another character in it, or cut off."""
    several = (YEARS, MONTHS, DAYS, HOURS, MINUTES, SECONDS)
    text = form.format(*(chance.choice(some[:-2] if chance.random() < 0.8 else some) for some in several))
    at = chance.randrange(len(text))
    other = text[:at] + chance.choice("x T0:é") + text[at + 1 :]
    return chance.choice((text,) * 12 + (f" {text} ",) * 4 + (other, text[:at], "    :  :     :  :  ", "0" * 8))


def packet(chance: Random) -> bytes:
    """Some of its dates have a language, or are a list."""
    seconds = chance.choice(("", ":{:02}", ":{:02}." + chance.choice(PARTS[1:7])))
    moment = "{:04}-{:02}-{:02}T{:02}:{:02}" + seconds + chance.choice(ZONES)
    forms = (moment, moment, "{:04}-{:02}-{:02}", "{:04}-{:02}")
    names = [it for it in ("photoshop:DateCreated", "exif:DateTimeOriginal", "xmp:CreateDate") if chance.random() < 0.6]
    dates = [(name, chance.choice(LANGUAGES), written(chance, chance.choice(forms)).strip()) for name in names]
    if chance.random() < 0.9:
        return xmp("".join(f"<{name}{language}>{date}</{name}>" for name, language, date in dates), SPACES)
    members = "".join(f"<rdf:li{language}>{date}</rdf:li>" for _, language, date in dates)
    return xmp(f"<photoshop:DateCreated><rdf:Seq>{members}</rdf:Seq></photoshop:DateCreated>", SPACES)


def directories(chance: Random) -> list:
    """The dates in Exif; some are in another directory than by the standard, or in both."""
    texts = [written(chance, "{:04}:{:02}:{:02} {:02}:{:02}:{:02}") for _ in range(3)]
    texts += [chance.choice(some) for some in (ZONES, PARTS)]
    fields = [(tag, ASCII, text.encode() + b"\0") for tag, text in zip((0x0132, 0x9003, 0x9004, 0x9011, 0x9291), texts)]
    inner = [it for it in fields[1:] if it[2] != b"\0" and chance.random() < 0.7]
    outer = [it for it in fields if it not in inner or chance.random() < 0.1]
    some = [it for it in outer if chance.random() < (0.7 if it[0] == 0x0132 else 0.2)]
    return some + [(0x8769, LONG, inner)] * (chance.random() < 0.8 and bool(inner))


def dated(chance: Random) -> bytes:
    """A JPEG, or a TIFF; with Photoshop's digest of the IPTC, which may be that of another one."""
    days = [(number, written(chance, "{:04}{:02}{:02}")) for number in (55, 55, 30, 62)]
    clocks = [(number, chance.choice(CLOCKS)) for number in (60, 60, 35, 63)]
    version = data_set(0, bytes([chance.randrange(3), 2])) * (chance.random() < 0.3)
    record = version + b"".join(data_set(number, text.encode()) for number, text in days + clocks if chance.random() < 0.5)
    digest = chance.choice((b"", hashlib.md5(record, usedforsecurity=False).digest(), b"that of another!"))
    resources = [resource(0x0404, record)] + [resource(0x0425, digest)] * bool(digest)
    fields, properties = directories(chance), packet(chance)
    if chance.random() < 0.7:
        blocks = [small_tiff(*fields)] if fields else []
        parts = [*map(app1, blocks), app13(*resources), app1_xmp(properties)]
        return jpeg(*(it for it in parts if chance.random() < 0.8))
    is_turned = len(record) % 4 == 0  # some programs write a record as numbers of four bytes, the last byte of each first
    written_so = b"".join(record[at : at + 4][::-1] for at in range(0, len(record), 4)) if is_turned else record
    some = [(0x83BB, written_so), (0x8649, b"".join(resources[chance.randrange(2) :]))]
    kept = [(tag, UNDEFINED, it) for tag, it in some if it and chance.random() < 0.8]
    made = tiff([*fields, *kept, (0x02BC, UNDEFINED, properties)])
    entries = [struct.pack(">HHI", 0x83BB, *it) for it in ((UNDEFINED, len(record)), (LONG, len(record) // 4))]
    return made.replace(*entries) if is_turned else made
