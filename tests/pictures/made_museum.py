"""The pictures of a made museum on two nights: each format, state, cause of refusal, sidecar, link, MakerNote, language and character set
once or twice.

What `first_night` and `second_night` give is by path; a `Link` is a symbolic link. All bytes are made here, so that each run has the same.
"""

import os
import struct
from typing import Any, Dict, NamedTuple, Union

import made_raw
from growing import FORMATS, Parts, big_tiff
from made_blocks import ASCII, BLOCKS, LONG, SHORT, UNDEFINED, segment, with_exif, with_iptc
from made_boxes import PICTURE, Item, heif, item_exif
from made_files import (
    RATIONAL,
    SIX,
    Placed,
    app1,
    app1_xmp,
    app13,
    chunk,
    extension,
    jpeg,
    mpf,
    page,
    png,
    png_xmp,
    resource,
    small_tiff,
    tiff,
    webp,
    with_record,
    xmp,
)
from studio import SMALL_JPEG
from test_maker_notes import in_tiff, noted
from test_parts import JUMBF

UTF8 = b"\x1c\x01\x5a\0\x03\x1b%G"  # IIM 1:90, coded character set
TABLE = SMALL_JPEG.index(b"\xff\xdb") + 5  # where the values of the quantisation table begin
TIME = 1_767_225_600  # of each file: 2026-01-01 UTC


class Link(NamedTuple):
    """A symbolic link."""

    target: str


Files = Dict[str, Union[bytes, Link]]


def picture(number: int) -> bytes:
    """A JPEG whose picture no other number has."""
    made = bytearray(SMALL_JPEG)
    made[TABLE + number // 250] = 1 + number % 250
    return bytes(made)


def dataset(number: int, text: Union[str, bytes]) -> bytes:
    octets = text.encode() if isinstance(text, str) else text
    return b"\x1c\x02" + struct.pack(">BH", number, len(octets)) + octets


def record(**texts: Union[str, bytes]) -> bytes:
    """An IPTC record in UTF-8, by the names of `NUMBERS`; a list is written as often as it has members."""
    parts = [UTF8]
    for name, text in sorted(texts.items(), key=lambda it: NUMBERS[it[0]]):
        parts += [dataset(NUMBERS[name], it) for it in (text if isinstance(text, list) else [text])]
    return b"".join(parts)


NUMBERS = {
    "title": 5,
    "keywords": 25,
    "date": 55,
    "creator": 80,
    "city": 90,
    "headline": 105,
    "credit": 110,
    "copyright": 116,
    "caption": 120,
}


def languages(name: str, **texts: str) -> str:
    """A property in several languages."""
    members = "".join(f"<rdf:li xml:lang='{language.replace('_', '-')}'>{text}</rdf:li>" for language, text in texts.items())
    return f"<dc:{name}><rdf:Alt>{members}</rdf:Alt></dc:{name}>"


def members(name: str, kind: str, *texts: str) -> str:
    return f"<dc:{name}><rdf:{kind}>{''.join(f'<rdf:li>{it}</rdf:li>' for it in texts)}</rdf:{kind}></dc:{name}>"


def camera(*more, artist: bytes = b"Anna Moor", caption: bytes = b"A bowl") -> tuple:
    """The entries of an Exif block."""
    dates = [(0x9003, ASCII, b"2025:03:31 14:30:00\0"), (0x829A, RATIONAL, struct.pack("<II", 1, 125))]
    known = [(0x010E, ASCII, caption + b"\0"), (0x010F, ASCII, b"Leica\0"), (0x013B, ASCII, artist + b"\0")]
    return (*known, (0x8298, ASCII, b"Museum of Salt\0"), (0x8769, LONG, dates), *more)


def position(latitude: int, longitude: int, north: bytes = b"N") -> tuple:
    """Exif's directory of a position, in degrees and half minutes."""
    numbers = [struct.pack("<6I", degrees, 1, 30, 1, 0, 1) for degrees in (latitude, longitude)]
    return (0x8825, LONG, [(1, ASCII, north + b"\0"), (2, RATIONAL, numbers[0]), (3, ASCII, b"E\0"), (4, RATIONAL, numbers[1])])


def captioned(number: int, title: str = "A bowl", **texts) -> bytes:
    """A JPEG with the same words in Exif, IPTC and XMP, but for those that are given."""
    words = {"creator": "Anna Moor", "copyright": "Museum of Salt", "keywords": ["clay", "bowl"], "credit": "Salt", "title": title, **texts}
    words = {name: text for name, text in words.items() if text}
    creator = str(words.get("creator", ""))
    packet = [languages("title", x_default=title), members("creator", "Seq", creator), members("subject", "Bag", *words["keywords"])]
    block = small_tiff(*camera(artist=creator.encode()))
    return jpeg(app1(block), with_record(record(**words)), app1_xmp(xmp("".join(packet))), base=picture(number))


def in_each_format(caption: str) -> Files:
    """A picture of each format with all kinds of blocks that it can have, and raw pictures."""
    parts = Parts(
        camera(caption=caption.encode()), record(caption=caption, creator="Anna Moor"), (xmp(languages("description", x_default=caption)),)
    )
    flat = parts._replace(entries=tuple(it for it in parts.entries if isinstance(it[2], bytes)))
    files: Files = {}
    for ending, make in FORMATS.values():
        if ending != "xmp":
            files[f"formats/{ending}.{ending}"] = make(flat if ending in ("btf", "cr3") else parts)  # whose Exif directory is elsewhere
    for ending, make in made_raw.MAKERS.items():
        files[f"formats/camera.{ending}"] = make(caption.encode())
    return files


def refused() -> Files:
    """A JPEG for each cause of refusal."""
    files: Files = {}
    for number, (cause, block) in enumerate(BLOCKS.items()):
        if len(block) < 60_000:
            wrapped = with_iptc if block.startswith(b"\x1c") else with_exif
            files[f"refused/{cause}.jpg"] = wrapped(picture(300 + number), block)
    return files


def refused_elsewhere() -> Files:
    """Refused blocks in other formats, two of them in one file, and in the segments of a JPEG."""
    unsorted, doubled = BLOCKS["Unsorted"], BLOCKS["Doubled"]
    return {
        "doubled.webp": webp((b"VP8 ", b"pixels"), (b"EXIF", doubled), (b"XMP ", xmp("<dc:format>one</dc:format>"))),
        "two.jpg": jpeg(app1(unsorted), app1(doubled), base=picture(47)),
        "unsorted.png": png(chunk(b"eXIf", unsorted)),
        "unsorted.webp": webp((b"VP8 ", b"pixels"), (b"EXIF", SIX + unsorted)),
    }


def states() -> Files:
    """What isn't read wholly, or not at all."""
    whole, packet = captioned(40), xmp("", "note:HasExtendedXMP='0123456789ABCDEF0123456789ABCDEF'")
    pieces, name = extension(xmp(languages("rights", x_default="Museum of Salt")))
    broken = png(chunk(b"eXIf", small_tiff(*camera())), png_xmp(xmp("<dc:format>one")))
    return {
        "states/bare.jpg": picture(41),
        "states/cut-in-its-head.jpg": captioned(42)[:200],
        "states/cut-in-its-picture.jpg": captioned(43)[:-5],
        "states/empty.jpg": b"",
        "states/extended.jpg": jpeg(app1_xmp(xmp("", f"note:HasExtendedXMP='{name}'")), *pieces, base=picture(44)),
        "states/extension-lost.jpg": jpeg(app1_xmp(packet), base=picture(45)),
        "states/films.mp4": b"\0\0\0\x18ftypisom\0\0\0\0isommp42",
        "states/letter.jpg": b"Dear Anna,\nthe bowl is blue.\n",
        "states/notes.txt": b"A list of the bowls.\n",
        "states/packet-broken.png": broken,
        "states/rots.jpg": captioned(46),
        "states/sum-wrong.png": png(chunk(b"eXIf", small_tiff(*camera()), wrong=1)),
        "states/trailer.jpg": whole[:2] + segment(0xE5, b"Salt\0one") + whole[2:] + b"unknown bytes",
        "states/two-blocks.jpg": jpeg(app1(small_tiff(*camera())), app1(small_tiff(*camera(artist=b"Ben"))), base=picture(47)),
    }


def texts() -> Files:
    """Languages, character sets, long texts and those of a camera."""
    comment = (0x8769, LONG, [(0x9286, UNDEFINED, b"UNICODE\0" + "Schüssel".encode("utf-16-le"))])
    return {
        "texts/camera.jpg": jpeg(app1(small_tiff(*camera(caption=b"SANYO DIGITAL CAMERA"))), base=picture(60)),
        "texts/comment.jpg": jpeg(app1(small_tiff((0x010F, ASCII, b"Leica\0"), comment)), base=picture(61)),
        "texts/controls.jpg": jpeg(with_record(record(title="a\tb\x01c", caption="one\ntwo\u202e")), base=picture(62)),
        "texts/cut.jpg": jpeg(
            with_record(record(creator="A" * 32, title="B" * 64)), app1_xmp(xmp(members("creator", "Seq", "A" * 40))), base=picture(63)
        ),
        "texts/languages.jpg": jpeg(
            app1_xmp(xmp(languages("title", x_default="A bowl", de="Eine Schüssel", fr="Un bol"))), base=picture(64)
        ),
        "texts/latin1.jpg": jpeg(
            app13(resource(0x0404, dataset(80, "Zoë".encode("latin-1")) + dataset(120, b"Sch\xfcssel"))), base=picture(65)
        ),
        "texts/long.jpg": captioned(66, caption="Zeile " * 300 + "Stop."),
        "texts/not-utf8.jpg": jpeg(app13(resource(0x0404, UTF8 + dataset(120, b"Sch\xfcssel"))), base=picture(67)),
        "texts/structures.jpg": jpeg(
            app1_xmp(
                xmp(
                    "<i:CreatorContactInfo xmlns:i='http://iptc.org/std/Iptc4xmpCore/1.0/xmlns/' rdf:parseType='Resource'>"
                    "<i:CiEmailWork>anna@museum.example</i:CiEmailWork><i:CiAdrCity>Halle</i:CiAdrCity></i:CreatorContactInfo>"
                )
            ),
            base=picture(68),
        ),
        "texts/written-anew.jpg": captioned(69, creator="Zoe\u0308 Weiß"),
        "texts/written.jpg": captioned(70, creator="Zoë Weiss"),
    }


# A name in each character set that a by-line is tried in: what is kept is decoded, and said beside the right one in XMP
CHARACTER_SETS = {
    "Zoë": "cp1252 mac_roman cp437",
    "São": "cp850",
    "Łódź": "cp1250 iso8859_2 mac_latin2",
    "Киев": "cp1251 koi8_r",
    "Αθήνα": "cp1253",
    "Işık": "cp1254",
    "Rīga": "cp1257",
    "Žofie Œ": "iso8859_15",
    "東京": "shift_jis euc_jp",
    "北京汉": "gb18030",
    "臺北": "big5",
    "서울": "euc_kr",
}


def character_sets() -> Files:
    """A picture for each character set, in which IPTC doesn't name it, and whose XMP has the same creator."""
    sets = [(codec, name) for name, codecs in CHARACTER_SETS.items() for codec in codecs.split()]
    return {
        f"sets/{codec}.jpg": jpeg(
            app13(resource(0x0404, dataset(80, name.encode(codec)))),
            app1_xmp(xmp(members("creator", "Seq", name))),
            base=picture(160 + number),
        )
        for number, (codec, name) in enumerate(sets)
    }


def rare() -> Files:
    """What few pictures have, and only one reader or repair looks at."""
    shared = struct.pack("<2sHIH", b"II", 42, 8, 9) + b"".join(struct.pack("<HHII", 0xA500 + it, ASCII, 60, 122) for it in range(9))
    whole = made_raw.whole_raf()
    second = made_raw.fuji(pixels=b"\x88" * 50)
    raf = whole[:0x80] + struct.pack(">II", len(whole), len(second)) + whole[0x88:] + second
    blocks = [Item(b"Exif", item_exif(small_tiff(*camera(artist=artist))), b"", (it,)) for it, artist in ((2, b"Anna"), (4, b"Ben"))]
    tile = (Item(b"grid", bytes(8), references=((b"dimg", (2, 3)),)), PICTURE, PICTURE, PICTURE, *blocks)
    kinds = "<dc:subject><rdf:Bag><rdf:type rdf:resource='http://www.w3.org/1999/02/22-rdf-syntax-ns#Seq'/><rdf:li>clay</rdf:li></rdf:Bag></dc:subject>"
    numbered = "<dc:creator><rdf:Seq><rdf:_2>Ben</rdf:_2><rdf:_1>Anna</rdf:_1></rdf:Seq></dc:creator>"
    thumbnail = [(0x0103, SHORT, 6), (0x0201, LONG, Placed(b"tiny")), (0x0202, LONG, 4)]
    return {
        "rare/empty-directories.jpg": jpeg(
            app1(small_tiff((0x010F, ASCII, b"Leica\0"), (0x8769, LONG, []), (0x8825, LONG, []))), base=picture(190)
        ),
        "rare/main-tile.heic": heif(*tile, primary=2),
        "rare/no-directory.tif": b"MM\0*" + bytes(4),
        "rare/numbered.jpg": jpeg(app1_xmp(xmp(numbered)), base=picture(193)),
        "rare/second-jpeg.rw2": made_raw.rw2(b"Anna", (0x0127, UNDEFINED, made_raw.inner(b"Eva", "other"))),
        "rare/second-type.jpg": jpeg(app1_xmp(xmp(kinds)), base=picture(191)),
        "rare/shared-by-nine.jpg": jpeg(app1(shared + bytes(4) + b"A" * 59 + b"\0"), base=picture(192)),
        "rare/tiny-thumbnail.jpg": jpeg(app1(tiff([(0x010F, ASCII, b"Leica\0")], thumbnail)), base=picture(194)),
        "rare/two-frames.raf": raf,
        "rare/unknown-item.heic": unknown_item(b"one"),
        "rare/unknown-type.btf": big_tiff(Parts(((0x013B, ASCII, b"Anna\0"), (0xA500, 99, b"abcdefgh")))),
    }


def unknown_item(data: bytes) -> bytes:
    """A HEIF with a part that nobody reads, of which only a digest is known."""
    return heif(PICTURE, Item(b"Exif", item_exif(small_tiff(*camera())), b"", (1,)), Item(b"salt", data))


def contradictions() -> Files:
    other = app1_xmp(xmp(members("creator", "Seq", "Ben Salt") + languages("title", x_default="A vase")))
    block = app1(small_tiff(*camera(position(51, 11))))
    there = xmp("", "xmlns:exif='http://ns.adobe.com/exif/1.0/' exif:GPSLatitude='51,29.5N' exif:GPSLongitude='11,58.5E'")
    return {
        "contradictions/creator.jpg": jpeg(block, with_record(record(creator="Anna Moor", title="A bowl")), other, base=picture(80)),
        "contradictions/keywords.jpg": jpeg(
            with_record(record(keywords=["clay"])), app1_xmp(xmp(members("subject", "Bag", "clay", "salt"))), base=picture(83)
        ),
        "contradictions/keywords-of-iptc.jpg": jpeg(
            with_record(record(keywords=["clay", "salt"])), app1_xmp(xmp(members("subject", "Bag", "clay"))), base=picture(84)
        ),
        "contradictions/languages.jpg": jpeg(
            app1(small_tiff((0x010E, ASCII, b"Ein Krug\0"))),
            app1_xmp(xmp(languages("description", de="Ein Krug", fr="Un pot"))),
            base=picture(85),
        ),
        "contradictions/place.jpg": jpeg(block, app1_xmp(there), base=picture(81)),
        "contradictions/south.jpg": jpeg(app1(small_tiff(*camera(position(33, 18, b"S")))), base=picture(82)),
    }


def notes() -> Files:
    """MakerNotes: of one picture with other bytes, moved, and one that leads out of the file."""
    return {
        "notes/goes.jpg": noted(artist=b"Eva"),
        "notes/inside.jpg": noted(inside=b"other bytes"),
        "notes/moved.jpg": noted(moved=6),
        "notes/note.jpg": noted(),
        "notes/owner.jpg": noted(owner=b"Marlene"),
        "notes/wrong.jpg": noted(wrong=90_000),
    }


def beside(creator: str) -> Files:
    """Sidecars of a raw picture, of a JPEG, and one that is broken."""
    packet = xmp(members("creator", "Seq", creator) + "<xmp:Rating>4</xmp:Rating>")
    return {
        "sidecars/bowl.jpg": captioned(90),
        "sidecars/bowl.jpg.xmp": packet,
        "sidecars/raw.nef": made_raw.nef(),
        "sidecars/raw.xmp": packet,
        "sidecars/vase.jpg": captioned(91),
        "sidecars/vase.xmp": packet[:-40],
    }


def copies() -> Files:
    """Two files of the same bytes, the same words in the other byte order and around another picture, and links."""
    first = captioned(100)
    turned = jpeg(app1(tiff(list(camera()), order=">")), base=picture(101))
    return {
        "copies/again.jpg": first,
        "copies/first.jpg": first,
        "copies/link.jpg": Link("first.jpg"),
        "copies/lost.jpg": Link("nowhere.jpg"),
        "copies/other-order.jpg": turned.replace(struct.pack("<II", 1, 125), struct.pack(">II", 1, 125)),
        "copies/other-picture.jpg": captioned(102),
        "copies/order.jpg": jpeg(app1(small_tiff(*camera())), base=picture(101)),
    }


def odd_names() -> Files:
    names = [
        "-x.jpg",
        " a .jpg",
        "new\nline.jpg",
        "e\u0301.jpg",
        "\u202egpj.jpg",
        "=1+2.jpg",
        os.fsdecode(b"\xff.jpg"),
        "a\\b.jpg",
        "50%.jpg",
    ]
    return {f"odd/{name}": captioned(110 + number) for number, name in enumerate(names)}


def desk(folder: str) -> Files:
    """A folder that is moved as a whole."""
    return {f"{folder}/{number}.jpg": captioned(130 + number, title=f"Salt {number}") for number in range(4)}


def dated(number: int, text: str) -> bytes:
    """A picture whose date of the last change is written so."""
    return jpeg(app1(small_tiff((0x0132, ASCII, text.encode() + b"\0"))), base=picture(number))


def taken(number: int, *more, iptc: str = "", packet: str = "", digest: bytes = b"") -> bytes:
    """A picture with a date in Exif, in IPTC and in XMP, as they are given."""
    exif = [(tag, ASCII, text) for tag, text in zip((0x9003, 0x9011, 0x9291), more) if text]
    entries = ((0x010F, ASCII, b"Leica\0"), *([(0x8769, LONG, exif)] if exif else []))
    dates = dataset(55, iptc[:8]) + dataset(60, iptc[8:]) if iptc else b""
    segments = [app13(resource(0x0404, dates), *([resource(0x0425, digest)] if digest else []))] if iptc else []
    xmps = [app1_xmp(xmp("", f"xmlns:photoshop='http://ns.adobe.com/photoshop/1.0/' photoshop:DateCreated='{packet}'"))] if packet else []
    return jpeg(app1(small_tiff(*entries)), *segments, *xmps, base=picture(number))


def clocks() -> Files:
    """When a picture was taken: with parts of a second, zones and faults, in each standard and in several."""
    there, wrong = b"2025:03:31 14:30:00\0", b"2025:02:30 14:30:00\0"
    return {
        "clocks/exif-only.jpg": taken(210, there),
        "clocks/exif-part.jpg": taken(211, there, b"", b"25\0"),
        "clocks/exif-part-spaces.jpg": taken(212, there, b"", b" 25 \0"),
        "clocks/exif-part-wrong.jpg": taken(213, there, b"", b"x\0"),
        "clocks/exif-zone.jpg": taken(214, there, b"+02:00\0"),
        "clocks/exif-zone-and-part.jpg": taken(215, there, b"-05:30\0", b"250\0"),
        "clocks/exif-zone-wrong.jpg": taken(216, there, b"CEST\0", b"25\0"),
        "clocks/iptc.jpg": taken(217, iptc="20250331153000+0100"),
        "clocks/iptc-changed.jpg": taken(218, iptc="20250331153000+0100", packet="2025-03-31T16:30:00", digest=b"changed since then"[:16]),
        "clocks/iptc-wrong.jpg": taken(219, wrong, iptc="20250230153000+0100", packet="2025-03-31T16:30:00.5Z"),
        "clocks/none.jpg": taken(220, b"    :  :     :  :  \0"),
        "clocks/xmp-and-iptc.jpg": taken(221, iptc="20250331153000+0100", packet="2025-03-31T16:30:00+02:00"),
        "clocks/xmp-day.jpg": taken(222, packet="2025-03-31"),
    }


def first_night() -> Files:
    pages = tiff(page((0x013B, ASCII, b"Anna\0")), page((0x013B, ASCII, b"Ben\0")))
    return {
        **in_each_format("A bowl"),
        **refused(),
        **states(),
        **texts(),
        **character_sets(),
        **rare(),
        **contradictions(),
        **notes(),
        **beside("Anna Moor"),
        **copies(),
        **odd_names(),
        **clocks(),
        **desk("desk"),
        "work/dated.jpg": dated(86, "2025:03:31 14:30"),
        "work/dated-too.jpg": dated(87, "2025:03:31 14:31"),
        "work/deleted.jpg": captioned(150),
        "work/gets-cut.jpg": captioned(158),
        "work/loses-copyright.jpg": captioned(151),
        "work/loses-profile.jpg": jpeg(segment(0xE2, b"ICC_PROFILE\0\1\1" + bytes(140)), app1(small_tiff(*camera())), base=picture(152)),
        "work/moves-and-changes.jpg": captioned(159),
        "work/pages.tif": pages,
        "work/published.jpg": captioned(153),
        "work/renamed.jpg": captioned(154),
        "work/retitled.jpg": captioned(155),
        "work/touched.jpg": captioned(156),
    }


def second_night() -> Files:
    """The same pictures a day later: edited, rotten, moved, deleted, new."""
    files = {**first_night(), **in_each_format("A blue bowl"), **beside("Ben Salt"), **desk("drawer")}
    for number in range(4):
        del files[f"desk/{number}.jpg"]
    rotten = bytearray(captioned(46))
    rotten[-20] ^= 4
    del files["work/deleted.jpg"], files["work/moves-and-changes.jpg"]
    files["work/new-name.jpg"] = files.pop("work/renamed.jpg")
    return {
        **files,
        "copies/first.jpg": captioned(100, title="A dish"),
        "drawer/changed.jpg": captioned(159, title="A jug"),
        "notes/goes.jpg": jpeg(app1(small_tiff((0x010F, ASCII, b"Canon\0"), (0x013B, ASCII, b"Eva\0"), order=">"))),
        "notes/owner.jpg": noted(owner=b"Magdalena"),
        "refused/Doubled.jpg": with_exif(picture(300 + [*BLOCKS].index("Doubled")), BLOCKS["Unsorted"]),
        "rare/unknown-item.heic": unknown_item(b"two"),
        "states/rots.jpg": bytes(rotten),
        "states/trailer.jpg": captioned(40) + b"other bytes..",
        "work/dated.jpg": dated(86, "2025:03:31 14:30:00"),
        "work/dated-too.jpg": dated(87, "2025:03:31 14:31:00"),
        "work/gets-cut.jpg": captioned(158)[:-5],
        "work/loses-copyright.jpg": captioned(151, copyright=""),
        "work/loses-profile.jpg": jpeg(app1(small_tiff(*camera())), base=picture(152)),
        "work/new.jpg": captioned(157),
        "work/pages.tif": tiff(page((0x013B, ASCII, b"Anna\0")), page((0x013B, ASCII, b"Ben S\0"))),
        "work/published.jpg": jpeg(app1(small_tiff(*camera(position(51, 11)))), base=picture(153)),
        "work/retitled.jpg": captioned(155, title="A vase", keywords=["clay", "vase", "salt"]),
    }


def clocked(number: int, date: bytes, time: bytes) -> bytes:
    """A picture that says in Exif and in IPTC when it was digitized."""
    there = date[:4] + b":" + date[4:6] + b":" + date[6:] + b" " + time[:2] + b":" + time[2:4] + b":" + time[4:6]
    block = small_tiff((0x010F, ASCII, b"Leica\0"), (0x8769, LONG, [(0x9004, ASCII, there + b"\0")]))
    return jpeg(app1(block), with_record(dataset(62, date) + dataset(63, time + b"+0000")), base=picture(number))


def worded(number: int, standards: str = "EIX", **words) -> bytes:
    """A picture with the same words in these standards, but for those that `iptc` has, and with a date, an orientation, a rating and a place."""
    exif, iptc, packet = [], {}, []
    for name, text in words.items():
        texts = text if isinstance(text, list) else [text]
        if name in EXIF_TAGS:
            exif.append((EXIF_TAGS[name], ASCII, texts[0].encode() + b"\0"))
        if name in NUMBERS:
            iptc[name] = text
        if name in XMP_NAMES:
            one, kind = XMP_NAMES[name]
            packet.append(languages(one, x_default=texts[0]) if kind == "Alt" else members(one, kind, *texts))
    exif += [(0x0112, SHORT, words["orientation"])] if "orientation" in words else []
    exif += [(0x8769, LONG, [(0x9003, ASCII, words["taken"].encode() + b"\0")])] if "taken" in words else []
    exif += [position(*words["place"])] if "place" in words else []
    packet += [f"<xmp:Rating>{words['rating']}</xmp:Rating>"] if "rating" in words else []
    iptc.update(words.get("iptc", {}))
    segments = [app1(small_tiff(*sorted(exif)))] if "E" in standards and exif else []
    segments += [with_record(record(**iptc))] if "I" in standards and iptc else []
    return jpeg(*segments, *([app1_xmp(xmp("".join(packet)))] if "X" in standards and packet else []), base=picture(number))


EXIF_TAGS = {"caption": 0x010E, "creator": 0x013B, "copyright": 0x8298, "software": 0x0131, "modified": 0x0132}
XMP_NAMES = {
    "caption": ("description", "Alt"),
    "title": ("title", "Alt"),
    "creator": ("creator", "Seq"),
    "keywords": ("subject", "Bag"),
    "copyright": ("rights", "Alt"),
}
LONG_CAPTION = "A bowl of blue glazed clay that was found near the salt works in {} and came to the museum with {} others of its kind"


class Edit(NamedTuple):
    """The words of a picture before and after, and the standards that have them."""

    before: Dict[str, Any]
    after: Dict[str, Any]
    standards: str = "EIX"
    standards_after: str = ""


EDITS = {
    "accents": Edit({"caption": "Krug fur Ol"}, {"caption": "Krug für Öl"}),
    "again-copyright": Edit({"copyright": "Ben"}, {"copyright": "Museum of Salt"}),
    "blank": Edit({"caption": "A bowl "}, {"caption": "A  bowl"}),
    "brackets": Edit({"caption": "A [-bowl-] \t of clay"}, {"caption": "A {+bowl+} \u200b of clay"}),
    "caption": Edit({"caption": LONG_CAPTION.format(1820, 12)}, {"caption": LONG_CAPTION.format(1280, 12)}),
    "caption-both": Edit({"caption": LONG_CAPTION.format(1820, 12)}, {"caption": LONG_CAPTION.format(1280, 13)}),
    "caption-end": Edit({"caption": LONG_CAPTION.format(1820, 12)}, {"caption": LONG_CAPTION.format(1820, 12) + ", recto"}),
    "caption-of-iptc": Edit({"caption": "A bowl"}, {"caption": "A bowl", "iptc": {"caption": "A vase"}}),
    "caption-of-iptc-too": Edit({"caption": "A bowl"}, {"caption": "A bowl", "iptc": {"caption": "A vase"}}),
    "caption-of-all": Edit({"caption": "A bowl"}, {"caption": "A vase"}),
    "case": Edit({"creator": "anna moor"}, {"creator": "Anna Moor"}),
    "copyright": Edit({"copyright": "Anna"}, {"copyright": "Museum of Salt"}),
    "creator-and-date": Edit({"creator": "Anna", "taken": "2025:03:31 14:30:00"}, {"creator": "Ben", "taken": "2025:03:31 15:30:00"}),
    "date": Edit({"taken": "2025:03:31 14:30:00"}, {"taken": "2025:03:31 15:30:00"}),
    "date-also": Edit({"taken": "2025:04:01 14:30:00"}, {"taken": "2025:04:01 15:30:00"}),
    "date-day": Edit({"taken": "2025:03:31 14:30:00"}, {"taken": "2025:04:01 14:30:00"}),
    "date-minutes": Edit({"taken": "2025:03:31 14:30:00"}, {"taken": "2025:03:31 14:37:00"}),
    "date-years": Edit({"taken": "2000:01:01 00:00:00"}, {"taken": "2025:03:31 14:30:00"}),
    "keyword-in": Edit({"keywords": ["clay", "bowl"]}, {"keywords": ["clay", "bowl", "salt"]}),
    "keyword-in-also": Edit({"keywords": ["glaze"]}, {"keywords": ["glaze", "salt"]}),
    "keyword-out": Edit({"keywords": ["clay", "bowl", "salt"]}, {"keywords": ["clay", "bowl"]}),
    "keywords-join": Edit({"keywords": ["clay", "bowl"]}, {"keywords": ["clay, bowl"]}),
    "keywords-order": Edit({"keywords": ["clay", "bowl", "salt"]}, {"keywords": ["salt", "clay", "bowl"]}, "I"),
    "keywords-twice": Edit({"keywords": ["clay", "bowl"]}, {"keywords": ["clay", "bowl", "bowl"]}, "I"),
    "loses-xmp": Edit({"caption": "A bowl", "title": "Salt 5"}, {"caption": "A bowl", "title": "Salt 5"}, "EIX", "EI"),
    "gets-xmp": Edit({"caption": "A bowl", "creator": "Anna"}, {"caption": "A bowl", "creator": "Anna"}, "E", "EX"),
    "members-order": Edit({"creator": ["Anna", "Ben"]}, {"creator": ["Ben", "Anna"]}, "X"),
    "number-1": Edit({"title": "Inv. 1820"}, {"title": "Inv. 1821"}),
    "number-2": Edit({"title": "Inv. 1830"}, {"title": "Inv. 1831"}),
    "number-3": Edit({"title": "Inv. 1840"}, {"title": "Inv. 1841"}),
    "number-4": Edit({"title": "Inv. 1850"}, {"title": "Inv. 1851"}),
    "only-program": Edit({"software": "Salt 1"}, {"software": "Salt 2"}),
    "orientation": Edit({"orientation": 1}, {"orientation": 6}),
    "place": Edit({"place": (51, 11)}, {"place": (51, 12)}),
    "place-in": Edit({"creator": "Anna"}, {"creator": "Anna", "place": (51, 11)}),
    "place-out": Edit({"creator": "Anna", "place": (51, 11)}, {"creator": "Anna"}),
    "program": Edit({"creator": "Anna", "software": "Salt 1"}, {"creator": "Eva", "software": "Salt 2"}),
    "rating": Edit({"rating": 3}, {"rating": 4}),
    "title-1": Edit({"title": "A bowl"}, {"title": "Bowl of clay"}),
    "title-2": Edit({"title": "A vase"}, {"title": "Vase of salt"}),
    "title-3": Edit({"title": "A jug"}, {"title": "Jug of Anna"}),
    "title-in": Edit({"creator": "Anna"}, {"creator": "Anna", "title": "A bowl"}),
    "title-out": Edit({"creator": "Anna", "title": "A bowl"}, {"creator": "Anna"}),
}


def edited(is_after: bool) -> Files:
    """The pictures of `EDITS`, before or after."""
    files: Files = {}
    for number, (name, edit) in enumerate(EDITS.items(), 230):
        standards = edit.standards_after if is_after and edit.standards_after else edit.standards
        files[f"words/{name}.jpg"] = worded(number, standards, **(edit.after if is_after else edit.before))
    return files


def before() -> Files:
    """Pictures that are edited by themselves, and nowhere else in the museum."""
    block = app1(small_tiff(*camera()))
    return {
        **edited(False),
        "clock.jpg": clocked(200, b"20250331", b"143000"),
        "credentials.jpg": jpeg(block, segment(0xE4, bytes(60)), segment(0xEB, JUMBF), base=picture(202)),
        "fault.jpg": jpeg(block, segment(0xEB, JUMBF), base=picture(205)),
        "index.jpg": mpf(block, jpeg(base=picture(203))),
        "midnight.jpg": clocked(201, b"20250331", b"233000"),
        "note.tif": in_tiff(),
    }


def spoiled() -> Files:
    """Pictures whose texts of IPTC and XMP should be the same, and differ in form: a wrong character set, a cut, a list in one text, an empty field."""
    long = "A bowl of blue glazed clay that was found near the salt works of Halle in 1820"
    pairs = {
        "set-of-iptc": ({"creator": "Zo\u00c3\u00ab"}, {"creator": "Zoë"}),
        "set-of-xmp": ({"creator": "Zoë"}, {"creator": "Zo\u00c3\u00ab"}),
        "marks-of-iptc": ({"creator": "Zo?"}, {"creator": "Zoë"}),
        "marks-of-xmp": ({"creator": "Zoë"}, {"creator": "Zo?"}),
        "cut": ({"title": long[:64]}, {"title": long}),
        "cut-of-xmp": ({"title": long}, {"title": long[:64]}),
        "cut-earlier": ({"title": long[:50]}, {"title": long}),
        "empty-in-iptc": ({"title": ""}, {"title": "Salt"}),
        "empty-in-xmp": ({"title": "Salt"}, {"title": ""}),
        "joined": ({"keywords": ["clay; bowl; salt"]}, {"keywords": ["clay", "bowl", "salt"]}),
        "joined-in-xmp": ({"keywords": ["clay", "bowl"]}, {"keywords": ["clay, bowl"]}),
        "more-than-five": ({"keywords": ["a1"]}, {"keywords": [f"a{number}" for number in range(1, 9)]}),
        "order": ({"creator": ["Anna", "Ben"]}, {"creator": ["Ben", "Anna"]}),
        "order-of-keywords": ({"keywords": ["clay", "bowl"]}, {"keywords": ["bowl", "clay"]}),
    }
    files: Files = {}
    for number, (name, (iptc, packet)) in enumerate(pairs.items(), 330):
        files[f"{name}.jpg"] = worded(number, "IX", **{**packet, "iptc": iptc})
    undeclared = app13(resource(0x0404, dataset(80, "\u201cZoë\u201d \u2013 5 \u20ac".encode("cp1252"))))
    return {
        **files,
        "undeclared.jpg": jpeg(undeclared, app1_xmp(xmp(members("creator", "Seq", "\u201cZoë\u201d \u2013 5 \u20ac"))), base=picture(329)),
    }


def masters() -> Files:
    """Pictures of which others are made, with the same stem or another one."""
    make, entries = {ending: it for ending, it in FORMATS.values()}, camera()
    flat = Parts(tuple(it for it in entries if isinstance(it[2], bytes)))
    names = "a/1.dng a/1.tif a/2.tif b/2.tif a/3.tif a/4.png a/5.jpg b/6.tif a/7.TIF a/8.png c/9.tif"
    return {it: made_raw.MAKERS["dng"](b"A bowl") if it.endswith("dng") else make[it.lower()[-3:]](flat) for it in names.split()}


def derivatives() -> Files:
    """The pictures that were made of them: of some two, or not clear of which."""
    names = "a/1.jpg web/2.jpg web/3.jpg a/4.jpg a/5.jpg web/6.jpg x/6.jpg a/7.jpg a/7.png web/8.JPG c/10.jpg"
    return {name: captioned(300 + number) for number, name in enumerate(names.split())}


def row(first: int, date: str) -> Files:
    """Pictures that are numbered from `first` on, and one with a date."""
    files: Files = {f"{first + it}.jpg": captioned(410 + it, title=f"Salt {it}") for it in range(3)}
    return {**files, "dated.jpg": taken(420, packet=date)}


def alike() -> Files:
    """Pictures of the same data, some of which look otherwise by what says how to decode them."""
    plain, still, alpha, moves = picture(400), bytes(9), (b"VP8 ", b"pixels"), (b"ANIM", b"pixels")
    letters = plain
    for names in (b'%b"\0%b\x11\1%b\x11\1', b"%b\0%b\x11%b\x11"):  # of components, in the frame and in the scan
        letters = letters.replace(names % (b"\1", b"\2", b"\3"), names % (b"R", b"G", b"B"))
    red, yellow = (jpeg(segment(0xEE, b"Adobe\0d\0\0\0\0" + transform), base=picture(401)) for transform in (b"\0", b"\1"))
    jpegs = {"plain": plain, "letters": letters, "red": red, "yellow": yellow}
    webps = {
        "alpha": ((b"VP8X", b"\x10" + still), (b"ALPH", b"a"), alpha),
        "alpha-lost": ((b"VP8X", b"\0" + still), (b"ALPH", b"a"), alpha),
        "alpha-other": ((b"VP8X", b"\x10" + still), (b"ALPH", b"b"), alpha),
        "lossless": ((b"VP8L", b"\x2f\0\0\0\x10"),),
        "lossless-lost": ((b"VP8X", b"\0" + still), (b"VP8L", b"\x2f\0\0\0\x10")),
        "lossless-opaque": ((b"VP8X", b"\0" + still), (b"VP8L", b"\x2f\0\0\0\0")),
        "moves": ((b"VP8X", b"\2" + still), moves),
        "moves-wide": ((b"VP8X", b"\2\0\0\0\1" + still[4:]), moves),
        "moves-with-metadata": ((b"VP8X", b"\x0e" + still), moves),
    }
    return {
        **{f"{name}.jpg": it for name, it in jpegs.items()},
        **{f"{name}-without-jfif.jpg": it.replace(plain[2:20], b"") for name, it in jpegs.items()},
        **{f"{name}.webp": webp(*chunks) for name, chunks in webps.items()},
        "a-link.jpg": Link("plain.jpg"),
        "empty-at-end.webp": webp((b"VP8 ", b"pixels"), (b"SALT", b"")),
        # the main picture: none, the first, the second, and one that isn't there
        **{f"{number}.heic": heif(PICTURE, PICTURE, primary=number) for number in range(4)},
        **{f"{number}.png": png(point=number) for number in (1, 2)},
    }


def after() -> Files:
    """The clock an hour later, a cut and a fault in front of credentials, another second picture, a MakerNote that has moved."""
    return {
        **edited(True),
        "clock.jpg": clocked(200, b"20250331", b"153000"),
        "credentials.jpg": before()["credentials.jpg"][:-60],
        "fault.jpg": before()["fault.jpg"].replace(b"\xff\xeb", b"\0\xeb"),
        "index.jpg": mpf(app1(small_tiff(*camera())), jpeg(base=picture(204))),
        "midnight.jpg": clocked(201, b"20250401", b"003000"),
        "note.tif": in_tiff(gap=6),
    }


def put(folder: str, files: Files, time: int = TIME, before: Files = {}) -> None:
    """Writes the files of a night, each with this time, or with the earlier one if it was the same before under any name."""
    known = set(before.values())
    for name, made in files.items():
        path = os.path.join(folder, name)
        os.makedirs(os.path.dirname(path), exist_ok=True)
        if isinstance(made, Link):
            os.symlink(made.target, path)
        else:
            with open(path, "wb") as file:
                file.write(made)
            moment = TIME if made in known else time
            os.utime(path, (moment, moment))
