"""Pictures of each format, and folders, that grow in one way: each growth makes them in any size, and says what must be read of them."""

import math
import struct
from typing import Callable, Dict, NamedTuple, Optional, Tuple

from attacks import many_values, sharing
from made_blocks import ASCII, LONG, UNDEFINED, with_exif
from made_boxes import PICTURE, XMP_UUID, Item, box, cr3, heif, item_exif, jp2, jxl, mime, uuid
from made_files import (
    app1,
    app1_xmp,
    app13,
    chunk,
    extension,
    iim,
    jpeg,
    page,
    png,
    png_xmp,
    profile,
    raf,
    resource,
    segment,
    small_tiff,
    tiff,
    webp,
    xmp,
)
from made_more_files import application, gif, gif_xmp, psd
from made_raw import fuji
from studio import SMALL_JPEG

from exifnorm_pictures.model import budgets

BYTE = 1
EXIF, IPTC, XMP = KINDS = ("exif", "iptc", "xmp")  # as `show --json` names them


class Parts(NamedTuple):
    """What a picture has: the entries of its Exif block, a record, packets, and a number of small parts without metadata."""

    entries: Tuple = ((0x010F, ASCII, b"Abc\0"),)
    record: bytes = b""
    packets: Tuple = ()
    others: int = 0

    @property
    def exif(self):
        return small_tiff(*self.entries)


class Made(NamedTuple):
    """What is put into a picture, and what must be read of it: how many texts of each kind begin with the mark. A block that isn't accepted
    has a cause."""

    parts: Parts
    texts: Dict[str, int]


# What any format can have in any number


def of_fields(number, mark):
    """Each block has many fields."""
    entries = tuple((0xA500 + it, ASCII, b"%s%02d\0" % (mark, it % 100)) for it in range(number))
    record = b"".join(iim(b"%s%d" % (mark, it)) for it in range(number))
    packet = xmp("".join(f"<dc:a{it}>{mark.decode()}</dc:a{it}>" for it in range(number)))
    return Made(Parts(entries, record, (packet,)), dict.fromkeys(KINDS, number))


def of_texts(number, mark):
    """A property has many texts, a title many languages, and each block a long text. Its length doesn't grow: SQLite copies it at each further
    text that it compares with it, up to 65,536 bytes, as long as a kept text may be."""
    word = mark.decode()
    texts = "".join(f"<rdf:li>{word}{it}</rdf:li>" for it in range(number))
    titles = "".join(f"<rdf:li xml:lang='x-{it}'>{word}</rdf:li>" for it in range(number))
    inside = f"<dc:subject><rdf:Bag>{texts}</rdf:Bag></dc:subject><dc:title><rdf:Alt>{titles}</rdf:Alt></dc:title>"
    long = mark + b"x" * 12_000
    return Made(
        Parts(((0x010E, ASCII, long + b"\0"),), iim(long[:30_000]), (xmp(inside),)),
        {EXIF: 1, IPTC: 1, XMP: 2 * number},
    )


def of_packets(number, mark):
    packets = tuple(xmp(f"<dc:format>{mark.decode()}{it}</dc:format>") for it in range(number))
    return Made(Parts(packets=packets), {XMP: number})


def of_parts(number, mark):
    """Small parts without metadata: segments, chunks, pages, items, boxes, resources or extensions."""
    return Made(Parts(packets=(xmp(f"<dc:format>{mark.decode()}</dc:format>"),), others=number), {XMP: 1})


def whole_jpeg(parts):
    if max(map(len, (parts.exif, parts.record, *parts.packets))) > 60_000:
        from largest import jpeg_of  # which imports this module

        return jpeg_of(parts)
    record = [app13(resource(0x0404, parts.record))] * bool(parts.record)
    return jpeg(app1(parts.exif), *record, *map(app1_xmp, parts.packets), *[segment(0xFE, b"x")] * parts.others)


def whole_png(parts):
    record = [profile(b"iptc", parts.record)] * bool(parts.record)
    return png(chunk(b"eXIf", parts.exif), *record, *map(png_xmp, parts.packets), *[chunk(b"tEXt", b"a\0b")] * parts.others)


def whole_webp(parts):
    packets = [(b"XMP ", it) for it in parts.packets]
    return webp((b"VP8 ", b"abcd"), (b"EXIF", parts.exif), *packets, *[(b"ICCP", b"x")] * parts.others)


def pages(parts, **more):
    """A TIFF with a page for each packet and each other part."""
    record = [(0x83BB, UNDEFINED, parts.record)] * bool(parts.record)
    packets = [[(0x02BC, BYTE, it)] for it in parts.packets] or [[]]
    return tiff(page(*parts.entries, *record, *packets[0]), *(page(*it) for it in packets[1:]), *[page()] * parts.others, **more)


def whole_heif(parts):
    packets = [mime(it, (1,)) for it in parts.packets]
    return heif(PICTURE, Item(b"Exif", item_exif(parts.exif), describes=(1,)), *packets, *[PICTURE] * parts.others)


def whole_cr3(parts):
    more = [box(b"uuid", XMP_UUID, it) for it in parts.packets[1:]] + [box(b"free", b"x")] * parts.others
    return cr3(box(b"CMT1", parts.exif), packet=parts.packets[0] if parts.packets else None, behind=b"".join(more))


def whole_psd(parts):
    record = [resource(0x0404, parts.record)] * bool(parts.record)
    packets = [resource(0x0424, it) for it in parts.packets]
    return psd(resource(0x0422, parts.exif), *record, *packets, *[resource(0x0425, b"x")] * parts.others)


def whole_jxl(parts):
    packets = [box(b"xml ", it) for it in parts.packets]
    return jxl(box(b"Exif", bytes(4), parts.exif), *packets, *[box(b"free", b"x")] * parts.others)


def whole_jp2(parts):
    record = [uuid("33c7a4d2b81d4723a0baf1a3e097ad38", parts.record)] * bool(parts.record)
    packets = [box(b"uuid", XMP_UUID, it) for it in parts.packets]
    return jp2(uuid("4a706754696666457869662d3e4a5032", parts.exif), *record, *packets, *[box(b"free", b"x")] * parts.others)


def whole_gif(parts):
    record = [application(b"MGKIPTC0000", parts.record)] * bool(parts.record)
    block = application(b"MGK8BIM0000", resource(0x0422, parts.exif))
    return gif(block, *record, *map(gif_xmp, parts.packets), *[b"\x21\xfe\1x\0"] * parts.others)


def big_tiff(parts):
    """A BigTIFF with a page for each packet and each other part (the BigTIFF design of libtiff)."""
    record = [(0x83BB, UNDEFINED, parts.record)] * bool(parts.record)
    packets = [[(0x02BC, BYTE, it)] for it in parts.packets] or [[]]
    octets = bytearray(struct.pack("<2sHHHQ", b"II", 43, 8, 0, 0))
    link = 8
    directories = [[*parts.entries, *packets[0], *record], *packets[1:], *[[(0x0110, ASCII, b"Abc\0")]] * parts.others]
    for entries in directories:
        rows = b""
        for tag, kind, value in sorted(entries):
            inside = value.ljust(8, b"\0") if len(value) <= 8 else struct.pack("<Q", len(octets))
            octets += value if len(value) > 8 else b""
            rows += struct.pack("<HHQ", tag, kind, len(value)) + inside
        struct.pack_into("<Q", octets, link, len(octets))
        octets += struct.pack("<Q", len(entries)) + rows
        link = len(octets)
        octets += bytes(8)
    return bytes(octets)


def whole_raf(parts):
    return raf(whole_jpeg(parts), directory=struct.pack(">IHHI", 1, 0x0100, 4, 7), pixels=fuji())


# By the name of each format: the ending of its files, and what makes one of parts
FORMATS = {
    "JPEG": ("jpg", whole_jpeg),
    "PNG": ("png", whole_png),
    "WebP": ("webp", whole_webp),
    "TIFF; DNG, CR2, NEF, PEF, ARW, SRW": ("tif", pages),
    "ORF, RW2": ("orf", lambda parts: pages(parts, order="<", head=b"IIRO")),
    "RAF": ("raf", whole_raf),
    "HEIC, HEIF, AVIF": ("heic", whole_heif),
    "CR3": ("cr3", whole_cr3),
    "PSD, PSB": ("psd", whole_psd),
    "JPEG XL": ("jxl", whole_jxl),
    "JPEG 2000": ("jp2", whole_jp2),
    "GIF": ("gif", whole_gif),
    "BigTIFF": ("btf", big_tiff),
    "NAME.xmp": ("xmp", lambda parts: parts.packets[0] if parts.packets else xmp("")),
}


class Growth(NamedTuple):
    """A way to grow: what makes it in a size, and the size for a short test and for a long one."""

    make: Callable
    short: int
    long: int
    free: Tuple[str, ...] = ()  # what doesn't grow at all with it
    commands: Tuple[str, ...] = ()  # that are run on it; none: all of a test


IN_EACH_FORMAT = {
    "fields": Growth(of_fields, 300, 5000),
    "texts": Growth(of_texts, 300, 1500),
    "packets": Growth(of_packets, 120, 2000),
    "parts": Growth(of_parts, 300, 2400),
}


# What one format has, or a block


class Whole(NamedTuple):
    """A picture, how many texts of each kind begin with the mark, and the cause of a block that isn't accepted."""

    octets: bytes
    texts: Dict[str, int]
    cause: Optional[str] = None
    hole: int = 0  # bytes of a hole after it


def with_packet(packet, texts=1, cause=None):
    return Whole(png(png_xmp(packet, packed=True)), {XMP: texts} if texts else {}, cause)


def rare_text(inside):
    """A packet whose name isn't ASCII, which the library leaves to the reader in Python."""
    return with_packet(xmp(f"<x:\u00e9 xmlns:x='urn:x#'>{inside}</x:\u00e9>"))


def lines(number, mark):
    return rare_text(mark.decode() + "\n" * number)


def references(number, mark):
    return rare_text(mark.decode() + "&lt;" * number)


def pieces_of_text(number, mark):
    return rare_text(mark.decode() + "<![CDATA[x]]><!-- x --><?x y?>" * number)


def rare_nodes(number, mark):
    inside = "".join(f"<x:p{it}>{mark.decode()}</x:p{it}>" for it in range(number))
    return with_packet(xmp(f"<x:\u00e9 xmlns:x='urn:x#' rdf:parseType='Resource'>{inside}</x:\u00e9>"), number)


def attributes(number, mark):
    return with_packet(xmp("", " ".join(f"dc:a{it}='{mark.decode()}'" for it in range(number))), number)


def spaces(number, mark):
    return with_packet(xmp("".join(f"<x{it}:a xmlns:x{it}='urn:{it}#'>{mark.decode()}</x{it}:a>" for it in range(number))), number)


def long_name(number, mark):
    return with_packet(xmp(f"<dc:{'a' * number}>{mark.decode()}</dc:{'a' * number}>"))


def long_namespace(number, mark):
    """A namespace as long as there are properties with it, each of which repeats it."""
    properties = "".join(f"<q:a{it}>{mark.decode()}</q:a{it}>" for it in range(number))
    return with_packet(xmp(properties, f"xmlns:q='urn:{'x' * number}'"), 0, "LongNamespace")


def structures(number, mark):
    inside = f"<rdf:li rdf:parseType='Resource'><dc:a>{mark.decode()}</dc:a></rdf:li>" * number
    return with_packet(xmp(f"<dc:a><rdf:Seq>{inside}</rdf:Seq></dc:a>"), number)


def blanks(number, mark):
    return with_packet(xmp(f"<dc:a>{mark.decode()}</dc:a>" + " \n" * number) + b" \n" * number)


def declared(number, mark):
    return with_packet(b"<?xml version='1.0'" + b" " * number + b"?>" + b"\n" * number + xmp(f"<dc:a>{mark.decode()}</dc:a>"))


def extended_pieces(number, mark):
    """Extended XMP in many segments."""
    packet = xmp("".join(f"<dc:a{it}>{mark.decode()}</dc:a{it}>" for it in range(number)))
    segments, name = extension(packet, 40)
    return Whole(jpeg(app1_xmp(xmp("", f"note:HasExtendedXMP='{name}'")), *segments), {XMP: number})


def as_written(entries, data=b""):
    """A block of entries in the order in which they are given."""
    rows = b"".join(struct.pack("<HHI", tag, kind, len(value)) + value for tag, kind, value in entries)
    return b"II*\0\x08\0\0\0" + struct.pack("<H", len(entries)) + rows + bytes(4) + data


def unsorted(number, mark):
    """The entries of the block are in the wrong order."""
    return refused(as_written([(0xA500 + it, ASCII, mark + b"x\0") for it in reversed(range(number))]), "Unsorted", number)


def doubled(number, mark):
    """A repair leaves out at most a hundred."""
    entries = as_written([(0xA500 + it // 2, ASCII, mark + b"x\0") for it in range(number)])
    return refused(entries, "Doubled", number // 2 if number < 200 else 0)


def unknown_types(number, mark):
    return refused(as_written([(0xA500 + it, 77, mark + b"x\0") for it in range(number)]), "UnknownType")


def shared_values(number, mark):
    return refused(many_values(number + 2, 5, 0), "Overlap")


def neighbouring_values(number, mark):
    return refused(many_values(number + 2, 5, 5), "Overlap")


def refused(block, cause, texts=0):
    return Whole(png(chunk(b"eXIf", block)), {EXIF: texts} if texts else {}, cause)


def resources(number, mark):
    return Whole(jpeg(app13(*[resource(0x0425, b"x")] * number, resource(0x0404, iim(mark)))), {IPTC: 1})


def numbers(number, mark):
    """A field of many numbers, one of many fractions, and a MakerNote."""
    entries = [(0x010F, ASCII, mark + b"ab\0"), (0xA500, UNDEFINED, bytes(number)), (0x8769, LONG, [(0x927C, UNDEFINED, bytes(number))])]
    return Whole(with_exif(SMALL_JPEG, small_tiff(*entries)), {EXIF: 1})


def trailer(number, mark):
    return Whole(jpeg(app1(small_tiff((0x010F, ASCII, mark + b"ab\0"))), behind=b"trailer " * number), {EXIF: 1})


def scan(number, mark):
    """A long scan with markers."""
    picture = with_exif(SMALL_JPEG, small_tiff((0x010F, ASCII, mark + b"ab\0")))
    return Whole(picture[:-2] + b"\xff\xc0\0\2abc" * number + picture[-2:], {EXIF: 1})


def strips(number, mark):
    """A page of many strips, none of which has bytes."""
    entries = page((0x010F, ASCII, mark + b"ab\0"), (0x0111, LONG, 8), (0x0117, LONG, 0))
    return Whole(with_array(entries, number, {0x0111: 8, 0x0117: 0}), {EXIF: 1})


def below(number, mark):
    """A page with many pages below it."""
    entries = page((0x010F, ASCII, mark + b"ab\0"), (0x014A, LONG, 0))
    return Whole(with_array(entries, number, {0x014A: None}), {EXIF: 1})


def with_array(entries, number, arrays):
    """A TIFF of one page in which some tags have so many numbers: an equal one each, or the offset of a directory of their own."""
    octets = bytearray(tiff(entries))
    at, size = 10, struct.unpack_from(">H", octets, struct.unpack_from(">I", octets, 4)[0])[0]
    start = struct.unpack_from(">I", octets, 4)[0] + 2
    for at in range(start, start + 12 * size, 12):
        tag = struct.unpack_from(">H", octets, at)[0]
        if tag in arrays:
            values = arrays[tag]
            array = [values] * number
            if values is None:
                array = [len(octets) + 18 * it for it in range(number)]
                octets += struct.pack(">HHHI4sI", 1, 0x0110, ASCII, 4, b"Abc\0", 0) * number
            struct.pack_into(">HII", octets, at + 2, LONG, number, len(octets))
            octets += struct.pack(f">{number}I", *array)
    return bytes(octets)


def one_packet(number, mark):
    """As many pages as the packet has comments, which all of them share: who parses it for each page does so many times the work."""
    packet = xmp(f"<dc:format>{mark.decode()}</dc:format>" + "<!-- a comment -->" * number)
    return Whole(sharing(packet, number, 0x02BC, BYTE), {XMP: number})


def one_record(number, mark):
    """As many pages as the record has keywords, which all of them share. As many are shown as a command shows of one picture."""
    record = b"".join(iim(b"%s%d" % (mark, it)) for it in range(number))
    return Whole(sharing(record, number, 0x83BB, BYTE), {IPTC: min(number * number, budgets.SHOWN_FIELDS)})


def one_packet_of_many(number, mark):
    """As many pages as the packet has properties, which all of them share."""
    packet = xmp("".join(f"<dc:a{it}>{mark.decode()}</dc:a{it}>" for it in range(number)))
    return Whole(sharing(packet, number, 0x02BC, BYTE), {XMP: min(number * number, budgets.SHOWN_FIELDS)})


def texts_as_long_as_many(number, mark):
    """Fields, keywords and members of a list: so many bytes of each, in as many texts as each has bytes. They begin alike, so that who compares
    a text with another one reads all of it."""
    many = math.isqrt(number)
    texts = [mark + b"x" * many + b"%d" % it for it in range(many)]
    entries = [(0xA500 + it, ASCII, text + b"\0") for it, text in enumerate(texts)]
    members = "".join(f"<rdf:li>{text.decode()}</rdf:li>" for text in texts)
    parts = Parts(tuple(entries), b"".join(map(iim, texts)), (xmp(f"<dc:subject><rdf:Bag>{members}</rdf:Bag></dc:subject>"),))
    return Whole(pages(parts), dict.fromkeys(KINDS, many))


def hole(number, mark):
    """A picture with a refused block, and a hole after it of so many megabytes."""
    block = as_written([(0x0110, ASCII, b"abc\0"), (0x010F, ASCII, mark + b"x\0")])
    return Whole(jpeg(app1(block)), {EXIF: 1}, "Unsorted", number << 20)


def plain_hole(number, mark):
    return Whole(jpeg(app1(small_tiff((0x010F, ASCII, mark + b"ab\0")))), {EXIF: 1}, None, number << 20)


OF_SHARED = (
    "show A",
    "show A --csv",
    "compare A B --no-programs",
    "compare A B --json --no-programs --ignore dc:none",
    "show --captions A",
    "show --captions A --json",
    "show --captions A --csv",
    "check A --json",
    "explain A",
)
OF_FILES = ("show A", "show --captions P", "check P --all", "list P --json --where title=x --jobs 1 --quiet")
OF_TEXTS = (
    "show A --json",
    "compare A B --json --exact --no-programs",
    "changed C D --no-programs --quiet --jobs 1",
    "same C --json --ignore dc:none",
    "show --captions P",
    "check P --all",
    "list C --count keywords",
    "check --rules rules C --json",
    "catalogue export C written.sqlite --quiet",
)
OTHERS = {
    "texts as long as they are many": ("tif", Growth(texts_as_long_as_many, 90_000, 1_000_000, (), OF_TEXTS)),
    "pages of one packet": ("tif", Growth(one_packet, 300, 2000, (), OF_FILES)),
    "pages of one record": ("tif", Growth(one_record, 300, 2000, (), OF_SHARED)),
    "pages of one packet of many": ("tif", Growth(one_packet_of_many, 300, 2000, (), OF_SHARED)),
    "a hole": ("jpg", Growth(plain_hole, 10, 100, ("written", "memory"))),
    "a hole after a refused block": ("jpg", Growth(hole, 10, 100, ("written", "memory"))),
    "lines of a rare text": ("png", Growth(lines, 3000, 30_000)),
    "references of a rare text": ("png", Growth(references, 3000, 30_000)),
    "pieces of a rare text": ("png", Growth(pieces_of_text, 1000, 10_000)),
    "rare nodes": ("png", Growth(rare_nodes, 200, 5000)),
    "attributes": ("png", Growth(attributes, 500, 5000)),
    "namespaces": ("png", Growth(spaces, 500, 5000)),
    "a long name": ("png", Growth(long_name, 20_000, 1_000_000)),
    "a long namespace": ("png", Growth(long_namespace, 1000, 5000)),
    "structures": ("png", Growth(structures, 300, 5000)),
    "blanks": ("png", Growth(blanks, 20_000, 1_000_000)),
    "a declaration": ("png", Growth(declared, 20_000, 1_000_000)),
    "pieces of extended XMP": ("jpg", Growth(extended_pieces, 500, 5000)),
    "unsorted entries": ("png", Growth(unsorted, 500, 5000)),
    "doubled entries": ("png", Growth(doubled, 400, 8000)),
    "entries of unknown types": ("png", Growth(unknown_types, 400, 5000)),
    "values that share bytes": ("png", Growth(shared_values, 500, 5000)),
    "neighbouring values": ("png", Growth(neighbouring_values, 500, 5000)),
    "resources": ("jpg", Growth(resources, 500, 1100)),
    "bytes of a value": ("jpg", Growth(numbers, 10_000, 7500)),
    "bytes after the end": ("jpg", Growth(trailer, 3000, 300_000)),
    "markers of a scan": ("jpg", Growth(scan, 300, 100_000)),
    "strips": ("tif", Growth(strips, 1000, 100_000)),
    "pages below a page": ("tif", Growth(below, 300, 4000)),
}


# Folders


def put_names(number, mark, folder):
    """Pictures of which no two mean the same."""
    for it in range(number):
        made = of_fields(1 + it % 2, b"%s%04d" % (mark, it))
        (folder / f"{it:05}.jpg").write_bytes(whole_jpeg(made.parts))


def put_one_group(number, mark, folder):
    for it in range(number):
        (folder / f"{it:05}.jpg").write_bytes(whole_jpeg(of_parts(0, mark).parts))


def groups_of(make):
    """Pictures in groups of four, each group of the bytes that `make` returns for its number."""

    def put(number, mark, folder):
        for it in range(number):
            (folder / f"{it:05}.jpg").write_bytes(make(it // 4, mark))

    return put


def accepted_picture(number, mark):
    return whole_jpeg(Parts(packets=(xmp(f"<dc:format>{mark.decode()}{number}</dc:format>"),)))


def refused_picture(number, mark):
    """One that no repair helps."""
    return jpeg(app1(b"II*\0\xff\xff\0\0" + b"%d" % number))


def repaired_picture(number, mark):
    return jpeg(app1(as_written([(0x0110, ASCII, b"%03d\0" % (number % 1000)), (0x010F, ASCII, mark + b"x\0")])))


def unread_picture(number, mark):
    """One that isn't read behind its first scan."""
    return whole_jpeg(Parts()) + b"\xff\xda\0\4ab%d" % number


def put_sidecars(number, mark, folder):
    """A sidecar for each of many pictures, and many versions of one picture's."""
    for it in range(number):
        (folder / f"b{it}.jpg").write_bytes(whole_jpeg(Parts()))
        (folder / f"b{it}.jpg.xmp").write_bytes(xmp(f"<dc:format>{mark.decode()}{it}</dc:format>"))
        (folder / f"b0_{it % 100:02}.jpg.xmp").write_bytes(xmp(f"<dc:format>{mark.decode()}{it}</dc:format>"))


def put_letters(number, mark, folder):
    """Pictures and sidecars whose names differ in nothing but the case of their letters."""
    for it in range(number):
        name = "".join(letter.upper() if it >> at & 1 else letter for at, letter in enumerate("abcdefghij"))
        (folder / f"{name}.jpg").write_bytes(whole_jpeg(Parts()))
        (folder / f"{name}.xmp").write_bytes(xmp(f"<dc:format>{mark.decode()}{it}</dc:format>"))


def put_depth(number, mark, folder):
    """A picture in each of many folders in one another."""
    for it in range(number):
        (folder / "a.jpg").write_bytes(whole_jpeg(of_fields(1, b"%s%04d" % (mark, it)).parts))
        folder = folder / "b"
        folder.mkdir()


LONG_TEXT = 200_000  # bytes


def put_long_names(number, mark, folder):
    """Pictures with a property each whose name is long."""
    for it in range(number):
        name = f"{'a' * LONG_TEXT}{mark.decode()}{it}"
        (folder / f"{it:05}.png").write_bytes(png(png_xmp(xmp(f"<dc:{name}>x</dc:{name}>"), packed=True)))


def put_long_texts(number, mark, folder):
    """Pictures with many texts each, none of which is too long to be kept."""
    for it in range(number):
        texts = "".join(f"<dc:a{at}>{mark.decode()}{it}{'x' * 50_000}</dc:a{at}>" for at in range(LONG_TEXT // 50_000))
        (folder / f"{it:05}.png").write_bytes(png(png_xmp(xmp(texts), packed=True)))


def put_long_values(number, mark, folder):
    """Pictures with an Exif text each that is too long to be kept, and a long caption."""
    for it in range(number):
        text = b"%s%d" % (mark, it) + b"x" * 60_000
        record = b"\x1c\x02\x78" + struct.pack(">H", 30_000) + text[:30_000]
        (folder / f"{it:05}.jpg").write_bytes(jpeg(app1(small_tiff((0x010E, ASCII, text + b"\0"))), app13(resource(0x0404, record))))


class Folder(NamedTuple):
    """A growth of folders: what puts so many pictures into one, what index counts of them, and the sizes of a short test and a long one."""

    put: Callable
    counts: Callable
    short: int
    long: int


def accepted(number):
    return f"{number} accepted"


FOLDERS = {
    "names": Folder(put_names, accepted, 40, 1000),
    "one group": Folder(put_one_group, accepted, 40, 1000),
    "groups": Folder(groups_of(accepted_picture), accepted, 40, 1000),
    "groups of refused pictures": Folder(groups_of(refused_picture), lambda number: f"{number} refused", 60, 1000),
    "groups of repaired pictures": Folder(groups_of(repaired_picture), lambda number: f"{number} refused", 60, 1000),
    "groups of unread pictures": Folder(groups_of(unread_picture), accepted, 40, 1000),
    "sidecars": Folder(put_sidecars, accepted, 40, 500),
    "sidecars in other letters": Folder(put_letters, accepted, 30, 400),
    "folders in one another": Folder(put_depth, accepted, 25, 300),
    "long names": Folder(put_long_names, accepted, 10, 60),
    "long texts": Folder(put_long_texts, accepted, 10, 60),
    "long values": Folder(put_long_values, accepted, 30, 100),
}
