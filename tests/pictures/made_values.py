"""A TIFF whose pages have the same fields with other values: each type, each number that a standard has a word for, dates, places, comments and
texts in the forms of the standards, and in forms that no standard has."""

import struct

from made_files import page, tiff, xmp

BYTE, ASCII, SHORT, LONG, RATIONAL, SBYTE, UNDEFINED, SSHORT, SLONG, SRATIONAL, FLOAT, DOUBLE = range(1, 13)
PAGES = 32


def texts(rows):
    return [it.encode() + b"\0" for it in rows.split("|")]


def ratios(rows, letter="I"):
    return [
        struct.pack(f">{len(row.replace('/', ' ').split())}{letter}", *map(int, row.replace("/", " ").split())) for row in rows.split(",")
    ]


NUMBERS = [*range(27), 32773, 65535, 255, 254, 100]
FLASH = [0, 1, 5, 7, 9, 13, 15, 16, 20, 24, 25, 29, 31, 32, 48, 65, 69, 71, 73, 77, 79, 80, 88, 89, 93, 95, 2, 4, 6, 64, 127, 65535]
ENUMERATED = [0x8822, 0x9207, 0x9208, 0xA001, 0xA210, 0xA401, 0xA402, 0xA403, 0xA405, 0xA406, 0xA407, 0xA408, 0xA409, 0xA40A, 0xA40C]
DATES = texts(
    "2008:07:31 10:38:11|    :  :     :  :  |0000:00:00 00:00:00|2008-07-31 10:38:11|2008:07:31|2008:07:31 10:38|2008:07:31 10:38:11.25|"
    "2008:07:31 10:38:11+02:00|2008:07:31T10:38:11Z|2008:02:30 10:38:11|2008:13:01 10:38:11|in summer||2008:07:31 24:00:00|"
    " 2008:07:31 10:38:11 |0001:01:01 00:00:00|2008:07:31 10:38:61|2008:07:00 10:38:11|2008:07:31 23:59:60"
)
RATIOS = ratios(
    "1/125,10/1250,10/13,30/1,1/3,0/1,1/0,0/0,4/10,28/10,56/10,1/4,3/10,123456/1000,4294967295/1,4294967295/4294967295,2/1,25/10,"
    "39/1,40/1,41/1,999/1000,1/100000,249/1000,95/100"
)
SIGNED = ratios("1/3,-1/3,0/1,0/-1,7/1,-3/10,1/0,-2147483648/1,2/-3,29/1,30/1,31/1,-19/1,-20/1,-21/1,1000/1,5/10,1/-2147483648", "i")
LENSES = ratios(
    "24/1 70/1 28/10 28/10,50/1 50/1 18/10 18/10,70/1 200/1 4/1 56/10,18/1 55/1 0/0 0/0,18/1 0/0 35/10 56/10,"
    "50/1 50/1 0/1 0/1,105/10 42/1 35/10 0/0,24/1 70/1 28/10"
)
VERSIONS = [b"0231", b"0220", b"0300", b"abcd", b"02\0\0", b"1000", b"023", b"02310", b"0000"]
COMMENTS = [
    b"ASCII\0\0\0Vase  ",
    b"UNICODE\0" + "Zürich".encode("utf-16-be"),
    b"UNICODE\0" + "Zürich".encode("utf-16-le"),
    b"UNICODE\0" + "\ufeff東京".encode("utf-16-be"),
    b"UNICODE\0" + "Vase\0more".encode("utf-16-le") + b"x",
    b"JIS\0\0\0\0\0" + "東京".encode("iso2022_jp"),
    b"JIS\0\0\0\0\0\xff\xfe",
    bytes(20),
    b" " * 20,
    b"ASCII\0\0\0" + bytes(9),
    bytes(8) + "Zürich".encode(),
    bytes(8) + b"Z\xfcrich",
    b"ASCII   Z\xfcrich",
    b"ASCII\0\0\0Z\xc3\xbcrich",
    b"Z\xfcrich",
    b"\xff\xfe\xfd",
    b"Vase",
    b"Vase\0\0\0\0",
    b"Vase\0\0\0\0more",
    b"A longer text without a set",
    "Low light".encode("utf-16-le"),
    "\ufeffLow light".encode("utf-16-be"),
    "東京東京東京".encode("utf-16-le"),
    b"LATIN\0\0\0Vase",
    b"one\x01two\x02",
    b"ASCII\0\0\0one\0two",
    b'ASCII\0\0\0one\ntwo\t"3" \\',
    b"\xe4\xf6\xfc\xdf\xe4 a",
    b"\xe4\xf6\xfc abcd",
]
WIDE = [
    "Zürich\0".encode("utf-16-le"),
    "Zürich".encode("utf-16-le"),
    "a\nb\t\0".encode("utf-16-le"),
    b"\0\xd8\0\0",
    b"abc",
    "a\x01b".encode("utf-16-le"),
]
PLAIN = [
    b"Otto\0",
    b"Otto",
    b"Otto \0",
    b"Otto\0\0\0",
    b"\0",
    b" \0",
    b"Z\xfcrich\0",
    "Zürich\0".encode(),
    b"a\0b\0",
    b'a"b\\\0',
    b"a\n\tb\0",
    b"a\x1b\0",
]
PLAIN += [b"x" * 400 + b"\0", "\u202eabc\0".encode(), "东京\0".encode(), b"\x81\x9d\0"]
BYTES = [
    b"\0",
    b"\1",
    b"\2",
    b"\xff",
    b"\0\1\2\3",
    bytes(32),
    bytes(range(200, 233)),
    bytes(range(200, 232)),
    b"x" * 401,
    b"x" * 400,
    b"x" * 1601,
]
FLOATS = [struct.pack(">f", it) for it in (0.0, -0.0, 1.5, -1e30, 1e-40, float("inf"), float("-inf"), float("nan"), 0.1)]
FLOATS += [struct.pack(">3f", 1, 2.5, float("nan")), struct.pack(">40f", *range(40))]
DOUBLES = [struct.pack(">d", it) for it in (0.0, -0.0, 1.5, 1e300, float("inf"), float("nan"), 0.1, 3.0)]
SHORTS = [struct.pack(f">{len(it)}h", *it) for it in ([0], [-1], [32767], [-32768], [1, -2], [*range(90)])]
LONGS = [struct.pack(f">{len(it)}i", *it) for it in ([0], [-1], [2**31 - 1], [-(2**31)], [1, -2])]
# Latitude and its letter, longitude and its letter, altitude and its byte
LETTERS = [b"N\0", b"S\0", b"n\0", b"South\0", b"E\0", b"\0", b"X\0", b" N\0"]
EASTERN = [b"E\0", b"W\0", b"w\0", b"West\0", b"N\0", b"\0", b"E\0", b"E\0", b"W"]
ANGLES = ratios(
    "51/1 30/1 0/1,33/1 1213/100 0/1,0/1 0/1 0/1,90/1 0/1 0/1,90/1 0/1 1/100,46/1 12/1 7807/1000,10/1 59/1 59999/1000,7/1 30/1 0/0,7/0 0/1 0/1,"
    "120/1 0/1 0/1,180/1 0/1 1/10,515/10 0/1 0/1,180/1 0/1 0/1,12/1 30/1"
)
CLOCKS = ratios("10/1 38/1 11/1,0/1 0/1 0/1,23/1 59/1 59999/1000,10/1 38/1 0/0,10/1 38/1 1125/100,9/1 5/1")
DIGITS = [b"\2\3\0\0", b"\2\2\0\0", b"2300", b"\2\3", b"\2\3\0\0\0"]
DAYS = [b"20080731", b"00000000", b"20081301", b"2008-07-31", b"2008", b"20080230", b"", b"20080700"]
TIMES = [b"103811+0200", b"103811", b"250000+0000", b"103811-0330", b"10:38", b"103811+02", b"103811+9900", b"103860+0000"]
TWO = [b"\0\4", b"\1\0", b"\4", b"\0\0\0\4", b"AB", b"\xff\xff"]
SETS = [b"\x1b%G", b"", b"\x1b.A", b"\x1b%G", b"\x1b%/I"]
OF_IPTC = {
    (1, 90): SETS,
    **dict.fromkeys([(1, 20), (1, 22), (2, 0)], TWO),
    **dict.fromkeys([(1, 70), (2, 30), (2, 37), (2, 47), (2, 55), (2, 62)], DAYS),
    **dict.fromkeys([(1, 80), (2, 35), (2, 38), (2, 60), (2, 63)], TIMES),
    **dict.fromkeys([(2, 5), (2, 25), (2, 80), (2, 120), (3, 10)], [it.rstrip(b"\0") for it in PLAIN]),
    **dict.fromkeys([(2, 125), (2, 202), (2, 254), (7, 10)], BYTES),
}
# XMP: texts by the type of the property
MOMENTS = (
    "2019-03-12T11:20:45.5+01:00|2019-03|2019|2019-03-12|2019-03-12T11:20|2019-03-12T11:20Z|2019-03-12T11:20:45-03:30|2019-02-30|2019-03-12T25:20:45|"
    "2019-03-12T11:20:45.1234567|2019-03-12 11:20:45|in summer||2019-03-12T11:20:45|2019-03-12T11:20:45+99:00"
)
INTEGERS = "6|-6|+6|6.0|06|six||1 2|" + "9" * 301
REALS = "1.5|-1|.5|5.|+5|1e3|one|." + "5" * 10 + "|0|-0.0"
OF_XMP = {
    "xmp:CreateDate": MOMENTS,
    "dc:date": MOMENTS,
    "tiff:Orientation": INTEGERS + "|1|2|3|4|5|7|8",
    "exif:MeteringMode": "0|1|255|7|x",
    "exif:ColorSpace": "1|65535|2",
    "photoshop:Urgency": INTEGERS,
    "xmp:Rating": REALS,
    "exif:ExposureTime": "1/60|10/600|1/0|0/1|-1/60|1.5|fast|1/|30/1|" + "1" * 301 + "/2",
    "exif:FNumber": "28/10|4/1|5.6|0/0|f/4",
    "exif:FocalLength": "50/1|505/10|50",
    "xmpRights:Marked": "True|False|true|FALSE|yes|1|",
    "exif:GPSLatitude": "48,7.5S|48,7.5N|48,7,30N|90,0.0N|90,0.1N|48,7.5E|48.125N|x|48,7.5|5,59.99999N",
    "exif:GPSLongitude": "11,30.0E|11,30.0W|180,0.0E|180,0.1E|11,30,15.5W|11,30.0N|11,30.0E|x",
    "exif:GPSAltitudeRef": "0|1|2|3|x",
    "exif:GPSAltitude": "500/1|1/0|12345/100|x",
    "dc:source": "6| a |a\tb|<&>\"'|\u202e|東京|a\u0301|á|x" + "y" * 500,
}


def escaped(text):
    return text.replace("&", "&amp;").replace("<", "&lt;").replace('"', "&quot;").replace("'", "&apos;").replace("\t", "&#9;")


SPACES = (
    "xmlns:tiff='http://ns.adobe.com/tiff/1.0/' xmlns:exif='http://ns.adobe.com/exif/1.0/' xmlns:xmpRights='http://ns.adobe.com/xap/1.0/rights/'"
    " xmlns:photoshop='http://ns.adobe.com/photoshop/1.0/'"
)


def packet(number):
    """The properties with the texts of a page."""
    values = [(name, texts.split("|")) for name, texts in OF_XMP.items()]
    return xmp("".join(f"<{name}>{escaped(some[number % len(some)])}</{name}>" for name, some in values), SPACES)


def record(number):
    """The DataSets with the values of a page; a keyword is there twice."""
    made = b""
    for (part, key), values in sorted(OF_IPTC.items()):
        for it in [values[number % len(values)]] + [values[(number + 1) % len(values)]] * (key == 25):
            made += bytes([28, part, key]) + struct.pack(">H", len(it)) + it
    return made


def of(number, tags, kind, values):
    """An entry for each of some tags, with the value of a page."""
    return [(tag, kind, values[(number + at) % len(values)]) for at, tag in enumerate(tags)]


def main(number):
    """The fields of a page's own directory."""
    return [
        *[(tag, SHORT, NUMBERS[number]) for tag in (0x0106, 0x0112, 0x0128, 0x0213)],
        *of(number, [0x010E, 0x0131, 0x013B, 0x8298], ASCII, PLAIN),
        *of(number, [0x0132], ASCII, DATES),
        *of(number, [0x011A, 0x011B], RATIONAL, RATIOS),
        *of(number, [0x9C9B, 0x9C9F], BYTE, WIDE),
        (0xC001, BYTE, BYTES[number % len(BYTES)]),
        (0xC006, SBYTE, BYTES[number % len(BYTES)]),
        (0xC007, UNDEFINED, BYTES[number % len(BYTES)]),
        (0xC008, SSHORT, SHORTS[number % len(SHORTS)]),
        (0xC009, SLONG, LONGS[number % len(LONGS)]),
        (0xC00A, SRATIONAL, SIGNED[number % len(SIGNED)]),
        (0xC00B, FLOAT, FLOATS[number % len(FLOATS)]),
        (0xC00C, DOUBLE, DOUBLES[number % len(DOUBLES)]),
        (0xC00D, ASCII, COMMENTS[number % len(COMMENTS)] + b"\0"),
        (0xC00E, 129, PLAIN[number % len(PLAIN)]),
    ]


def camera(number):
    """The fields of its Exif directory."""
    return [
        *[(tag, SHORT, NUMBERS[number]) for tag in ENUMERATED],
        (0x9209, SHORT, FLASH[number]),
        *of(number, [0x9003, 0x9004], ASCII, DATES),
        *of(number, [0x829A, 0x829D, 0x9202, 0x9205, 0x9206, 0x920A], RATIONAL, RATIOS),
        *of(number, [0x9201, 0x9203, 0x9204], SRATIONAL, SIGNED),
        *of(number, [0xA432], RATIONAL, LENSES),
        *of(number, [0x9000, 0xA000], UNDEFINED, VERSIONS),
        *of(number, [0x9286], ASCII if number % 3 == 2 else UNDEFINED, COMMENTS),
    ]


def place(number):
    """The fields of its directory of a position."""
    return [
        *of(number, [0], BYTE, DIGITS),
        *of(number, [1, 0x13], ASCII, LETTERS),
        *of(number, [3, 0x15], ASCII, EASTERN),
        *of(number, [2, 4, 0x14, 0x16], RATIONAL, ANGLES),
        *of(number, [5], BYTE, BYTES),
        *of(number, [6, 0xD, 0xF, 0x11, 0x18, 0x1F], RATIONAL, RATIOS),
        *of(number, [7], RATIONAL, CLOCKS),
        *of(number, [0xC, 0x19], ASCII, texts("K|M|N|X|")),
        *of(number, [0x10, 0x12], ASCII, texts("T|M|WGS-84|")),
        *of(number, [0x1B, 0x1C], UNDEFINED, COMMENTS),
        *of(number, [0x1D], ASCII, texts("2008:07:31|2008-07-31|0000:00:00|x|")),
    ]


def pages(first=0, count=PAGES):
    """The picture, or one of some of its pages."""
    made = []
    for number in range(first, first + count):
        more = [(0x02BC, BYTE, packet(number)), (0x83BB, UNDEFINED, record(number))]
        made.append(page(*main(number), (0x8769, LONG, camera(number)), (0x8825, LONG, place(number)), *more))
    return tiff(*made)
