"""Picture files made by hand that have no boxes: PSD and GIF."""

import struct


def psd(*resources, layers=b"", version=1, size=(2, 3), depth=8, channels=3, compression=0, rows=None, colours=b"", behind=b""):
    """A PSD of these resources, or a PSB with the version 2. `size` is its width and height, `rows` its compressed rows."""
    width, height = size
    head = struct.pack(">4sH6xHIIHH", b"8BPS", version, channels, height, width, depth, 3)
    wide = "Q" if version == 2 else "I"
    joined = b"".join(resources)
    parts = [
        head,
        struct.pack(">I", len(colours)),
        colours,
        struct.pack(">I", len(joined)),
        joined,
        struct.pack(">" + wide, len(layers)),
        layers,
    ]
    return b"".join(parts) + struct.pack(">H", compression) + _pixels(width, height, depth, channels, compression, rows, version) + behind


def _pixels(width, height, depth, channels, compression, rows, version):
    if rows is None:
        return b"\x55" * ((width * depth + 7) // 8 * height * channels)
    lengths = struct.pack(f">{len(rows)}{'I' if version == 2 else 'H'}", *map(len, rows)) if compression == 1 else b""
    return lengths + b"".join(rows)


def named(made, name):
    """The same resource with a name."""
    text = bytes([len(name)]) + name
    return made[:6] + text + bytes(len(text) % 2) + made[8:]


# GIF

MAGIC = b"\1" + bytes(range(255, -1, -1))


def blocks_of_data(data, length=255):
    """Some bytes in blocks of a GIF, with the block of no bytes that ends them."""
    return b"".join(bytes([len(data[at : at + length])]) + data[at : at + length] for at in range(0, len(data), length)) + b"\0"


def application(name, data, length=255):
    """An application extension, in blocks of so many bytes."""
    return b"\x21\xff" + bytes([len(name)]) + name + blocks_of_data(data, length)


def gif_xmp(packet):
    """XMP as the standard has it: not in blocks, and followed by bytes that end what a reader takes for blocks."""
    return b"\x21\xff\x0bXMP DataXMP" + packet + MAGIC + b"\0"


def gif(*extensions, colours=1, own_colours=0, images=1, behind=b"", version=b"89a"):
    """A GIF of images of one point, with these extensions in front of them. `colours` are the bits of its tables of colours, if not 0."""
    table, own = (bytes(3 << it) if it else b"" for it in (colours, own_colours))
    screen = struct.pack("<HHBBB", 1, 1, 0x80 | colours - 1 if colours else 0, 0, 0)
    image = (
        b"\x2c" + struct.pack("<HHHHB", 0, 0, 1, 1, 0x80 | own_colours - 1 if own_colours else 0) + own + b"\2" + blocks_of_data(b"\x4c\1")
    )
    return b"GIF" + version + screen + table + b"".join(extensions) + image * images + b"\x3b" + behind
