"""Captions as objects: the parsed text of `exifnorm captions` (docs/FORMAT.md, "Captions")."""

from __future__ import annotations

import functools
import re
import struct
from typing import List, NamedTuple, Optional

from ._aliases import Octets
from ._calls import captions_text
from ._reading import fields
from ._words import documented

_ESCAPE = re.compile(rb"\\([0-9a-f]{2})")
_UTF8 = 129  # the number of the Exif type


@documented
class BlockCaption(NamedTuple):
    """A labelled text of a block.

    - `label`: the label that the library prints, such as "title" or "keyword" of a record, and "artist" of an Exif block
    - `data`: its bytes as they are in the block; a text of an Exif block usually ends in a zero byte
    - `text`: the text, if its encoding is known and its bytes are valid: for a record that declares UTF-8, and for the Exif types ASCII
      and UTF-8, without the zero byte at the end. Otherwise None; `exifnorm.read(..).captions` has a guess then
    """

    label: str
    data: bytes
    text: Optional[str]


def _decoded(data: bytes, encoding: str) -> Optional[str]:
    try:
        return data.decode(encoding)
    except UnicodeDecodeError:
        return None


@functools.lru_cache(maxsize=None)
def _label_of_tag(tag: int) -> str:
    """The label that the library prints for a text with this tag in a main directory; empty if it prints none.

    >>> _label_of_tag(0x013B), _label_of_tag(0x010F)
    ('artist', '')
    """
    block = struct.pack(">4sIHHHIII", b"MM\0*", 8, 1, tag, _UTF8, 1, 0, 0)
    return captions_text(block).partition("\n")[2].partition(": ")[0]


def _is_utf8(block: Octets, label: str) -> bool:
    """Whether the text with this label in a main directory has the type UTF-8, which only the listing shows."""
    return any(it.directory == "main" and it.type == "UTF8" and _label_of_tag(it.tag) == label for it in fields(block))


def _of_exif(block: Octets, label: str, data: bytes) -> BlockCaption:
    ended = data[:-1] if data.endswith(b"\0") else data
    if ended.isascii():
        return BlockCaption(label, data, ended.decode("ascii"))
    return BlockCaption(label, data, _decoded(ended, "utf-8" if _is_utf8(block, label) else "ascii"))


def captions(block: Octets) -> List[BlockCaption]:
    """The block's captions, names, keywords and rights, in the order of `exifnorm captions`. Raises Refused if the block breaks
    the rules, and MemoryError.

    >>> from exifnorm import captions
    >>> block = b"\\x1c\\x01\\x5a\\x00\\x03\\x1b%G" + b"\\x1c\\x02\\x05\\x00\\x07Z\\xc3\\xbcrich"
    >>> captions(block)
    [BlockCaption(label='title', data=b'Z\\xc3\\xbcrich', text='Zürich')]
    """
    texts = []
    _, *lines = captions_text(block).splitlines()
    in_record = False
    for line in lines:
        label, _, escaped = line.partition(": ")
        if label == "charset":
            in_record, declared = True, escaped == "UTF-8"
            continue
        data = _ESCAPE.sub(lambda it: bytes([int(it[1], 16)]), escaped.encode("ascii"))
        if in_record:
            texts.append(BlockCaption(label, data, _decoded(data, "utf-8") if declared else None))
        else:
            texts.append(_of_exif(block, label, data))
    return texts
