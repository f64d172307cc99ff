"""The public calls for blocks. They convert arguments and results, and raise the exceptions; the rest is the library's."""

from __future__ import annotations

from . import _library
from ._errors import LIMIT, NormalTooLong, Refused
from ._library import Status, library
from ._words import EXIF, IPTC

TYPE_CHECKING = False  # that of `typing`, which takes long to import
if TYPE_CHECKING:
    from typing import Any, Callable, NoReturn, Optional, TypeVar

    from ._aliases import Octets
    from ._library import Failure

    _Call = TypeVar("_Call", bound=Callable[..., Any])

_KINDS = {1: EXIF, 2: IPTC}
_PREFIX = b"Exif\0\0"  # of an Exif segment: CIPA DC-008, 4.7.2
_TOO_LONG = LIMIT + len(_PREFIX) + 1  # bytes that are too many for any block


def view_of(octets: Octets) -> memoryview:
    """A view of the bytes of an object. Raises `TypeError`, which says what to do with an open file."""
    try:
        return memoryview(octets)
    except TypeError:
        read = ": pass what its read() returns" if hasattr(octets, "read") else ""
        raise TypeError(f"bytes are expected, not {type(octets).__name__}{read}") from None


def _copied(block: Octets) -> bytes:
    """The bytes of an object of another type than bytes.

    >>> _copied(memoryview(b"Vases")[:-1])
    b'Vase'
    """
    with view_of(block) as view:
        if not view.c_contiguous:
            raise BufferError("the bytes of a block must be contiguous")
        # so many bytes are refused whatever they are, and are not copied
        return view.tobytes() if view.nbytes < _TOO_LONG else bytes(_TOO_LONG)


def _raise(failure: Failure, block: bytes, side: Optional[int] = None) -> NoReturn:
    """Raises the exception for a status that a block has."""
    status, cause, place = failure
    if status in (Status.REFUSED, Status.SECOND_REFUSED):
        name = library().cause_name(cause)
        raise Refused(name, place, side, name == "UnknownKind" and block.startswith(b"\xff\xd8\xff"))
    if status == Status.TOO_LONG:
        raise NormalTooLong
    if status == Status.NO_MEMORY:
        raise MemoryError
    raise AssertionError(f"libexifnorm answered the status {status}")


def in_c(call: _Call) -> _Call:
    """The extension module's function with the name of one in Python, to which it leaves what is rare (`_native.c`). Without the
    module, the one in Python."""
    native = _library._native
    if not native:
        return call
    native.in_python, native.raise_failure = call, _raise
    function = getattr(native, call.__name__)
    function.__module__ = call.__module__  # where pickle and help find it
    return function  # type: ignore[no-any-return]


def version() -> str:
    """The version of the library that is in use.

    >>> len(version().split("."))
    3
    """
    return library().version()


def kind(block: Octets) -> str:
    """The block's kind, "exif" or "iptc", which the program calls iim. Raises Refused if the block breaks the rules, and MemoryError.

    >>> kind(b"\\x1c\\x02\\x78\\x00\\x04Vase")
    'iptc'
    """
    octets = block if type(block) is bytes else _copied(block)
    number = library().check(octets)
    if isinstance(number, tuple):
        _raise(number, octets)
    return _KINDS[number]


@in_c
def normal(block: Octets) -> bytes:
    """The block's normal form: the same bytes for all blocks that mean the same. Raises Refused if the block breaks the rules,
    NormalTooLong if the form would be longer than `LIMIT`, and MemoryError.

    Use a normal form only to compare or to digest. Offsets inside a MakerNote may be invalid in it: keep the original.

    >>> normal(b"\\x1c\\x02\\x78\\x80\\x04\\x00\\x00\\x00\\x04Vase\\x00")
    b'\\x1c\\x02x\\x00\\x04Vase'
    """
    octets = block if type(block) is bytes else _copied(block)
    form = library().normalise(octets)
    if isinstance(form, tuple):
        _raise(form, octets)
    return form


def embeddable(block: Octets) -> bytes:
    """The bytes of an Exif block as the segment of a JPEG has them, which Pillow's ``exif=`` and `piexif.insert` take: the six
    bytes ``Exif\\0\\0``, if the block doesn't begin with them, and the block as it is.

    Embed a block, and not its normal form, in which offsets inside a MakerNote may be invalid. Raises Refused if the block
    breaks the rules, ValueError if it is one of IPTC, and MemoryError.

    >>> embeddable(bytes.fromhex("4d4d002a00000008 0001 0112 0003 00000001 00060000 00000000"))[:10]
    b'Exif\\x00\\x00MM\\x00*'
    """
    octets = block if type(block) is bytes else _copied(block)
    if kind(octets) != EXIF:
        raise ValueError("a block of IPTC is expected in a Photoshop resource, and only one of Exif has this prefix")
    return octets if octets.startswith(_PREFIX) else _PREFIX + octets


def digest(block: Octets, algorithm: str = "sha256") -> str:
    """The digest of the block's normal form in hexadecimal digits: the same for all blocks that mean the same. The algorithm is
    one of hashlib's with digests of a fixed length; any other name raises ValueError. Raises what `normal` raises, so a block
    that is refused has no digest.

    >>> digest(b"\\x1c\\x02\\x78\\x80\\x04\\x00\\x00\\x00\\x04Vase") == digest(b"\\x1c\\x02\\x78\\x00\\x04Vase")
    True
    """
    import hashlib  # which few calls need

    counted = hashlib.new(algorithm)
    if not counted.digest_size:
        raise ValueError(f"digests of {algorithm} have no length of their own")
    counted.update(normal(block))
    return counted.hexdigest()


def same(first: Octets, second: Octets) -> bool:
    """Whether two blocks mean the same. It doesn't matter whether their normal forms can be written. Raises Refused if one of
    them breaks the rules, with its number 1 or 2 as `side`, and MemoryError.

    >>> same(b"\\x1c\\x02\\x78\\x00\\x04Vase", b"\\x1c\\x02\\x78\\x00\\x03Urn")
    False
    """
    left = first if type(first) is bytes else _copied(first)
    right = second if type(second) is bytes else _copied(second)
    number = library().compare(left, right)
    if isinstance(number, tuple):
        side = 2 if number[0] == Status.SECOND_REFUSED else 1
        _raise(number, right if side == 2 else left, side)
    return number == 1


def show(block: Octets) -> str:
    """The listing of the block, a line for each directory, field and DataSet, as the command `exifnorm show` prints it.
    Raises Refused if the block breaks the rules, and MemoryError.

    >>> print(show(b"\\x1c\\x02\\x78\\x00\\x04Vase"), end="")
    iim
    2:120 4: 56617365
    """
    octets = block if type(block) is bytes else _copied(block)
    listing = library().show(octets)
    if isinstance(listing, tuple):
        _raise(listing, octets)
    return listing.decode("ascii")


def captions_text(block: Octets) -> str:
    """The text that the command `exifnorm captions` prints.

    >>> captions_text(b"\\x1c\\x02\\x78\\x00\\x04Vase").splitlines()
    ['iim', 'charset: not declared', 'caption: Vase']
    """
    octets = block if type(block) is bytes else _copied(block)
    text = library().captions(octets)
    if isinstance(text, tuple):
        _raise(text, octets)
    return text.decode("ascii")
