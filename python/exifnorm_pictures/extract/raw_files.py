"""The raw pictures of cameras, by the ending of their name, which is also ExifTool's word for their type in small letters."""

# With the structure of a TIFF, and read here
READ = "dng nef cr2 arw srw orf pef rw2".split()
# With that structure too, and left to ExifTool and exiv2: the offsets of some aren't those of a TIFF
LEFT = "nrw arq sr2 srf rwl 3fr iiq erf mef mos dcr kdc k25 gpr fff raw".split()
# Of another structure
OTHERS = "cr3 crw raf mrw x3f".split()

ALL = (*READ, *LEFT, *OTHERS)
_LEFT = frozenset(it.encode("ascii") for it in LEFT)


def is_left(name: bytes) -> bool:
    """Whether a file with this name is left to other programs.

    >>> is_left(b"a.IIQ"), is_left(b"a.nef"), is_left(b"raw")
    (True, False, False)
    """
    _, dot, ending = name.rpartition(b".")
    return bool(dot) and ending.lower() in _LEFT
