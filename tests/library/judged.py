"""The blocks of all cases, and the result of each call for them by the independent reader of the format (tests/blocks/reading.py)."""

import functools
from dataclasses import dataclass

from cases import Sweep, read_all
from commands import TOP
from meanings import LIMIT, Record
from reading import CAUSES, Fault, said

CASES = TOP / "tests" / "program"
NAMES = list(CAUSES)  # of the causes; their numbers count from 1
LARGE = 40_000  # blocks of more bytes are called less often


@dataclass
class Judged:
    """A block: its kind and its texts, or the fault for which it is refused."""

    block: bytes
    kind: str = ""
    fault: tuple = ()  # cause and place
    whole_form: bytes = b""  # also if it is longer than a form may be
    listing: str = ""
    captions: str = ""

    @property
    def form(self):
        """The form that is written, or None."""
        return self.whole_form if self.kind and len(self.whole_form) <= LIMIT else None


def judged(block):
    """
    >>> judged(b"no block").fault
    ('UnknownKind', 0)
    """
    try:
        meaning = said(block)
    except Fault as why:
        return Judged(block, fault=why.args)
    kind = "iim" if isinstance(meaning, Record) else "exif"
    return Judged(block, kind, (), meaning.normal(), meaning.listing(), meaning.captions())


def blocks_of_cases():
    """Each block that a case reads, and one for each cause, once: small ones and those of many bytes. Of a sweep over many blocks some
    forty are taken, as every byte of the worked blocks is changed elsewhere."""
    found = dict.fromkeys(block for block, _ in CAUSES.values())
    for case in read_all(CASES):
        if isinstance(case, Sweep):
            found.update(dict.fromkeys(case.blocks if len(case.blocks) < 300 else case.blocks[:: len(case.blocks) // 40]))
        elif not case.endless:
            found.update(dict.fromkeys([case.input, *(it for name, it in case.files.items() if name != "OUT")]))
    return list(found)


@functools.lru_cache(maxsize=None)
def all_judged(are_large):
    """The small blocks or the large ones, and their normal forms."""
    found = [judged(it) for it in blocks_of_cases() if (len(it) >= LARGE) == are_large]
    known = {it.block for it in found}
    forms = dict.fromkeys(it.form for it in found if it.form is not None and it.form not in known)
    return found + [judged(it) for it in forms]


def pairs(blocks):
    """The numbers of blocks that are compared: each with its neighbour and with its normal form, and some with themselves."""
    numbers = {it.block: at for at, it in enumerate(blocks)}
    found = [(at, (at + 1) % len(blocks)) for at in range(len(blocks))] + [(at, at) for at in range(0, len(blocks), 7)]
    found += [(at, numbers[it.form]) for at, it in enumerate(blocks) if it.form is not None]
    return list(dict.fromkeys(found))
