"""Calls the library from Python with the blocks of all cases, and with random changes. The independent reader judges each block (judged.py)."""

from random import Random

import pytest

import exifnorm
from changed import changed
from judged import all_judged, judged, pairs
from kinds import small_kinds
from small_blocks import normal, outcome
from test_fields import lines_of_field, lines_of_listing


def expected_of(call, it):
    """The expected outcome of a call of the package."""
    if it.fault:
        return ("Refused", *it.fault, None)
    if call is normal:
        return ("NormalTooLong",) if it.form is None else it.form
    return {exifnorm.kind: it.kind.replace("iim", "iptc"), exifnorm.show: it.listing}[call]


def expected_of_two(first, second):
    if first.fault or second.fault:
        return ("Refused", *(first.fault or second.fault), 1 if first.fault else 2)
    return first.whole_form == second.whole_form


def escaped(data):
    return "".join(chr(it) if 0x20 <= it <= 0x7E and it != 0x5C else f"\\{it:02x}" for it in data)


def caption_lines(captions):
    return [f"{it.label}: {escaped(it.data)}" for it in captions]


@pytest.mark.xdist_group("calls from Python")
@pytest.mark.parametrize("are_large", [False, True], ids=["small", "large"])
class TestInPython:
    def test_kinds_forms_and_listings(self, way, are_large):
        for it in all_judged(are_large):
            for call in (exifnorm.kind, normal, exifnorm.show):
                assert outcome(call, it.block) == expected_of(call, it), (call.__name__, it.block[:200])

    @pytest.mark.parametrize("way", ["extension"], indirect=True)  # the code that makes objects is the same in both
    def test_fields_and_captions(self, way, are_large):
        for it in all_judged(are_large):
            if it.fault:
                assert outcome(exifnorm.fields, it.block) == outcome(exifnorm.captions, it.block) == ("Refused", *it.fault, None)
                continue
            lines = [line for field in exifnorm.fields(it.block) for line in lines_of_field(field)]
            assert lines == [*lines_of_listing(it.listing)], it.block[:200]
            texts = [line for line in it.captions.splitlines()[1:] if not line.startswith("charset: ")]
            assert caption_lines(exifnorm.captions(it.block)) == texts, it.block[:200]

    def test_comparisons(self, way, are_large):
        blocks = all_judged(are_large)
        for first, second in ((blocks[one], blocks[other]) for one, other in pairs(blocks)):
            assert outcome(exifnorm.same, first.block, second.block) == expected_of_two(first, second), (
                first.block[:200],
                second.block[:200],
            )


# ---- changed blocks


SHORT_BLOCKS = [block for kind in small_kinds() for block in (*kind.blocks, kind.meaning.normal()) if len(block) < 2000]


def test_changed_blocks():
    """Each, and beside the one before it."""
    chance = Random(1)
    blocks = [judged(changed(chance.choice(SHORT_BLOCKS), chance)) for _ in range(2000)]
    for one, other in zip(blocks, blocks[1:]):
        assert outcome(normal, one.block) == expected_of(normal, one), one.block.hex()
        assert outcome(exifnorm.same, one.block, other.block) == expected_of_two(one, other), (one.block.hex(), other.block.hex())
