"""Blocks with few faults: known ones with random changes."""

from random import Random

NUMBERS = [0, 1, 2, 3, 4, 5, 7, 8, 9, 12, 26, 129, 0x7FFF, 0x8000, 0x8001, 0x8004, 0x8769, 0xFFFF, 0x7FFFFFFF, 0xFFFFFFFF]


def place(octets: bytearray, chance: Random) -> int:
    """An offset, more often near the start, where tables are, and seldom in the header and the first count."""
    first = 10 if len(octets) > 20 and chance.random() < 0.9 else 0
    return first + int((len(octets) - first) * chance.random() ** 2)


def one_bit(octets: bytearray, chance: Random) -> None:
    octets[place(octets, chance)] ^= 1 << chance.randrange(8)


def one_byte(octets: bytearray, chance: Random) -> None:
    octets[place(octets, chance)] = chance.choice((0, 1, 4, 0x1C, 0x80, 0xFF, chance.randrange(256)))


def one_number(octets: bytearray, chance: Random) -> None:
    at, width, order = place(octets, chance), chance.choice((2, 4)), chance.choice(("big", "little"))
    end = len(octets)
    number = chance.choice((*NUMBERS, end - 1, end, end + 1, chance.randrange(end + 1)))
    octets[at : at + width] = (number % 256**width).to_bytes(width, order)


def a_cut(octets: bytearray, chance: Random) -> None:
    del octets[len(octets) - 1 - int(len(octets) * chance.random() ** 3) :]


def a_part_taken_away(octets: bytearray, chance: Random) -> None:
    at = place(octets, chance)
    del octets[at : at + chance.choice((1, 2, 4, 12))]


def a_part_put_in(octets: bytearray, chance: Random) -> None:
    at = place(octets, chance)
    octets[at:at] = chance.randbytes(chance.choice((1, 2, 4, 12)))


def a_part_copied(octets: bytearray, chance: Random) -> None:
    source, target, size = place(octets, chance), place(octets, chance), chance.choice((2, 4, 8, 12))
    octets[target : target + size] = octets[source : source + size]


CHANGES = [one_bit, one_byte, one_number, one_number, a_cut, a_part_taken_away, a_part_put_in, a_part_copied]


def changed(block: bytes, chance: Random) -> bytes:
    """The block with one change or a few. It is not empty."""
    octets = bytearray(block)
    for _ in range(chance.choice((1, 1, 1, 2, 3))):
        chance.choice(CHANGES)(octets, chance)
        octets = octets or bytearray(block)
    return bytes(octets)
