"""The bytes that the files of cases encode.

A string is the name of a block of cases/blocks.json or of its own file, or hexadecimal digits with spaces wherever they help to read. A list is
its parts, one after the other. A part is one of these:

    "4D4D 002A"                            a string, as above
    {"cut": STRING, "to": N}               the first N bytes of it
    {"repeat": STRING, "times": N}         it, N times
    {"series": N, "of": [..]}              for i from 0 to N - 1 the parts in brackets, where a part
                                           {"start": S, "step": T, "width": W} is the number S + i * T in W bytes,
                                           most significant first
    {"characters": TEXT}                   the bytes of a text
"""


class Misspelled(Exception):
    """A file of cases that can't be read."""


def is_hexadecimal(text):
    try:
        bytes.fromhex(text)
    except ValueError:
        return False
    return True


class Blocks:
    """The named blocks of one file."""

    def __init__(self, spelled):
        self.spelled = spelled
        self.made = {}
        for name in spelled:
            if is_hexadecimal(name):
                raise Misspelled(f"the name of the block {name!r} reads as digits")

    def bytes_of(self, spelling):
        if isinstance(spelling, str):
            return self.named(spelling)
        return b"".join(map(self.part, spelling))

    def named(self, text):
        if text not in self.spelled:
            if not is_hexadecimal(text):
                raise Misspelled(f"{text!r} is neither a block nor hexadecimal digits")
            return bytes.fromhex(text)
        if text not in self.made:
            self.made[text] = self.bytes_of(self.spelled[text])
        return self.made[text]

    def part(self, part):
        if isinstance(part, str):
            return self.named(part)
        if "cut" in part:
            return self.named(part["cut"])[: part["to"]]
        if "repeat" in part:
            return self.named(part["repeat"]) * part["times"]
        if "series" in part:
            return b"".join(self.numbered(it, i) for i in range(part["series"]) for it in part["of"])
        if "characters" in part:
            return part["characters"].encode()
        raise Misspelled(f"no part of bytes: {part}")

    def numbered(self, part, i):
        if isinstance(part, dict) and "start" in part:
            return (part["start"] + i * part["step"]).to_bytes(part["width"], "big")
        return self.part(part)
