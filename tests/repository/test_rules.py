"""Tests that docs/FORMAT.md, the Python package and the blocks of the tests have the types and the roles of tags of the definitions."""

import re
from pathlib import Path
from typing import Dict, List, Set, Tuple

import meanings
import pytest
import reading
from exifnorm import _forms

TOP = Path(__file__).resolve().parent.parent.parent
FORMS, ROLES, FORMAT = "crates/px_field/specs/Forms.antt", "crates/px_meaning/specs/Roles.antt", "docs/FORMAT.md"
# the directories of the definitions, by their names in the listing and in the format's table of roles
DIRECTORIES = {"Main": "main", "Exif": "exif", "Interop": "interop", "Gps": "gps", "Thumb": "thumb"}
IN = {"main": "Main", "Exif": "Exif", "thumbnail": "Thumb"}
# the roles of the definitions, by their texts in that table
MEANT = {
    "strip offsets": "StripOffsets",
    "strip lengths": "StripLengths",
    "JPEG offset": "JpegOffset",
    "JPEG length": "JpegLength",
    "leads to the Exif directory": "To Exif",
    "leads to the GPS directory": "To Gps",
    "leads to the Interoperability directory": "To Interop",
}
Types = Dict[int, Tuple[str, int]]  # the name of a type, without hyphens, and the bytes of an element, by its number
Roles = Dict[Tuple[str, int], str]  # the role of a tag in a directory


def text_of(name: str) -> str:
    return (TOP / name).read_text(encoding="utf-8")


def section(title: str) -> str:
    """A section of the format."""
    return text_of(FORMAT).split(f"\n### {title}\n")[1].split("\n#")[0]


def types_defined(text: str) -> Types:
    """The types of the definitions.

    >>> types_defined("code Byte = 1\\ncode Long = 4\\nsize Long = 4\\nsize _ = 1\\n")
    {1: ('BYTE', 1), 4: ('LONG', 4)}
    """
    size = dict(re.findall(r"^size (\w+) = (\d+)$", text, re.M))
    return {int(number): (name.upper(), int(size.get(name, size["_"]))) for name, number in re.findall(r"^code (\w+) = (\d+)$", text, re.M)}


def types_listed(text: str) -> Types:
    """The types of the format's table, which has two in a row.

    >>> types_listed("| 1 | BYTE | 1 | 129 | UTF-8 | 1 |")
    {1: ('BYTE', 1), 129: ('UTF8', 1)}
    """
    found = re.findall(r"(?<=\| )(\d+) \| ([A-Z][\w-]*) \| (\d+)(?= \|)", text)
    return {int(number): (name.replace("-", ""), int(size)) for number, name, size in found}


def tags_defined(text: str) -> Dict[str, int]:
    """The tags of the definitions, by name."""
    return {name: int(tag, 16) for name, tag in re.findall(r"^(\w+_tag) = (0x[0-9A-F]{4})$", text, re.M)}


def roles_defined(text: str) -> Roles:
    """The roles that tags have in single directories."""
    tags, found = tags_defined(text), {}
    for directory in DIRECTORIES:
        rows = re.search(rf"^special {directory} =(.*?)\[\]$", text, re.M | re.S)[1]
        found.update({(directory, tags[name]): role for name, role in re.findall(r"\((\w+), (\w+(?: \w+)?)\)", rows)})
    return found


def offsets_defined(text: str) -> Set[int]:
    """The tags that are forbidden in each directory in which they have no role."""
    tags, rows = tags_defined(text), re.search(r"^offset_tags =(.*?)\[\]$", text, re.M | re.S)[1]
    return {tags[name] for name in re.findall(r"\((\w+), Forbidden\)", rows)}


def rows_of_roles(text: str) -> List[List[str]]:
    """The rows of the format's table of roles: tag, name, role, directory.

    >>> rows_of_roles("| `0x0120` | FreeOffsets | none | nowhere |")
    [['0120', 'FreeOffsets', 'none', 'nowhere']]
    """
    return [list(it) for it in re.findall(r"^\| `0x([0-9A-F]{4})` \| ([^|]+) \| ([^|]+) \| ([^|]+) \|$", text, re.M)]


def widened_listed(text: str) -> Set[Tuple[str, int]]:
    """The widened tags of the format, each with its directory.

    >>> sorted(widened_listed("At A `0x0100` and B `0x0101` in the main and thumbnail directories, and at C `0xA002` in the Exif directory"))
    [('Exif', 40962), ('Main', 256), ('Main', 257), ('Thumb', 256), ('Thumb', 257)]
    """
    found = set()
    for part in re.split(r" director(?:y|ies)\b", text):
        tags, _, directories = part.rpartition(" in the ")
        found |= {(IN[it], int(tag, 16)) for tag in re.findall(r"`0x(\w+)`", tags) for it in directories.split(" and ")}
    return found


class TestRules:
    """Rules that are written down in several places."""

    @pytest.fixture(autouse=True)
    def set_up(self) -> None:
        self.roles, self.offsets = roles_defined(text_of(ROLES)), offsets_defined(text_of(ROLES))

    def test_types(self) -> None:
        defined = types_defined(text_of(FORMS))
        assert defined
        assert types_listed(section("Types")) == defined
        assert {number: it[:2] for number, it in _forms._TYPES.items()} == defined
        assert {number: it[:2] for number, it in meanings.TYPES.items()} == defined

    def test_roles_in_the_format(self) -> None:
        rows = rows_of_roles(section("Roles of tags"))
        assert [int(it[0], 16) for it in rows if it[3] == "nowhere"] == sorted(self.offsets - {tag for _, tag in self.roles})
        listed = {(IN[it[3]], int(it[0], 16)): MEANT[it[2]] for it in rows if it[3] != "nowhere"}
        assert listed == {place: role for place, role in self.roles.items() if role not in ("Widened", "Record")}
        assert {int(it[0], 16) for it in rows} == self.offsets

    def test_widened_tags(self) -> None:
        defined = {place for place, role in self.roles.items() if role == "Widened"}
        assert widened_listed(section("Widened tags")) == defined
        named = {(DIRECTORIES[directory], tag) for directory, tag in defined}
        for whole in (_forms._WHOLE, meanings.WIDENED):
            assert {(directory, tag) for directory, tags in whole.items() for tag in tags} == named

    def test_other_roles_in_python(self) -> None:
        roles = {(DIRECTORIES[directory], tag): role for (directory, tag), role in self.roles.items() if role != "Widened"}
        leads = {place: DIRECTORIES[role[3:]] for place, role in roles.items() if role.startswith("To ")}
        assert _forms._POINTERS == leads
        assert {place: target for target, place in meanings.POINTERS.items()} == leads
        assert [place for place, role in roles.items() if role == "Record"] == [("main", _forms._RECORD)]
        assert _forms._RECORD == meanings.RECORD_TAG
        parts = {tag for (directory, tag), role in roles.items() if directory == "thumb"}
        assert _forms._PARTS == parts
        assert {meanings.STRIP_OFFSETS, meanings.STRIP_LENGTHS, meanings.JPEG_OFFSET, meanings.JPEG_LENGTH} == parts
        assert set(meanings.NOT_PLAIN) == self.offsets

    def test_labels_of_captions(self) -> None:
        rows = re.findall(r"^\| (\d+):(\d+) \| \1:(\d+) [^|]+ \| `([\w-]+)` \|$", section("Captions (`captions`)"), re.M)
        listed: Dict[Tuple[int, int], Dict[int, str]] = {}
        for record, group, number, label in rows:
            listed.setdefault((int(record), int(group)), {})[int(number)] = label
        assert list(listed.items()) == list(meanings.LABELS)
        fields = re.findall(r"`([a-z]+): ` \(`0x(\w{4})`\)", section("Captions (`captions`)"))
        assert fields
        block = meanings.Exif({int(tag, 16): meanings.Value(meanings.ASCII, label.encode()) for label, tag in fields})
        assert block.captions() == "".join(["exif\n", *(f"{label}: {label}\n" for label, _ in fields)])

    def test_groups(self) -> None:
        text = re.search(
            r"In record (\d+), DataSet (27) belongs to the group of (\d+), DataSets (47) and (50) to that of (\d+), and DataSet (85) to that of (\d+)\.",
            section("Groups"),
        )
        record, *numbers = map(int, text.groups())
        leaders = {numbers[0]: numbers[1], numbers[2]: numbers[4], numbers[3]: numbers[4], numbers[5]: numbers[6]}
        assert {(record, number): (record, leader) for number, leader in leaders.items()} == meanings.GROUP_OF

    def test_blocks_of_examples(self) -> None:
        """The bytes that the format shows, by the reader of the tests, which doesn't use them."""
        header, directory, entry = (octets_of(it) for it in ("Header", "Directory", "Entry"))
        value = octets_of("Value")
        assert header[0] == bytes.fromhex("4d4d002a00000008")
        assert entry[0] == directory[1]
        assert value[1] == directory[1]
        block = header[0] + directory[0] + directory[1] + directory[2] + value[2]
        assert reading.said(block).listing() == "exif\n[main]\n010e ASCII 5: 55726e7300\n"
        inline = header[0] + directory[0] + value[0] + directory[2]
        assert reading.said(inline).listing() == "exif\n[main]\n0112 SHORT 1: 1\n"
        records = octets_of("DataSets")
        assert [reading.said(it).listing() for it in records] == ["iim\n2:120 3: 616263\n"] * 2
        assert reading.said(records[1]).normal() == records[0]


def octets_of(title: str) -> List[bytes]:
    """The bytes in the examples of a section of the format, a line each; the lines have words around them."""
    found = []
    for line in re.findall(r"^    (?!byte)(?:at \d+)?(.*)$", section(title), re.M):
        digits = re.search(r"(?:\b[0-9A-F]{2}\b[ |]*){2,}", line)
        found += [bytes.fromhex(re.sub(r"[ |]", "", digits[0]))] if digits else []
    return found
