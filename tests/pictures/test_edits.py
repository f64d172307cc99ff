"""Edits: what was taken out and put in, and the groups of pictures that were edited alike."""

import csv
import json
import os
import re
import shutil
import subprocess
from collections import Counter

import pytest
from exact_fields import field
from hypothesis import given, strategies as st
from studio import SMALL_JPEG, needs, tool

from exifnorm_pictures.cli import changed_tables as page
from exifnorm_pictures.comparison.changed import edit_groups, summary
from exifnorm_pictures.comparison.changed.edit_groups import Kinds
from exifnorm_pictures.comparison.changed.edits import edits_of, line_of
from exifnorm_pictures.comparison.changed.states import Compared
from exifnorm_pictures.comparison.changed.summary import lacking_of
from exifnorm_pictures.comparison.wording import Marker, differences, look
from exifnorm_pictures.model.texts import Result, safe
from exifnorm_pictures.model.verdicts import Verdict


def one(where, key, kind, *values):
    return [field(where, key, kind, len(it), f'"{it}"') for it in values]


def caption(text):
    return one("iptc", "2:120", "octets", text) + one("xmp", "dc:description", "text", text) if text else []


def keywords(*texts):
    return one("iptc", "2:25", "octets", *texts)


def taken(*times):
    return [
        it
        for where, key, text in times
        for it in one(where, key, "octets" if where == "iptc" else "text" if where == "xmp" else "ASCII", text)
    ]


def lines(before, after, has_parts=True):
    """The edits in words. A field that both have keeps a block from being one that came or went."""
    beside = one("iptc", "2:0", "octets", "x") + one("xmp", "x:y", "text", "x") + one("main", "010f", "ASCII", "x")
    beside += one("exif", "9000", "ASCII", "x") + one("gps", "0000", "ASCII", "x")
    return [line_of(it, True) for it in edits_of(differences(before + beside, after + beside), has_parts).values()]


@pytest.mark.parametrize(
    "before, after, text",
    [
        ("a vase, signed", "a vase, signed, recto", "caption (IPTC, XMP): a vase, signed{+, recto+}"),
        ("vase of 1943", "vase of 1093", "caption (IPTC, XMP): vase of [-1943-]{+1093+}"),
        ("a vase", "", "caption (IPTC, XMP) removed: [-a vase-]"),
        ("", "a vase", "caption (IPTC, XMP): {+a vase+}"),
        ("青花瓷瓶", "青花瓷瓶正面", "caption (IPTC, XMP): 青花瓷瓶{+正面+}"),
        ("Anna Wirth in Rome", "Mei Lin in Rome", "caption (IPTC, XMP): [-Anna Wirth-]{+Mei Lin+} in Rome"),
    ],
)
def test_a_text_is_one_edit_in_all_standards(before, after, text):
    assert lines(caption(before), caption(after)) == [text]


EARLIER = [
    ("exif", "9003", "2020:01:31 23:10:00"),
    ("exif", "9004", "2020:01:31 23:10:00"),
    ("xmp", "xmp:CreateDate", "2020-01-31T23:10:00+01:00"),
]
LATER = [
    ("exif", "9003", "2020:02:01 00:10:00"),
    ("exif", "9004", "2020:02:01 00:10:00"),
    ("xmp", "xmp:CreateDate", "2020-02-01T00:10:00+01:00"),
]
IPTC = [("iptc", "2:55", "20200131"), ("iptc", "2:60", "231000+0100")], [("iptc", "2:55", "20200201"), ("iptc", "2:60", "001000+0100")]


def test_all_dates_that_move_alike_are_one_edit():
    """Over midnight, too, where IPTC has the day and the time in two DataSets."""
    (line,) = lines(taken(*EARLIER, *IPTC[0]), taken(*LATER, *IPTC[1]))
    assert (
        line.startswith("dates (")
        and "1 h later: " in line
        and {"DateTimeOriginal", "CreateDate", "TimeCreated"} <= set(line.partition("(")[2].partition(")")[0].split(", "))
    )
    (line,) = lines(taken(("iptc", "2:60", "101000+0100")), taken(("iptc", "2:60", "111000+0100")))
    assert "1 h later" in line
    (line,) = lines(taken(("iptc", "2:60", "101000+0100")), taken(("iptc", "2:60", "111000+0200")))
    assert "later" not in line, "with another zone the difference isn't known"


# Laws

TEXTS = st.text("ab ,1é京\u0301", max_size=12)


@given(TEXTS, TEXTS)
def test_an_edit_of_the_earlier_text_gives_the_later_one(before, after):
    steps = Marker().script(before, after)
    assert "".join(it.text for it in steps if it.sign != "+") == before
    assert "".join(it.text for it in steps if it.sign != "-") == after
    assert all(it.text for it in steps) and all(one.sign != other.sign for one, other in zip(steps, steps[1:]))


MEMBERS = st.lists(st.text("ab1é", min_size=1, max_size=4), max_size=6)


@given(MEMBERS, MEMBERS)
def test_an_edit_of_the_earlier_list_gives_the_later_one(before, after):
    edits = [it for it in edits_of(differences(keywords(*before), keywords(*after)), False).values() if it.is_list and not it.note]
    for edit in edits:
        out, put = ([it.text for it in edit.steps if it.sign == sign] for sign in "-+")
        left = list(before)
        for it in out:
            left.remove(it)
        assert sorted(left + put) == sorted(after)


CHANGES = st.lists(
    st.tuples(st.sampled_from(["", "a vase", "a bowl, 1820"]), st.sampled_from(["", "a vase, recto", "a bowl, 1280", "x"])),
    min_size=1,
    max_size=40,
)


def grouped(pictures):
    """The pictures of each group, by the kinds that `add` returns."""
    kinds, of_kind = Kinds(), {}
    for name, (before, after) in pictures:
        of_kind.setdefault(kinds.add(name, differences(caption(before), caption(after))), []).append(name)
    groups = kinds.groups()
    assert kinds.further == 0 and [it.pictures for it in groups] == sorted(it.pictures for it in groups)
    found = [sorted(name for kind in group.kinds for name in of_kind[kind]) for group in groups]
    assert [len(it) for it in found] == [it.pictures for it in groups]
    return sorted(found), sorted(of_kind.get(0, []))


@given(CHANGES, st.randoms(use_true_random=False))
def test_each_picture_is_in_one_group_in_any_order(changes, by_chance):
    pictures = [(b"%02d.jpg" % number, it) for number, it in enumerate(changes)]
    groups, unchanged = grouped(pictures)
    assert sorted([name for group in groups for name in group] + unchanged) == [name for name, _ in pictures]
    by_chance.shuffle(pictures)
    assert grouped(pictures) == (groups, unchanged)


def test_numbers_that_are_only_written_otherwise_come_last():
    """However few pictures have them: nothing was edited there."""
    kinds = Kinds()
    for number in range(9):
        texts = caption("a vase"), caption("a vase, recto")
        numbers = ([field("exif", "829a", "RATIONAL", 1, it)] for it in ("1/2", "2/4"))
        kinds.add(b"%d" % number, differences(*(numbers if number < 2 else texts)))
    assert [line_of(it.edits[0]) for it in kinds.groups()] == [
        "caption (IPTC, XMP): .. {+, recto+}",
        "equal numbers (Exif) written otherwise",
    ]


def test_memory_has_a_limit(monkeypatch):
    monkeypatch.setattr(edit_groups, "KINDS", 20)
    kinds = Kinds(most_names=3)
    for number in range(100):
        for text in (f"{number} {'x' * 10_000}", f"{number} {'y ' * 10_000}"):
            kinds.add(b"%d" % number, differences(caption("a vase"), caption(text)))
    assert len(kinds.kinds) == 20 and kinds.further == 180
    assert max(len(step.text) for kind in kinds.kinds for one in kind.edits for step in one.edit.steps) < 400
    assert sum(it.pictures for it in kinds.groups()) == 20


def test_a_strangers_fields_are_limited():
    changes = differences([], [one("xmp", f"x:f{number}", "text", "a")[0] for number in range(2000)])
    edits = [*edits_of(changes, False).values()]
    assert len(edits) <= 101
    other = differences([], [one("xmp", f"x:f{number}", "text", "b" if number == 1998 else "a")[0] for number in range(2000)])
    kinds = Kinds(False)
    assert [kinds.add(b"p", it) for it in (changes, other, changes)] == [1, 2, 1], "further edits are one only if all are equal"


WORDS = st.lists(
    st.sampled_from(["vase", "bowl", " ", "\u00a0", "é", "e\u0301", "\u200b", "-]{+", "+}", "7", "x" * 400]), min_size=1, max_size=4
)


@given(st.lists(st.tuples(WORDS, WORDS), min_size=2, max_size=6))
def test_edits_that_differ_never_look_alike(texts):
    """Whatever characters don't show, and whatever brackets a text has."""
    kinds = Kinds()
    for number, (before, after) in enumerate(texts):
        kinds.add(b"%d" % number, differences(caption("".join(before)), caption("".join(after))))
    groups = kinds.groups()
    shown = [look(safe("\n".join(it.words()))) for it in groups]
    assert len(set(shown)) == len(groups)


def test_a_picture_that_was_not_edited_in_a_standard_that_it_has_is_named():
    """Where the others of its group were."""
    found = summary.Summary(most_names=3)
    for number in range(9):
        texts = (caption(it)[: 1 if number in (4, 6) else 2] for it in ("vase", "bowl"))
        has_xmp = Verdict("xmp", Result.ABSENT if number == 6 else Result.SAME)
        verdicts = (Verdict("iptc", Result.DIFFERENT), has_xmp)
        found.add(Compared(b"%d.jpg" % number, Result.DIFFERENT, changes=differences(*texts), verdicts=verdicts))
    (group,) = found.kinds.groups()
    assert [it.line for it in lacking_of(group)] == ["caption not edited in the XMP of 4.jpg"]


# ---- The summary of `changed`: what changed by field and by value, with the number of pictures.


@pytest.fixture
def run(called):
    """Runs a command in the test's folder: its status and its lines."""

    def call(*words):
        status, out, _ = called(*words)
        return status, out.splitlines()

    return call


# Beside ExifTool

BEFORE = [
    {"Artist": "Anna", "DateTimeOriginal": "2020:01:31 23:10:00", "Keywords": "clay"},
    {"Artist": "Anna", "DateTimeOriginal": "2021:02:28 10:00:00", "Title": "Vase"},
    {"Artist": "Otto", "DateTimeOriginal": "2019:12:31 23:59:59", "Keywords": "clay"},
    {"DateTimeOriginal": "2022:07:01 00:00:00", "Title": "Krug"},
    {"Copyright": "Museum"},
    {"Title": "Bowl", "Keywords": "bowl"},
]
GROUPS = {"Artist": "IFD0", "Copyright": "IFD0", "DateTimeOriginal": "ExifIFD", "Keywords": "IPTC", "Title": "XMP-dc"}


@pytest.fixture
def archive(folder):
    """The folders `before` and `after` with pictures that ExifTool has written."""
    (folder / "before").mkdir()
    with open(folder / "values.csv", "w", newline="") as file:
        table = csv.DictWriter(file, ["SourceFile", *(f"{group}:{tag}" for tag, group in GROUPS.items())])
        table.writeheader()
        for number, values in enumerate(BEFORE):
            name = f"before/{number}.jpg"
            (folder / name).write_bytes(SMALL_JPEG)
            table.writerow({"SourceFile": name, **{f"{GROUPS[tag]}:{tag}": it for tag, it in values.items()}})
    tool(folder, "exiftool", "-q", "-overwrite_original", "-csv=values.csv", "before")
    shutil.copytree(folder / "before", folder / "after")
    return folder


def of_exiftool(folder):
    """The tags of each picture as ExifTool prints them."""
    done = subprocess.run(["exiftool", "-j", "-G1", "-a", "-XMP:all", "-EXIF:all", "-IPTC:all", folder], capture_output=True, check=True)
    return {os.path.basename(it.pop("SourceFile")): it for it in json.loads(done.stdout)}


EDITS = {
    "changed_one": ["-EXIF:Artist=Otto"],
    "three": ["-EXIF:Artist=Otto", "-EXIF:Copyright=Museum", "-IPTC:Keywords+=vase"],
    "dates": ["-DateTimeOriginal+=0:0:0 1:30:0"],
    "removed": ["-IPTC:Keywords=", "-XMP-dc:Title="],
    "everything": ["-all="],
}


SAID = {
    "changed_one": (["creator (Exif): {+Otto+}"], 5),  # in all but changed_one, of which it is the creator already
    "dates": (["dates (DateTimeOriginal): 1 h 30 min later"], 4),
}


@needs("exiftool")
@pytest.mark.parametrize("edit", EDITS)
def test_the_counts_are_those_of_exiftool(edit, archive, run):
    """As many pictures are in groups as ExifTool prints other values of, and a batch is changed_one group, whatever was there before."""
    tool(archive, "exiftool", "-q", "-m", "-overwrite_original", *EDITS[edit], "after")
    before, after = of_exiftool(archive / "before"), of_exiftool(archive / "after")
    status, lines = run("changed", "before", "after")
    assert status == 1 and len(lines) <= page.LINES
    heads = [
        int(it[1].replace(",", ""))
        for it in (re.match(r"([\d,]+) pictures?(?: \(edit \d+\)| changed like no other)?:", line) for line in lines)
        if it
    ]
    assert sum(heads) == sum(tags != after[name] for name, tags in before.items())
    if edit in SAID:
        said, count = SAID[edit]
        assert f"{count} pictures (edit 1): {said[0]}" in lines, lines


# Words


def changed_one(where, key, kind, *values):
    return [field(where, key, kind, len(it), it) for it in values]


# Limits


def everything(number):
    """Fields that no two pictures have alike."""
    return [field("xmp", f"{prefix}:f{number}-{it}", "text", 1, f'"{number}"') for prefix in "abcdefgh" for it in range(50)]


def test_no_page_is_longer_than_30_lines(folder):
    """However many edits and results there are; each result has changed_one line."""
    for alone in (True, False):
        found, counts = summary.Summary(), Counter()
        for number, result in enumerate([*Result] * 3):
            of_group = number if alone else number // 3
            changes = differences(everything(of_group), everything(of_group + 1))
            found.add(
                Compared(b"%d" % number, result, changes=[it._replace(part=f"page {number}" if number % 2 else "") for it in changes])
            )
            counts[result] += 1
        assert len(list(page.lines(found, counts))) <= len(Result) + 80
    for alone in (True, False):
        found, counts = summary.Summary(), Counter({Result.DIFFERENT: 60})
        for number in range(60):
            texts = (f'"a vase, {number}"', f'"{"y " * (number if alone else number // 2)}a vase, {number}"')
            found.add(
                Compared(b"%02d" % number, Result.DIFFERENT, changes=differences(*(changed_one("xmp", "x:y", "text", it) for it in texts)))
            )
        assert 5 <= len(list(page.lines(found, counts))) <= page.LINES
