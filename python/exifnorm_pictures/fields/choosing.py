"""Fields that a comparison leaves out (`--ignore`), and fields to which it is restricted (`--only`)."""

from __future__ import annotations

import fnmatch
import re

from exifnorm._hints import Callable, Iterable, Iterator, Mapping, Sequence

from ..model.found import EXIF, IPTC, NAMES, XMP
from ..model.errors import WrongUse
from ..model.texts import Members, escaped
from .field import Field
from .field_names import EXIF_GROUPS, XMP_GROUPS, Names, asked_name, dictionary, is_possible, names_and_groups
from .listing import MAKER_NOTE, is_rest
from .names import group_name

# What programs change whenever they save a picture, whatever was edited: the dates of the last change, and the identifiers of that state
SAVES = tuple(
    "IFD0:ModifyDate IFD1:ModifyDate ExifIFD:SubSecTime ExifIFD:OffsetTime XMP-xmp:ModifyDate XMP-xmp:MetadataDate XMP-tiff:DateTime"
    " XMP-xmpMM:InstanceID XMP-xmpMM:History".split()
)
SETS = {"saves": SAVES}
CACHED, LONGEST_CACHED = 5000, 200  # fields whose decision is kept, and characters of such a field's key
MOST_LISTED = 1000  # fields that are listed as left out
MOST_NAMED = 20  # fields that a name is said to stand for

Test = Callable[[Names, Names, Names], bool]  # of the names of a field, of its groups, and of its names in other programs


class UnknownField(WrongUse):
    """A name that no field can have, and that no picture has."""


_WILD = "[*?]"


def fits_of(pattern: str) -> Test:
    """Whether a field has a name that fits a pattern, in this program or, of a pattern without wildcards, in another one. A group without a
    colon stands for all its fields.

    >>> keywords = names_and_groups("iptc", "2:25")
    >>> fits_of("iptc:*")(*keywords), fits_of("iptc")(*keywords), fits_of("I*")(*keywords)
    (True, True, False)
    """
    folded = pattern.casefold()
    if folded == "*":
        return lambda names, groups, others: True
    if not re.search(_WILD, folded):
        asked = asked_name(folded)
        return lambda names, groups, others: folded in names or folded in groups or asked in others
    compiled = _compiled(folded)
    return lambda names, groups, others: any(map(compiled.fullmatch, _of_form(folded, names)))


def _compiled(folded: str) -> "re.Pattern[str]":
    """A pattern as a regular expression that never goes back to an earlier star: names of properties are a stranger's, and may be megabytes."""
    return re.compile(fnmatch.translate(folded.replace("[", "[[]")))


def _of_form(folded: str, names: Iterable[str]) -> Iterator[str]:
    """The names that a pattern with wildcards may fit: with a group if it has one, and URIs, which begin like the namespace xmp, if it is one."""
    return (it for it in names if (":" in it) == (":" in folded) and ("<" in it) == ("<" in folded))


def is_of_several(pattern: str) -> bool:
    """Whether a pattern is meant for several fields: it has wildcards, or is a group."""
    return bool(re.search(_WILD, pattern)) or pattern.casefold() in {"iptc", "xmp", *EXIF_GROUPS, *XMP_GROUPS}


def ambiguous(named: Mapping[str, Iterable[str]]) -> dict[str, list[str]]:
    """The names that several fields of some pictures have, each with the names of these that no other
    field has; no patterns and groups, which are meant for several."""
    return {it: sorted({*fields}) for it, fields in named.items() if len({*fields}) > 1 and not is_of_several(it)}


def stands_for(name: str, fields: Sequence[str]) -> str:
    """What is said of a name that several fields have, or of a label.

    >>> stands_for("FNumber", ["ExifIFD:FNumber", "XMP-exif:FNumber"])
    'FNumber stands for ExifIFD:FNumber, XMP-exif:FNumber'
    """
    more = f" and {len(fields) - MOST_NAMED:,} more" if len(fields) > MOST_NAMED else ""
    return escaped(f"{name} stands for {', '.join(fields[:MOST_NAMED])}{more}")


def kinds_of(pattern: str) -> frozenset[str]:
    """The kinds of blocks that can have a field of a pattern.

    >>> sorted(kinds_of("GPS:*")), sorted(kinds_of("2:25")), sorted(kinds_of("dc:title")), len(kinds_of("Artist"))
    (['exif'], ['iptc'], ['xmp'], 3)
    """
    group, colon, _ = pattern.casefold().partition(":")
    group = next((kind for kind in NAMES if group.startswith(f"{kind}.")), group)  # as exiv2 has it
    if group in EXIF_GROUPS:
        return frozenset({EXIF})
    if group == "iptc" or (colon and group.isdigit()):
        return frozenset({IPTC})
    if group == "xmp" or group in XMP_GROUPS or group.startswith("xmp-"):
        return frozenset({XMP})
    return frozenset(NAMES)


def is_known(pattern: str) -> bool:
    """Whether pictures can have a field of a pattern."""
    if not re.search(_WILD, pattern):
        return is_possible(pattern)
    group, colon, _ = pattern.casefold().partition(":")
    if colon and (group in EXIF_GROUPS or group in XMP_GROUPS or group == "iptc" or group.isdigit()):
        return True
    return any(map(_compiled(pattern.casefold()).fullmatch, _of_form(pattern.casefold(), dictionary()[0])))


def hint(pattern: str) -> str:
    """The name that may be meant, in parentheses."""
    import difflib  # which takes long to import, and few runs need it

    from .labels import fields_by_label

    known = {it.casefold(): it for it in (*_in_group(pattern), *dictionary()[1], *SETS, *fields_by_label())}
    typed = pattern.casefold().replace(" ", "")  # in words, a field may be meant that begins so
    begun = [it for it in known if it.startswith(typed)] if " " in pattern.strip() else []
    near = begun or difflib.get_close_matches(typed, known, 1, 0.75)
    return f" (perhaps {known[near[0]]} is meant)" if near and near[0] != pattern.casefold() else ""


def _in_group(pattern: str) -> Iterator[str]:
    """The names that are printed, with the group of a pattern that has one, where these are names
    too."""
    names, printed = dictionary()
    group, colon, _ = pattern.partition(":")
    each = (f"{group}:{it}" for it in printed if colon and ":" not in it)
    return (it for it in each if it.casefold() in names)


def meant(name: str, names: Sequence[str]) -> str:
    """What a program may mean by a name that none of a picture's fields has, in parentheses: the text of a label, one of the picture's own names,
    or one of the standards.

    >>> meant("title", []), meant("IPTC:Keyword", ["IFD0:Model", "IPTC:Keywords"]), meant("Artst", []), meant("Artist", ["IFD0:Artisan"])
    (" (texts('title') has the texts of this label)", ' (perhaps IPTC:Keywords is meant)', ' (perhaps Artist is meant)', '')
    """
    from .labels import LABEL_WORDS, label_of

    label = label_of(name)
    if label in LABEL_WORDS:
        return f" (texts({label!r}) has the texts of this label)"
    if is_known(name):
        return ""
    import difflib

    own = {text.casefold(): text for whole in names[:MOST_LISTED] for text in (whole, whole.partition(":")[2])}
    near = difflib.get_close_matches(name.casefold(), own, 1, 0.75)
    return f" (perhaps {own[near[0]]} is meant)" if near else hint(name)


class Pattern:
    """A pattern, the set that it is of, whether a field fits it, and the names of those that do."""

    def __init__(self, text: str, test: Test, of_set: str = "") -> None:
        self.text, self.test, self.of_set = text, test, of_set
        self.is_seen = False
        self.names: set[str] = set()


def _patterns(words: Sequence[str]) -> list[Pattern]:
    """The patterns of the words of a command line, those of sets one by one. A label such as `creator` is a set of fields over Exif, IPTC and
    XMP, also where a field has the same name. Raises `UnknownField`."""
    if not words:
        return []
    from .labels import fields_by_label, label_of  # which loads the library

    patterns = []
    for word in dict.fromkeys(words):
        label = label_of(word)
        if word in SETS or label:
            patterns += [Pattern(one, fits_of(one), label or word) for one in (fields_by_label()[label] if label else SETS[word])]
        elif not word.strip():
            raise UnknownField("the name of a field is empty")
        else:
            patterns.append(Pattern(word, fits_of(word)))
    return patterns


class Choice:
    """The fields that count. It keeps which fields differ and were left out, and which patterns fit a field."""

    def __init__(self, ignore: Sequence[str] = (), only: Sequence[str] = (), equal_numbers: bool = False) -> None:
        self.ignore, self.only = _patterns(ignore), _patterns(only)
        self._patterns = (*self.ignore, *self.only)
        self.equal_numbers = equal_numbers  # count as equal
        self.left_out: dict[str, int] = {}  # fields that differ and were left out, and in how many pictures
        self.absent: list[str] = []  # words that fit no field of the pictures
        self.maker_notes = 0  # pictures with a MakerNote, if it may have what was asked for
        self.kinds = self._kinds()
        self._known: dict[tuple[str, str, str], bool] = {}

    def __bool__(self) -> bool:
        return bool(self.ignore or self.only or self.equal_numbers)

    def _kinds(self) -> frozenset[str]:
        """The kinds of blocks with fields that count. `Exif`, `IPTC` and `XMP` stand for whole blocks."""
        kinds = set().union(*(kinds_of(it.text) for it in self.only)) if self.only else set(NAMES)
        words = {it.text.casefold().removesuffix(":*") if it.text.casefold() != "xmp:*" else "" for it in self.ignore}
        return frozenset(it for it in kinds if NAMES[it].casefold() not in words and "*" not in words)

    @property
    def leaves_out_maker_notes(self) -> bool:
        """Whether MakerNotes don't count, and what only they lead to."""
        return bool(self) and not self.counts(*MAKER_NOTE)

    def counts(self, where: str, key: str, block: str = "") -> bool:
        """Whether a field counts. One that stands for more fields than are kept always does."""
        counts = self._known.get((where, key, block))
        if counts is None:
            counts = not self._patterns or self._decide(where, key, block)
            if len(self._known) < CACHED and len(key) < LONGEST_CACHED:
                self._known[where, key, block] = counts
        return counts

    def _decide(self, where: str, key: str, block: str) -> bool:
        names = names_and_groups(where, key, block)  # once for all patterns: they take longer than these
        ignored, wanted = ([it for it in some if it.test(*names)] for some in (self.ignore, self.only))
        for pattern in (*ignored, *wanted):
            pattern.is_seen = True
            if not pattern.of_set and len(pattern.names) < MOST_LISTED:
                pattern.names.add(group_name(where, key)[:LONGEST_CACHED])
        return is_rest(where, key) or (not ignored and (bool(wanted) or not self.only))

    def of(self, fields: Iterable[Field], block: str = "") -> list[Field]:
        """Those of some fields that count."""
        return [it for it in fields if self.counts(it.directory, it.tag, block)]

    def see(self, fields: Iterable[Field], block: str = "") -> None:
        """Notes which patterns fit these fields."""
        for it in fields:
            self.counts(it.directory, it.tag, block)

    def see_kind(self, kind: str) -> None:
        """Notes that blocks of a kind are left out as wholes."""
        for pattern in self._patterns:
            pattern.is_seen = pattern.is_seen or kinds_of(pattern.text) == {kind}

    def add_left_out(self, names: Iterable[str]) -> None:
        """Notes that these fields differ in a picture and are left out."""
        for name in dict.fromkeys(name[:LONGEST_CACHED] for name in names):
            if name in self.left_out or len(self.left_out) < MOST_LISTED:
                self.left_out[name] = self.left_out.get(name, 0) + 1

    def labels(self) -> dict[str, tuple[str, ...]]:
        """The labels that were given, each with its fields."""
        given = dict.fromkeys(it.of_set for it in self._patterns if it.of_set and it.of_set not in SETS)
        return {it: tuple(dict.fromkeys(one.text for one in self._patterns if one.of_set == it)) for it in given}

    def ambiguous(self) -> dict[str, list[str]]:
        """The names that were given and that several fields have, with the names of these."""
        return ambiguous({it.text: it.names for it in self._patterns})

    def unseen(self) -> list[str]:
        """The patterns that fit no field, but for those of sets."""
        return [it.text for it in self._patterns if not it.is_seen and not it.of_set]

    def unseen_words(self) -> list[str]:
        """The words that fit no field: patterns, and labels of which no field was there."""
        unseen = dict.fromkeys(it.of_set for it in self._patterns if it.of_set and it.of_set not in SETS)
        seen = {it.of_set for it in self._patterns if it.is_seen}
        return [*self.unseen(), *(it for it in unseen if it not in seen)]

    @property
    def asks_for_private(self) -> bool:
        """Whether serial numbers or owners are asked for, which a MakerNote may have, too."""
        return any(re.search("serial|owner", it.of_set or it.text, re.I) for it in self.only)

    def unknown(self) -> list[str]:
        """The patterns that fit no field so far, and that no field can fit by the standards."""
        return [it for it in self.unseen() if not is_known(it)]


EVERYTHING = Choice()  # counts


# What is printed about fields that don't count though they differ.

BY_LISTING = "A result with fields left out is tested, and not proved."


SHOWN = 6  # fields that are named in a line


def lines(choice: Choice, is_counted: bool = False) -> Iterator[str]:
    """The fields of labels, and what was left out though it differs, perhaps with the number of pictures."""
    yield from of_labels(choice)
    if choice.left_out:
        counts = sorted(choice.left_out.items(), key=lambda it: (-it[1], it[0]))
        names = [escaped(name) + (f" ({count:,} picture{'s' * (count != 1)})" if is_counted else "") for name, count in counts[:SHOWN]]
        more = f" and {len(counts) - SHOWN:,} more" if len(counts) > SHOWN else ""
        yield f"Left out though {'they differ' if len(counts) > 1 else 'it differs'}: {', '.join(names)}{more}."
        yield BY_LISTING


def of_labels(choice: Choice) -> Iterator[str]:
    """Which fields a label or a name stands for, which words fit no field of the pictures, and where else it may be that was asked for."""
    for word, fields in (*choice.labels().items(), *choice.ambiguous().items()):
        yield f"{stands_for(word, fields)}."
    if choice.absent:
        names = [escaped(it) + hint(it) for it in choice.absent[:SHOWN]]
        names += [f"{len(choice.absent) - SHOWN:,} more"] * (len(choice.absent) > SHOWN)
        yield f"No picture has a field {' or '.join(names)}."
    if choice.maker_notes:
        yield of_maker_notes(choice.maker_notes)


def members_of(choice: Choice) -> Members:
    """The words that fit no field, the names of several, and the number of pictures whose MakerNotes may
    have what was asked for, for an object."""
    return {"fits_nothing": choice.absent, "stands_for": choice.ambiguous(), "maker_notes_not_read": choice.maker_notes}


def of_maker_notes(count: int) -> str:
    """What is said where serial numbers and owners are listed or asked for."""
    have = "1 picture has one" if count == 1 else f"{count:,} pictures have one"
    return f"MakerNotes were not read: {have}, and it may have serial numbers and owners, too, which ExifTool lists."
