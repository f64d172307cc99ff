"""The lists of a report but for what changed: streams of entries, which count what they list, so that a catalogue is read once."""

from __future__ import annotations

import contextlib
import json
import os.path
import shlex
from collections import Counter
from dataclasses import dataclass, field
from itertools import chain, groupby
from typing import Iterator, Sequence

from ..catalogue.checking import Checked
from ..catalogue.conflicts import Conflict
from ..catalogue.store import PICTURE_COLUMNS, Catalogue
from ..catalogue.texts import texts_of
from ..comparison.changed.edits import digest
from ..comparison.changed.states import Equal
from ..comparison.same import groups
from ..comparison.same.group import Group, Keep, keeping, sentence_of
from ..fields.labels import COMMENT, LABEL_WORDS
from ..model.found import STANDARDS, each_kind
from ..model.records import PictureRecord, has, has_short
from ..model.tables import picture_of_row
from ..model.problems import NOT_THERE, Problem
from ..model.texts import grouped, kind_of_part
from .contents import About, Entry, chosen, chunks, refused, shortened

# The pictures of a catalogue whose Exif, IPTC and XMP contradict each other, for the report.
#
# The texts are those of the catalogue, which keeps all but enormous ones.

_COMPARED = tuple(it for it in LABEL_WORDS if it != COMMENT)


@dataclass
class Contradictions:
    """What is counted of them."""

    pictures: int = 0  # with metadata in two standards at least
    real: int = 0
    minor: int = 0  # that differ only in form
    unread: int = 0  # of which a text or a block was not compared
    labels: "Counter[str]" = field(default_factory=Counter)

    def of(self, catalogue: Catalogue, picture: PictureRecord) -> list[Conflict]:
        """Those of a picture, which are counted. One that is cut off may have metadata in a second standard behind its end."""
        if picture.problem or picture.octets.count("") > 1:
            self.unread += picture.problem is None and _is_cut(picture)
            return []
        blocks = catalogue.blocks_with_fields(picture)
        texts = texts_of(blocks, _COMPARED)
        known = texts.conflicts()
        real = [one for one in known if one.is_real]
        self.pictures += 1
        self.real += bool(real)
        self.minor += bool(known) and not real
        self.unread += any((texts.missing, _is_cut(picture), not all(one.is_accepted or one.repair for one, _ in blocks)))
        self.labels.update(one.label for one in real)
        return real


def _is_cut(picture: PictureRecord) -> bool:
    """Whether a file ends so that blocks may be missing."""
    return bool(picture.damage) and picture.not_read != ""


def texts_by_standard(conflict: Conflict) -> dict[str, str]:
    """The texts by standard."""
    by_standard = grouped((text.standard, text.line) for text in conflict.texts)
    return {standard: "; ".join(by_standard[standard]) for standard in STANDARDS if standard in by_standard}


MOST_PARTS = 20  # parts that were not read, in the table of the most frequent ones


@dataclass
class Counts:
    """What is counted of the pictures of a report."""

    total: int = 0
    states: "Counter[str]" = field(default_factory=Counter)
    causes: "Counter[str]" = field(default_factory=Counter)
    groups: tuple[int, int] = (0, 0)  # and pictures in them
    unknown: int = 0  # pictures that may be the same as others but for their MakerNotes
    contradictions: Contradictions = field(default_factory=Contradictions)
    unread: int = 0
    damaged: int = 0  # cut off, or with a damaged picture
    parts: "list[tuple[str, int]]" = field(default_factory=list)  # the most frequent unread parts, and the number of pictures with each
    maker_notes: int = 0  # pictures with a MakerNote

    @property
    def there(self) -> int:
        """The files, without those that are gone or have moved."""
        return self.total - sum(self.states[it] for it in NOT_THERE)


def counts_of(about: About) -> Counts:
    """What SQLite counts."""
    counts, catalogue, table = Counts(), about.catalogue, about.table()

    def rows(query: str) -> Iterator[tuple[str, int]]:
        return catalogue.rows(query, (), _counted_word)

    where = f"WHERE path IN {table}" if table else ""
    counts.states.update(dict(rows(f"SELECT {_STATE}, count(*) FROM pictures {where} GROUP BY 1")))
    counts.total = sum(counts.states.values())
    source = f"FROM blocks JOIN pictures ON pictures.id = picture WHERE status != 'accepted' AND {chosen(about)}"
    counts.causes.update(dict(rows(f"SELECT ifnull(cause, status), count(*) {source} GROUP BY 1")))
    counts.groups = groups.totals(catalogue, only=table, choice=about.choice)
    source = f"FROM not_read JOIN pictures ON pictures.id = picture WHERE {chosen(about)}"
    catalogue.base.create_function("kind_of", 1, kind_of_part, deterministic=True)
    kinds = f"SELECT kind_of(what) AS kind, count(DISTINCT picture) {source} GROUP BY kind"
    counts.parts = list(rows(f"{kinds} ORDER BY 2 DESC, kind LIMIT {MOST_PARTS}"))
    counts.unread = catalogue.number_of(f"SELECT count(*) FROM pictures WHERE not_read IS NOT '' AND {chosen(about)}")
    counts.damaged = catalogue.number_of(f"SELECT count(*) FROM pictures WHERE damage != ''{_and_chosen(about)}")
    noted = f"FROM blocks JOIN pictures ON pictures.id = picture WHERE note IS NOT NULL AND {chosen(about)}"
    counts.maker_notes = catalogue.number_of(f"SELECT count(DISTINCT picture) {noted}")
    return counts


# The state of a picture, as `Picture.state` has it
_STATE = """CASE WHEN ifnull(problem, '') != '' THEN problem WHEN exif IS NULL OR iptc IS NULL OR xmp IS NULL THEN 'refused'
    WHEN exif != '' OR iptc != '' OR xmp != '' THEN 'accepted' WHEN damage != '' AND not_read IS NOT '' THEN 'damaged' ELSE 'no block' END"""


def _counted_word(row: tuple[str, int]) -> tuple[str, int]:
    has(str, row[0])
    return row


# Keywords last: a picture often has others in IPTC than in XMP, and nobody publishes them
_ORDER = {label: at for at, label in enumerate(LABEL_WORDS) if label != "keywords"}


def _rank(conflict: Conflict) -> int:
    return _ORDER.get(conflict.label, len(LABEL_WORDS))


def contradicting(about: About, counts: Counts) -> Iterator[Entry]:
    """The pictures whose Exif, IPTC and XMP have different texts for one label: those with equal
    texts together, titles and captions first."""
    with contextlib.closing(Equal()) as equal:
        for picture in about.catalogue.pictures(about.table()):
            if real := sorted(counts.contradictions.of(about.catalogue, picture), key=_rank):
                rows = [(it.label, it.detail, texts_by_standard(it)) for it in real]
                equal.add(json.dumps(rows), picture.path, False, _rank(real[0]))
        for text, count, names in equal.all(by_rank=True):
            rows = json.loads(text)
            words = [word for label, detail, texts in rows for word in (label, detail, *texts.values())]
            labels = ", ".join(label for label, _, _ in rows)
            for number, few in enumerate(chunks(names, len)):
                about_few = {"rows": rows, "labels": labels, "total": count, "pictures": few}
                yield Entry(about_few, tuple(few), words, len(rows), not number)


def breaking(rules: Checked) -> Iterator[Entry]:
    """The broken rules, each with its pictures."""
    for number, of_rule in groupby(rules.broken(), lambda broken: broken.number):
        rule, total = rules.rules[number], rules.pictures_broken(number)
        pictures = ((path, list(all_)) for path, all_ in groupby(of_rule, lambda broken: broken.path))
        for at, few in enumerate(chunks(pictures, lambda it: len(it[0]) + sum(len(one.text or "") for one in it[1]))):
            paths, of_paths = zip(*few)
            broken = list(chain(*of_paths))
            words = [f"line {rule.line}: {rule.text}", *(text for one in broken for text in (one.label, one.text))]
            yield Entry({"rule": rule, "total": total, "pictures": few}, paths, words, len(broken), not at)


def same(about: About, counts: Counts) -> Iterator[Entry]:
    """The groups, the largest first, and which of their pictures may go."""
    for group in groups.Groups(about.catalogue, about.table(), about.look).by_meaning(choice=about.choice):
        keeps = keeping(group, False) if about.look and not about.choice else {}
        yield from _same(group, [keeps.get(it.id, Keep()) for it in group.members])
    counts.unknown = groups.but_for_notes(about.catalogue, only=about.table(), choice=about.choice)


def _same(group: Group, keeps: Sequence[Keep]) -> Iterator[Entry]:
    """A group, with what may be done with each of its pictures, and with all if that is one note."""
    gone = [it.size or 0 for it, one in zip(group.members, keeps) if one.keep is False]
    notes = {it.note() for it in keeps}
    sentence, note = sentence_of(group), notes.pop() if len(notes) == 1 else ""
    of_all = {"total": group.count, "sentence": sentence, "note": note, "may_go": len(gone), "octets": sum(gone)}
    for number, few in enumerate(chunks(zip(group.pictures(), keeps), lambda it: len(it[0]))):
        words = [sentence, note, *(keep.note() for _, keep in few)]
        yield Entry({**of_all, "pictures": few}, tuple(path for path, _ in few), words, 1, not number)


_CAPTIONS = ("title", "caption")


def captioned(about: About) -> Iterator[Entry]:
    """The groups of files with the same picture whose titles or captions differ."""
    for group in groups.Groups(about.catalogue, about.table(), about.look).by_coded_picture():
        different, pictures = set(), []
        for it in group.members:
            texts = _captions(about, it)
            different.add(digest(repr(texts)))
            pictures.append((it.path, list(map(shortened, texts))))
        if len(different) > 1:
            for number, few in enumerate(chunks(pictures, lambda it: len(it[0]))):
                words = [text for _, texts in few for text in texts]
                paths = tuple(path for path, _ in few)
                yield Entry({"total": group.count, "pictures": few}, paths, words, len(few), not number)


def _captions(about: About, picture: PictureRecord) -> list[str]:
    found = texts_of(about.catalogue.blocks_with_fields(picture), _CAPTIONS).texts
    return list(dict.fromkeys(it.line for it in found if it.label in _CAPTIONS))


def refusals(about: About, counts: Counts) -> Iterator[Entry]:
    """The refused blocks by cause, the most frequent first, each with the command that mends a copy."""
    for cause, _ in sorted(counts.causes.items(), key=lambda it: (-it[1], it[0])):
        for number, block in enumerate(refused(about, cause)):
            about_block = {"block": block, "command": mending(block.path)}
            yield Entry(about_block, (block.path,), [block.name, block.refusal], 1, not number)


def mending(path: bytes) -> str:
    """The command that mends a picture, as a shell reads it.

    >>> print(mending(b"/p/it's.jpg"), mending(b"/p/\\xff.jpg"))
    exifnorm-pictures mend '/p/it'"'"'s.jpg' 'mended-it'"'"'s.jpg' exifnorm-pictures mend $'/p/\\xff.jpg' $'mended-\\xff.jpg'
    """
    return f"exifnorm-pictures mend {_quoted(path)} {_quoted(b'mended-' + os.path.basename(path))}"


def mending_all(catalogue: str) -> str:
    """The command that mends all pictures of a catalogue, as far as that loses nothing."""
    return f"exifnorm-pictures mend {_quoted(os.fsencode(catalogue))} mended --lossless"


def _quoted(path: bytes) -> str:
    """A name for a shell. One that isn't printable UTF-8 is written in bash's `$'..'`, since a page can't have its bytes."""
    text = os.fsdecode(path)
    if text.isprintable():
        return shlex.quote(text)
    return "$'" + "".join(chr(byte) if 32 <= byte < 127 and byte not in b"'\\" else f"\\x{byte:02x}" for byte in path) + "'"


def damaged(about: About) -> Iterator[Entry]:
    """The pictures that are cut off or damaged."""
    rows = about.catalogue.rows(f"SELECT path, damage FROM pictures WHERE damage != ''{_and_chosen(about)} ORDER BY path", (), _two_words)
    yield from (Entry({"path": path, "parts": [damage]}, (path,), [damage]) for path, damage in rows)


def unread(about: About) -> Iterator[Entry]:
    """The pictures that weren't wholly read, with the parts."""
    catalogue = about.catalogue
    query = f"SELECT {PICTURE_COLUMNS} FROM pictures WHERE not_read IS NOT '' AND {chosen(about)} ORDER BY path"
    for picture in catalogue.rows(query, (), picture_of_row):
        parts = each_kind(part.what for part in catalogue.not_read_of(picture))
        yield Entry({"path": picture.path, "parts": parts}, (picture.path,), parts, len(parts))


def problems(about: About) -> Iterator[Entry]:
    """The files without an answer: first those that should have one, then those that are gone or have moved, then those that are no pictures."""
    where = f"ifnull(problem, '') != ''{_and_chosen(about)}"
    query = f"SELECT {PICTURE_COLUMNS} FROM pictures WHERE {where} ORDER BY problem = '{Problem.NO_PICTURE}', {_IS_GONE}, path"
    for picture in about.catalogue.rows(query, (), picture_of_row):
        yield Entry(picture._replace(maker_notes="", sidecars=""), (picture.path,), [picture.problem, picture.detail])


_IS_GONE = f"ifnull(problem, '') IN {tuple(map(str, NOT_THERE))}"


def _and_chosen(about: About) -> str:
    return f" AND path IN {about.table()}" if about.table() else ""


def folders(about: About) -> Iterator[Entry]:
    """Each folder with its pictures, in the order of their paths."""
    catalogue = about.catalogue
    catalogue.base.create_function("folder_of", 1, os.path.dirname, deterministic=True)
    is_shown = f"NOT {_IS_GONE} AND problem IS NOT '{Problem.NO_PICTURE}'{_and_chosen(about)}"
    query = f"SELECT path, {_STATE} FROM pictures WHERE {is_shown} ORDER BY folder_of(path), path"
    for folder, of_folder in groupby(catalogue.rows(query, (), _two_words), lambda row: os.path.dirname(row[0])):
        for number, pictures in enumerate(chunks(of_folder, lambda row: len(row[0]))):
            paths = tuple(path for path, _ in pictures)
            yield Entry({"path": folder, "pictures": pictures}, paths, is_first=not number)


def _two_words(row: tuple[bytes, str]) -> tuple[bytes, str]:
    has_short(bytes, row[0])
    has_short(str, row[1])
    return row
