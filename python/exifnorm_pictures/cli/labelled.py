"""The labelled texts of pictures, for `show --captions` and rules of agreement."""

from __future__ import annotations

import os
from typing import TYPE_CHECKING, Iterator

from ..catalogue.conflicts import Conflict, best, conflicts, own_texts
from ..comparison.wording import tell_apart
from ..extract.extraction import blocks_of_named
from ..fields.labels import LABEL_WORDS, POSITION, Caption, Captions
from ..fields.listing import Shown
from ..fields.places import Place
from ..files import opening
from ..model import steps
from ..model.found import Blocks, NotRead, cut
from ..model.records import REACHED
from ..model.problems import NOT_THERE, Problem
from ..model.texts import Members, escaped, shown_path
from ..picture import Picture
from ..scan.walk import Unlisted, below
from .names import each_name, is_catalogue, is_list
from .exit_codes import SUCCESS, UNKNOWN
from .options import Files, Output, Run
from .output import (
    Cell,
    damage_members,
    lacks_some,
    no_block,
    not_found,
    note_sidecar,
    picture_cut,
    picture_object,
    print_lines,
    print_object,
    table_of,
    unread,
    width,
)
from .parser import refuse

if TYPE_CHECKING:
    from ..catalogue.store import Catalogue


def pictures(files: Files, run: Run) -> Iterator[Picture]:
    """The pictures that are named, and those of folders and catalogues that are named. Other files in these are passed over."""
    if run.whole and any(map(is_catalogue, files.names)):
        refuse(files.command, _WHOLE)  # before anything is printed
    for name in each_name(files):
        with opening.held(name):
            yield from _named(files.command, run, name)


def _named(command: str, run: Run, name: bytes) -> Iterator[Picture]:
    from ..catalogue.store import head_is_ours, head_of

    shown = os.fsdecode(name)
    if is_catalogue(shown) and (os.path.isdir(name) or head_is_ours(head_of(shown)[0])):
        yield from _in_catalogue(command, run, name)
    elif os.path.isdir(name):
        yield from _in_folder(run, name)
    else:
        note_sidecar(name)
        yield _reading(run, name)


_WHOLE = "--whole is for pictures and folders: a catalogue has what index --whole read"


def _in_catalogue(command: str, run: Run, name: bytes) -> Iterator[Picture]:
    """The pictures of a catalogue as they were when it looked at them. Their files aren't needed."""
    from .looking import opened

    if run.whole:
        refuse(command, _WHOLE)
    with opened(os.fsdecode(name), run) as catalogue:
        yield from of_catalogue(catalogue)


def of_catalogue(catalogue: Catalogue) -> Iterator[Picture]:
    """The pictures of a catalogue that is open."""
    from ..catalogue.texts import texts_of

    for picture in catalogue.pictures():
        if picture.problem in (Problem.NO_PICTURE, *NOT_THERE):
            continue
        blocks = catalogue.blocks_with_fields(picture)
        texts = texts_of(blocks)
        too_long = [NotRead(f"the {word}, which is too long for the catalogue", "") for word in sorted(texts.long)]
        parts = catalogue.not_read_of(picture) + too_long
        fault = "" if cut(part.what for part in parts) else picture.damage
        read = Blocks(problem=picture.problem, detail=picture.detail, type=picture.type, not_read=parts, damage=fault)
        yield Picture(picture.path, read, [block for block, _ in blocks], texts=texts)


def _in_folder(run: Run, folder: bytes) -> Iterator[Picture]:
    closed: list[Unlisted] = []
    count = alone = 0
    for file in below([folder], closed.append):
        picture = _reading(run, file.path)
        if picture._problem not in (Problem.NO_PICTURE, Problem.NOT_A_FILE):
            count += 1
            alone += picture.type == "XMP"
            yield picture
    if alone:
        from .looking import note_alone  # which takes long to import

        note_alone(alone)
    if not (count or closed):
        from .looking import note_no_picture

        note_no_picture(folder)
    yield from (Picture(it.path, Blocks(problem=Problem.UNREADABLE, detail=it.reason), []) for it in closed)


def _reading(run: Run, name: bytes) -> Picture:
    return Picture._of(name, blocks_of_named(name, run.session, run.whole))


def refused(picture: Picture) -> list[str]:
    """The blocks that aren't accepted, in a line each."""
    return [
        f"{block.name}: {block._record.line}"
        + (f"; read after repair in memory: {steps.words(block._record.steps)}" if block.repair else "")
        for block in picture.blocks
        if not block.is_accepted
    ]


def not_read(picture: Picture) -> list[str]:
    """The parts and fields that were not read and can have texts: a MakerNote has none."""
    return [*(what for what in picture.not_read if REACHED not in what), *picture.too_many]


def is_open(picture: Picture) -> bool:
    """Whether there may be a text that isn't known, so that the status of a command says so."""
    return lacks_some(picture, not_read(picture))


def members(picture: Picture) -> Members:
    """The beginning of a JSON object."""
    return {
        **picture_object(picture.path, picture._problem, picture._detail),
        "refused": refused(picture),
        "not_read": picture.not_read,
        "too_many": picture.too_many,
        **damage_members(picture),
    }


# The fields of texts


def origins(texts: Captions) -> str:
    """Where a text is: its fields, each with its block if that isn't the first one, and with a guess about its character set."""
    words = []
    for text in texts:
        guess = f", {text.guess}" if text.guess and len(texts) == 1 else ""  # another field with the same text confirms it
        words.append(text.field + (f" of {text.block}" if text.block else "") + guess)
    return ", ".join(words)


def together(texts: Captions) -> list[list[Caption]]:
    """Fields with equal texts together, without those that are empty."""
    by_text: dict[str, list[Caption]] = {}
    lines: dict[int, str] = {}  # pages of a TIFF may share a long list
    for text in texts:
        if not text.is_empty:
            key = id(text.texts)
            if key not in lines:
                lines[key] = " ".join(text.line.split())
            by_text.setdefault(lines[key], []).append(text)
    return list(by_text.values())


_OWN = "a camera's or a program's own text"
_WIDTH = max(map(len, LABEL_WORDS)) + 1


def run(files: Files, run: Run, output: Output) -> int:
    """Lists captions of Exif, IPTC and XMP."""
    worst = SUCCESS
    table = table_of(output, "picture", [*LABEL_WORDS, "latitude", "longitude", "camera's text", "contradicts itself", "not read"])
    alone = None if is_list(files) else {*map(os.fsencode, files.names)}
    for picture in pictures(files, run):
        worst = max(worst, UNKNOWN if is_open(picture) else SUCCESS)
        if table:
            table.row(*_row(picture))
        elif output.json:
            about = _members(picture)
            worst = max(worst, UNKNOWN if about["has_more_captions"] else SUCCESS)
            print_object("captions", "picture", about)
        else:
            print_lines([*[f"== {shown_path(picture.path)}"] * ({picture.path} != alone), *_lines(picture)])
    return worst


def _row(picture: Picture) -> list[Cell]:
    """A row of a table: the text of each label, of several standards one that is whole, and no camera's."""
    labelled = picture._labelled
    known = conflicts(labelled.texts, labelled.located)
    texts = [best([one for one in labelled.texts if one.label == word], known) for word in LABEL_WORDS]
    problem = [f"{picture._problem}: {picture._detail}"] if picture._problem else []
    rest = "; ".join([*problem, *refused(picture), *unread(picture, not_read(picture)), *picture_cut(picture)])
    return [
        picture.path,
        *texts,
        *(_position(picture) or (None, None)),
        "; ".join(own_texts(labelled.texts)),
        "; ".join(one.label for one in known if one.is_real),
        rest,
    ]


def _position(picture: Picture) -> list[float]:
    """The degrees, north and east positive; empty without a position."""
    place = picture.position
    return [] if not place else [round(place.latitude, 6), round(place.longitude, 6)]


def _lines(picture: Picture) -> Iterator[str]:
    if picture._problem:
        yield f"{picture._problem}: {picture._detail}"
        return
    yield from refused(picture)
    known = {one.label: one for one in conflicts(picture._labelled.texts)}
    for word in LABEL_WORDS:
        yield from _of_label(word, [one for one in picture._labelled.texts if one.label == word], known.get(word))
    if place := _position(picture):
        yield f"{_padded(POSITION)} {Place(*place).text}"
    if not picture.blocks:
        yield no_block(picture)
    elif _has_no_text(picture):
        yield not_found("no title, caption, name, keyword or rights", not_read(picture))
    if not_read(picture):
        yield f"not wholly read: {', '.join(unread(picture, not_read(picture)))}"
    yield from picture_cut(picture)


def _has_no_text(picture: Picture) -> bool:
    """Whether a picture with blocks has no text in any of them."""
    return not (refused(picture) or picture.too_many) and all(one.is_empty for one in picture._labelled.texts)


def _of_label(word: str, texts: Captions, conflict: Conflict | None) -> Iterator[str]:
    """The texts of a label, each with its fields, and how those that are compared differ."""
    mark = f"   <- {conflict.detail or 'they differ'}" if conflict and not conflict.is_alike else ""
    every = together(texts)
    for ours, line in zip(every, tell_apart([ours[0].line for ours in every])):
        is_compared = any(one.is_compared for one in ours)
        note = f"   <- {_OWN}" if any(one.is_own for one in ours) else mark if is_compared else ""
        yield f"{_padded(word)} {escaped(line)}   [{origins(ours)}]{note}"


def _padded(word: str) -> str:
    return f"{word}:" + " " * (_WIDTH - width(word) - 1)


def _members(picture: Picture) -> Members:
    texts, shown = [text for text in picture._labelled.texts if not text.is_empty], Shown()
    captions: list[Members] = []
    for text in texts:
        if shown.is_full:
            break
        captions.append(text_members(text))
        shown.add(len(text.texts), len(text.line))
    place = dict(zip(("latitude", "longitude"), _position(picture))) or None
    return {**members(picture), "captions": captions, "has_more_captions": len(captions) < len(texts), "position": place}


def text_members(text: Caption) -> Members:
    """A text as a JSON object."""
    known: Members = {"label": text.label, "standard": text.standard, "field": text.field, "block": text.block or None}
    return {**known, "texts": list(text.texts), "guess": text.guess or None, "own": text.is_own}
