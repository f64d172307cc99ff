"""The command `list`: the pictures whose texts fit a question, and the texts of a label with how often each is there."""

from __future__ import annotations

import argparse
import os
import json
import re
import sys
import time
from contextlib import suppress
from datetime import datetime, timezone
from typing import NamedTuple, Sequence

from ...catalogue.asking import Answer, Fitting, Texts, Unread
from ...catalogue.kept_texts import ambiguous_in
from ...fields.choosing import stands_for
from ...fields.labels import DAMAGE, POSITION
from ...fields.places import place_of
from ...fields.questions import Not, Question, With, WrongQuestion, all_of, given_label, labels_of, question_of
from ...model.texts import Members, escaped, path_members, pictures_in_words, shown_path
from .. import listed_texts
from ..exit_codes import SUCCESS, UNKNOWN
from ..options import Output, groups_of
from ..output import named, print_line, print_lines, print_object, say_notes, table_of
from ..looking import Preparing, catalogue_for_questions, note_sidecars, refuse_for_catalogues
from ..names import words_of_file

_WHAT_CHANGED = (
    "This catalogue doesn't know what changed in them. Compare it with an older one, as index --keep-old and nightly keep it:"
    " exifnorm-pictures changed OLD NEW"
)


def run(arguments: argparse.Namespace) -> int:
    """Lists pictures by their texts."""
    files, run, output = groups_of(arguments)
    places = [With(POSITION)] * output.geojson
    question = _question(arguments.having, arguments.without, arguments.where, places)
    columns = _columns(arguments.columns, question, output)
    counted = given_label(arguments.count) if arguments.count else None
    form = _Form(output, arguments.null, arguments.since)
    since = _since(arguments.since) if arguments.since else None
    source = arguments.source
    refuse_for_catalogues(files, run, [os.fsencode(source)])
    run = run._replace(pixels=DAMAGE in (*(labels_of(question) if question else ()), *columns, counted))  # of a folder
    with catalogue_for_questions(source, run) as catalogue, catalogue.reading(is_answer=True):
        note_sidecars(catalogue, [os.fsencode(source)], run)
        shown = [*columns, *([] if counted is None else [counted])]
        answer = Answer(catalogue, question, since, Preparing(run).report, shown, not output.json)
        if counted is not None:
            not_known = _print_counts(form, answer, counted)
        else:
            columns = [] if form.is_of_names else columns
            (_print_names if form.is_of_names else _print_pictures)(form, answer, columns)
            not_known = answer.lacking(columns) if arguments.columns is not None else 0  # in each form of the answer the same
        return UNKNOWN if not_known or answer.not_known() else SUCCESS


class _Form(NamedTuple):
    """The form of the answer."""

    output: Output
    is_of_names: bool  # and of nothing else, for xargs
    since: str | None


def _question(having: Sequence[str], without: Sequence[str], where: Sequence[str], more: Sequence[Question]) -> Question | None:
    """All that the options ask, together; None if they ask nothing."""
    questions: list[Question] = [With(given_label(word)) for word in having]
    questions += [Not(With(given_label(word))) for word in without]
    questions += [question_of(text, words_of_file) for text in where]
    return all_of([*questions, *more]) if questions or more else None


def _columns(asked: str | None, question: Question | None, output: Output) -> list[str]:
    """The labels whose texts are printed: those that are asked for, in a table at least those of the question."""
    if asked is not None:
        return listed_texts.labels_in(asked)
    in_question = labels_of(question) if question else []
    return list(dict.fromkeys(["title", *in_question])) if output.csv or output.json or output.geojson else []


def _since(text: str) -> str:
    """A day or a moment, in the local time, as a catalogue has it in UTC. Raises `WrongQuestion`."""
    if re.fullmatch(r"\d{4}-\d\d-\d\d([ T]\d\d:\d\d(:\d\d)?)?", text):
        with suppress(ValueError, OverflowError):
            moment = datetime.fromisoformat(text).timestamp()
            return datetime.fromtimestamp(moment, timezone.utc).strftime("%Y-%m-%dT%H:%M:%S")
    raise WrongQuestion(f"--since {text}: expected a day, such as {time.strftime('%Y-%m-%d')}, or '2026-03-31 14:30'")


# Pictures


def _print_names(form: _Form, answer: Answer, columns: Sequence[str]) -> None:
    for paths in answer.paths():
        sys.stdout.buffer.write(b"".join(path + b"\0" for path in paths))
    _print_end(form, answer, columns)


def _print_pictures(form: _Form, answer: Answer, columns: Sequence[str]) -> None:
    output = form.output
    table = table_of(output, "picture", listed_texts.heads(columns))
    if output.geojson:
        print('{"type": "FeatureCollection", "features": [')
    for before, (picture, texts) in enumerate(answer.pictures([*columns, *[POSITION] * output.geojson])):
        if table:
            table.row(picture.path, *listed_texts.cells(columns, texts))
        elif output.json:
            captions = listed_texts.member(columns, texts)
            print_object("list", "picture", {**path_members(picture.path), "texts": captions, "damage": picture.damage or None})
        elif output.geojson:
            print("," * bool(before) + json.dumps(_feature(picture, columns, texts)))
        else:
            fault = f"   (damaged: {picture.damage})" if picture.damage and DAMAGE not in columns else ""
            print_lines([shown_path(picture.path) + fault, *listed_texts.lines(columns, texts, "  ")])
    if output.geojson:
        print("]}")
    _print_end(form, answer, columns)


def _feature(picture: Fitting, columns: Sequence[str], texts: Texts) -> Members:
    """A picture on a map (RFC 7946), whose positions have the longitude first. Its last texts are its positions."""
    place = next(map(place_of, texts[-1] or ()), None)
    geometry = None if not place else {"type": "Point", "coordinates": [place.longitude, place.latitude]}
    properties = {**path_members(picture.path), **{label: None if it is None else "; ".join(it) for label, it in zip(columns, texts)}}
    return {"type": "Feature", "geometry": geometry, "properties": properties}


def _print_end(form: _Form, answer: Answer, columns: Sequence[str]) -> None:
    """How many pictures were listed, how many of them are damaged or may have a text that was not read, and of how many more it isn't known
    whether they fit."""
    listed, damaged = answer.fitting(), answer.damaged()
    if form.output.json:
        about = {
            "pictures": answer.count(),
            "listed": listed,
            "not_known": answer.not_known(),
            "damaged": damaged,
            "may_fit": list(map(path_members, answer.paths_not_known())),
            "stands_for": ambiguous_in(answer.places),
        }
        print_object("list", "summary", about)
        return
    end = (
        f"{listed:,} of {pictures_in_words(answer.count())}"
        + _since_then(form.since, answer.count())
        + f", {damaged:,} of them cut off or damaged" * bool(damaged)
        + _of_unknown(answer)
        + "".join(_of_lacking(answer, label) for label in columns)
        + _of_names(answer)
    )
    lines = [*named("may fit:", answer.paths_not_known(), answer.not_known()), end]
    if not (form.output.csv or form.is_of_names or form.output.geojson):
        print_lines(lines)
        if form.since and listed:
            print_line(_WHAT_CHANGED)
    elif answer.not_known() or damaged or answer.lacking(columns) or _of_names(answer):
        say_notes(*lines)


def _since_then(since: str | None, pictures: int) -> str:
    """To which pictures --since restricts the answer."""
    return f" that {'was' if pictures == 1 else 'were'} new or changed since {escaped(since)}" if since else ""


def _of_unknown(answer: Answer) -> str:
    count = answer.not_known()
    return f"; {count:,} more may fit: {_unread(answer.why_not_known())}" if count else ""


def _of_names(answer: Answer) -> str:
    """Which names no field of the pictures has, and which several have."""
    none = (f"; none has {escaped(word)}" for word, places in answer.places.items() if not places)
    return "".join((*none, *(f"; {stands_for(*it)}" for it in ambiguous_in(answer.places).items())))


def _of_lacking(answer: Answer, label: str) -> str:
    count = answer.lacking([label])
    return f"; of {count:,} listed the {label} is not known: {_unread(answer.why_not_known(label))}" if count else ""


def _unread(reasons: Sequence[Unread]) -> str:
    """What was not read of pictures."""
    return ", or ".join(dict.fromkeys(_UNREAD.get(it, _UNREAD[Unread.PARTS]) for it in reasons))


_UNREAD = {
    Unread.PICTURE: "their pictures were not read for damage; index --pixels reads those of JPEG, PNG, TIFF, WebP, HEIC, AVIF, JPEG XL and raw files like TIFF, as DNG, and no command others",
    Unread.PARTS: "they were not wholly read",
    Unread.POSITION: "their latitude or longitude makes no position, as without a direction or the other one",
    Unread.MAKER_NOTE: "they have a MakerNote, which index --maker-notes --again reads",
}


# Counts


def _print_counts(form: _Form, answer: Answer, label: str) -> int:
    """Each text of a label with the number of pictures that have it; those that are spelled otherwise below it. Returns of how many pictures it
    isn't known whether they have one."""
    table = table_of(form.output, label, ("pictures", "like"))
    common, first = None, ""
    for text, pictures, bare in answer.counted(label):
        like = first if bare == common else ""
        if table:
            table.row(text, pictures, like)
        elif form.output.json:
            print_object("list", "text", {"label": label, "text": text, "pictures": pictures, "like": like or None})
        else:
            print_line(f"{pictures:>7,}  {escaped(text)}" + (f"   <- like {escaped(like)}?" if like else ""))
        if bare != common:
            common, first = bare, text
    return _print_end_of_counts(form, answer, label)


def _print_end_of_counts(form: _Form, answer: Answer, label: str) -> int:
    having, without, not_known = answer.having(label)
    total = having + without + not_known
    if form.output.json:
        about = {
            "pictures": total,
            "with": having,
            "not_known": not_known,
            "stands_for": ambiguous_in(answer.places),
            "may_have": list(map(path_members, answer.paths_not_known(label))),
            "may_fit": list(map(path_members, answer.paths_not_known())),
        }
        print_object("list", "summary", about)
        return not_known
    more = f"; {not_known:,} not known: {_unread(answer.why_not_known(label))}" if not_known else ""
    of_new = f", of {pictures_in_words(total)}{_since_then(form.since, total)}" * bool(form.since)
    end = f"{pictures_in_words(having)} with a text of {label}, {without:,} without{of_new}{more}{_of_unknown(answer)}{_of_names(answer)}"
    lines = named(f"may have {label}:", answer.paths_not_known(label), not_known)
    lines += [*named("may fit:", answer.paths_not_known(), answer.not_known()), end]
    if not form.output.csv:
        print_lines(lines)
    elif not_known or answer.not_known() or _of_names(answer):
        say_notes(*lines)
    return not_known
