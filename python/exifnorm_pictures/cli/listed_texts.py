"""The texts of a picture as `list` and `same` print them, for the labels of --columns."""

from __future__ import annotations

from typing import TYPE_CHECKING, Iterator, Sequence

from ..fields.labels import LABEL_WORDS, POSITION
from ..fields.places import place_of
from ..fields.questions import given_label
from ..model.texts import escaped
from .output import Cell

if TYPE_CHECKING:
    from ..catalogue.asking import Texts


def labels_in(words: str) -> list[str]:
    """The labels of --columns, each once; `all` are those of captions. Raises `WrongQuestion`."""
    if words == "all":
        return [*LABEL_WORDS, POSITION]
    return list(dict.fromkeys(given_label(word) for word in words.split(",")))


def heads(labels: Sequence[str]) -> list[str]:
    """The heads of a table, in which a position is two numbers, as maps take them. The last one is of the labels of which a text may be unread."""
    return [head for label in labels for head in (("latitude", "longitude") if label == POSITION else (label,))] + [_NOT_KNOWN] * bool(
        labels
    )


def cells(labels: Sequence[str], texts: Texts) -> "Iterator[Cell]":
    """The cells below these heads."""
    for label, of_label in zip(labels, texts):
        if label == POSITION:
            yield from (place_of(of_label[0]) if of_label else None) or (None, None)
        else:
            yield "; ".join(of_label or ())
    yield from ["; ".join(label for label, of_label in zip(labels, texts) if of_label is None)] * bool(labels)


def lines(labels: Sequence[str], texts: Texts, indent: str) -> Iterator[str]:
    """A line for each label, also if it has no text."""
    width = max(map(len, labels), default=0)
    for label, of_label in zip(labels, texts):
        yield f"{indent}{label:<{width}}  {f'({_NOT_KNOWN})' if of_label is None else escaped('; '.join(of_label)) or '(none)'}"


_NOT_KNOWN = "not known"


def member(labels: Sequence[str], texts: Texts) -> dict[str, list[str] | None]:
    """The texts for a JSON object: a list for each label, or null if it isn't known whether there is one."""
    return {label: None if of_label is None else list(of_label) for label, of_label in zip(labels, texts)}
