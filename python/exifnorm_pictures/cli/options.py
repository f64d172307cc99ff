"""The options of a command: a record for each group of them, made once from its line, which nobody changes."""

from __future__ import annotations

import argparse

from exifnorm._hints import TYPE_CHECKING, NamedTuple, Sequence, TypeVar

from ..files.session import Session
from ..model.budgets import PROGRAM_SECONDS
from .exit_codes import SUCCESS

if TYPE_CHECKING:
    from .sheets import Sheet


class Least:
    """The least status of a run: what it finds on the way can raise it."""

    status = SUCCESS


class Files(NamedTuple):
    """The catalogue and the names that a command gets."""

    command: str
    source: str | None = None  # the first name, which may be a catalogue
    catalogue: str | None = None  # of --catalogue, which index and nightly have
    names: Sequence[str] = ()
    files_from: str | None = None
    null: bool = False  # the names of that list end with NUL


class Fields(NamedTuple):
    """The fields that count, or the labels."""

    ignore: Sequence[str] = ()
    only: Sequence[str] = ()
    equal_numbers: bool = False


class Output(NamedTuple):
    """The form of the answer."""

    json: bool = False
    csv: bool = False  # also of --xlsx, with a sheet
    sheet: Sheet | None = None
    geojson: bool = False
    exact: bool = False
    html: str | None = None


class Run(NamedTuple):
    """The run, and how it reads pictures."""

    session: Session
    least: Least
    jobs: int = 0
    quiet: bool = False
    again: bool = False
    exclude: Sequence[str] = ()
    scheduler: str | None = None
    whole: bool = False
    pixels: bool = False
    sidecars: bool = False
    maker_notes: bool = False
    limit: float = PROGRAM_SECONDS


Group = TypeVar("Group", Files, Fields, Output, Run)


def groups_of(arguments: argparse.Namespace) -> tuple[Files, Run, Output]:
    """What most commands need."""
    return group_of(Files, arguments), group_of(Run, arguments), group_of(Output, arguments)


def group_of(kind: type[Group], arguments: argparse.Namespace) -> Group:
    """A group of the options of a command. Those that the command lacks are as if they weren't given.

    >>> group_of(Output, argparse.Namespace(json=True, columns="title"))
    Output(json=True, csv=False, sheet=None, geojson=False, exact=False, html=None)
    """
    return kind(**{name: value for name, value in vars(arguments).items() if name in kind._fields})
