"""Dates as they are compared: `1950`, `1950-03`, `1950-03-21 14:30:00`. Each program writes them in another form."""

from __future__ import annotations

import functools
import os
import re
import time
from datetime import date, datetime, timedelta

from ..model.errors import WrongUse
from ..model.texts import safe

_ANY = re.compile(r"(\d{4})(?:([-:/.]?)(\d\d)(?:\2(\d\d)(?:[ T]?(\d\d)(?::?(\d\d)(?::?(\d\d(?:\.\d+)?))?)?)?(?: ?(Z|[+-]\d\d:?\d\d))?)?)?")
_TODAY = re.compile(r"(?:in (\d{1,5}) (day|week|month|year)s?|today(?: ?([+-]) ?(\d{1,5}) (day|week|month|year)s?)?)", re.I)
_DAYS = {"day": 1, "week": 7}


def plain_date(text: str) -> str:
    """A date in the form in which it is compared, whatever separators it has; empty of another text. A number of four digits is a year, and one
    of six is none.

    >>> plain_date("2019:03:12 11:20:45"), plain_date("20261203"), plain_date("2019-03-12T11:20:45+01:00"), plain_date("201903")
    ('2019-03-12 11:20:45', '2026-12-03', '2019-03-12 11:20:45+01:00', '')
    """
    match = _ANY.fullmatch(text.strip())
    if not match or (match[3] and not match[2] and not match[4]):
        return ""
    day = "-".join(filter(None, match.group(1, 3, 4)))
    clock = ":".join(filter(None, match.group(5, 6, 7)))
    return day + f" {clock}" * bool(clock) + (match[8] or "") * bool(clock)


def asked_date(text: str) -> str:
    """The same of what somebody types: also `today`, `today + 30 days`, `in 2 weeks`. A part of a date that no calendar has makes it none.

    >>> asked_date("1950:03"), asked_date("2023-02-30"), len(asked_date("today - 1 year"))
    ('1950-03', '', 10)
    """
    match = _TODAY.fullmatch(" ".join(text.split()))
    if not match:
        day = plain_date(text)
        return "" if is_impossible(day) else day
    number = int(match[1] or match[4] or 0) * (-1 if match[3] == "-" else 1)
    return _shifted(_today(os.environ.get("EXIFNORM_TODAY", "")), number, (match[2] or match[5] or "day").lower())


@functools.lru_cache(maxsize=None)
def _today(given: str) -> date:
    """The day of the whole run: the local one, or that which somebody gives. Raises `WrongUse`."""
    try:
        return date.fromisoformat(given) if given else date(*time.localtime()[:3])
    except ValueError:
        raise WrongUse(f"EXIFNORM_TODAY={safe(given)}: expected a day, such as 2026-03-31") from None


def _shifted(day: date, number: int, unit: str) -> str:
    """A day some days, weeks, months or years later; of a shorter month its last day. Empty if no calendar has it."""
    try:
        if unit in _DAYS:
            return (day + timedelta(number * _DAYS[unit])).isoformat()
        months = day.year * 12 + day.month - 1 + number * (12 if unit == "year" else 1)
        first = date(months // 12, months % 12 + 1, 1)
        return (first + timedelta(min(day.day, ((first + timedelta(31)).replace(day=1) - first).days) - 1)).isoformat()
    except (OverflowError, ValueError):
        return ""


_WHOLE = re.compile(r"(\d{4})(?:-(\d\d)(?:-(\d\d)(?: (\d\d)(?::(\d\d)(?::(\d\d)(?:\.\d+)?)?)?)?)?)?(?:Z|[+-]\d\d:?\d\d)?")


def is_impossible(day: str) -> bool:
    """Whether a date in this form is none of the calendar or of the clock. A month or a day of 00 is one that isn't known.

    >>> [is_impossible(it) for it in ("2023-02-30", "2024-02-29", "2023-13", "2023-00-00", "2023-01-01 25:00", "about 1900")]
    [True, False, True, False, True, False]
    >>> [is_impossible(f"2016-12-31 23:59:{it}") for it in ("59", "60", "61")]
    [False, False, True]
    """
    match = _WHOLE.fullmatch(day.replace("T", " "))
    if not match:
        return False
    year, month, number, hour, minute, second = (int(it or 0) for it in match.groups())
    try:
        datetime(year or _LEAP, month or 1, number or 1, hour, minute, min(second, 59))  # a leap second is none of Python's
    except ValueError:
        return True
    return second > 60


_LEAP = 2000  # a year in place of 0000, which has every day that a year can have
EXPECTED = "a date, such as 1950, 1950-03, 1950-03-21, today or today + 30 days"  # for a sentence
IMPOSSIBLE = "impossible"  # asks for dates that no calendar has


def is_asked_impossible(text: str) -> bool:
    """Whether somebody asks for dates that no calendar has."""
    return text.strip().casefold() == IMPOSSIBLE
