"""The command `nightly`: looks at an archive, and prints a letter about what is new since the last night; nothing if there is no news."""

from __future__ import annotations

import argparse
import contextlib
import os
import shlex
import sys
from collections import Counter
from itertools import groupby
from typing import Iterator, Optional, Sequence

from ...catalogue import kept_texts, shards
from ...catalogue.checking import Checked
from ...catalogue.nights import Nights
from ...catalogue.store import Catalogue, NoCatalogue, earlier_release
from ...comparison.changed.edit_groups import Group
from ...comparison.nightly.news import Between, Kind, News, Tally, newly_broken, newly_unread
from ...comparison.changed.pairs import heads_of
from ...comparison.coded import sentence_of_coded
from ...comparison.wording import moved
from ...fields.rules import Rule
from ...model.records import PictureRecord
from ...model.errors import WrongUse
from ...model.problems import NOT_READABLE
from ...model.texts import escaped, path_members, path_or_none, pictures_in_words, safe, whole_path
from ...scan.walk import Excluded
from ...scan.index import IndexOptions, index, lacking, number_of
from ..exit_codes import DIFFERENCE, SUCCESS, UNKNOWN
from ..options import Output, Run, groups_of
from ..output import fitting, local_time, print_lines, print_object, say_notes, width
from ..looking import how_of, is_quiet
from ..names import settle_first
from .check import rules_of_file
from .index import going_on, not_read_again, say_unused
from .report import write_report

# The letter of `nightly`: what is new, on at most 30 lines of 80 columns.

LINES, COLUMNS = 30, 80
OF_KIND = 5  # lines of one kind of news
EDITS = 20  # lines with the values before and after

_PLURAL = ("keywords", "instructions", "usage terms")  # which have no article


def letter(head: str, news: Sequence[News], end: Sequence[str], groups: Sequence[Group] = ()) -> Iterator[str]:
    """The lines: a head, the news, as far as there is room the groups of pictures that were edited
    alike, those that changed like no other first, and what is printed below them. If there are too
    many news, the last ones are counted."""
    lines = [*_of_folders(news), *_of_pictures([it for it in news if it.kind not in _OF_FOLDERS])]
    room = LINES - 3 - len(end)
    if len(lines) > room:
        lines[room - 1 :] = [f"  .. and {len(lines) - room + 1:,} more lines, which changed --each has"]
    yield cut(head)
    yield from [""] * bool(lines)
    yield from lines
    rows = [line for it in groups[:EDITS] for line in _of_edits(it)]
    rows = rows[: min(max(room - len(lines) - 1, 0), EDITS)]
    yield from [""] * bool(rows)
    yield from rows
    if end:
        yield ""
        yield from end


def _of_edits(group: Group) -> list[str]:
    """Pictures that were edited alike, in a line; of one that changed like no other each edit, with the
    text around it if the line has room for that."""
    if not group.is_odd:
        return [cut(f"  {pictures_in_words(group.pictures)}: {'; '.join(map(safe, group.words()))}")]
    name = _from_behind(whole_path(group.names[0]), COLUMNS // 3)
    around = [f"  {name} {safe(it)}" for it in group.words()]
    alone = [f"  {name} {safe(it)}" for it in group.words(is_whole=False)]
    return [it if width(it) <= COLUMNS else cut(short) for it, short in zip(around, alone)]


_OF_FOLDERS = (Kind.ABSENT, Kind.CLOSED)


def _of_folders(news: Sequence[News]) -> Iterator[str]:
    """A line for each folder that isn't there."""
    for entry in news:
        if entry.kind in _OF_FOLDERS:
            why = "can't be read." if entry.kind == Kind.CLOSED else "is empty or gone (mounted?)."
            kept = f" {why} Its {pictures_in_words(entry.count)} stay{'s' * (entry.count == 1)} as known."
            yield f"  {_from_behind(whole_path(entry.names[0][0]), COLUMNS - 2 - len(kept))}{kept}"


def _of_pictures(news: Sequence[News]) -> Iterator[str]:
    """A line for each kind of news, with the first names for which it has room."""
    digits = max((len(f"{it.count:,}") for it in news), default=0)
    for _, group in groupby(news, lambda it: it.kind):
        entries = list(group)
        shown = entries if len(entries) <= OF_KIND else entries[: OF_KIND - 1]
        for entry in shown:
            names = [whole_path(path) if to is None else moved(whole_path(path), whole_path(to)) for path, to in entry.names]
            count = 1 if entry.kind == Kind.MOVED_FOLDER else entry.count  # there are no further names of a folder
            yield with_names(f"  {entry.count:>{digits},} {words_of(entry)}", names, count)
        if len(shown) < len(entries):
            yield f"  {'..':>{digits}} and {len(entries) - len(shown):,} more lines like these"


def words_of(news: News) -> str:
    """What is said of the pictures.

    >>> words_of(News(Kind.LOST, "copyright", 3)), words_of(News(Kind.ADDED, "keywords", 1))
    ('lost their copyright', 'now has keywords')
    """
    words = news.kind.one if news.count == 1 else news.kind.many
    if news.about in _PLURAL:
        words = words.replace("a {}", "{}").replace("another {}", "other {}")
    return words.format(escaped(news.about))


def with_names(text: str, names: Sequence[str], count: int) -> str:
    """A text with as many names as a line has room for, one at least.

    >>> with_names("  2 are new", ["a.jpg", "b.jpg"], 2), with_names("  9 are new", ["a.jpg"], 9)
    ('  2 are new: a.jpg, b.jpg', '  9 are new: a.jpg ..')
    """
    if not names:
        return cut(text)
    text = cut(text, COLUMNS - 20)
    shown = [_from_behind(names[0], COLUMNS - width(text) - 5)]
    for name in names[1:]:
        if width(f"{text}: {', '.join([*shown, name])} ..") > COLUMNS:
            break
        shown.append(name)
    return f"{text}: {', '.join(shown)}{' ..' * (count > len(shown))}"


def cut(text: str, columns: int = COLUMNS) -> str:
    """The beginning of a text that is too long for a line."""
    return text if width(text) <= columns else f"{text[: fitting(text, 0, columns - 3)]} .."


def _from_behind(text: str, columns: int) -> str:
    """The end of a name that is too long for a line, which tells more than its beginning."""
    kept = fitting(text[::-1], 0, columns - 2)
    return text if width(text) <= columns else f"..{text[len(text) - kept :]}"


def command(before: str, last: str) -> list[str]:
    """The command that shows all, in as few lines as have room for the names."""
    words = "exifnorm-pictures changed --each"
    for lines in ([f"All changes: {words} {before} {last}"], ["All changes:", f"  {words} {before} {last}"]):
        if max(map(width, lines)) <= COLUMNS:
            return lines
    return ["All changes:", f"  {words} \\", f"  {before} \\", f"  {last}"]


Broken = Optional[tuple[int, int]]  # how many pictures break a rule tonight, and how many did at the last night


class Night:
    """A run, and what it has found."""

    def __init__(self, run: Run, output: Output, nights: Nights, folders: list[bytes], rules: Sequence[Rule]) -> None:
        self.run, self.output, self.nights, self.folders, self.rules = run, output, nights, folders, rules
        self.is_first = nights.is_first
        self.excluded = Excluded(run.exclude)
        self.closed: list[PictureRecord] = []  # folders that can't be read
        self.since = ""
        self.pictures = self.with_news = 0
        self.news: list[News] = []
        self.groups: list[Group] = []
        self.broken: Broken = None
        self.notes: list[str] = []
        self.unread: "Counter[str]" = Counter()  # pictures that lack what an option reads

    @property
    def status(self) -> int:
        """2 if something can't be decided that could be, 1 with news; all of a first night is new."""
        if self.is_first:
            return DIFFERENCE
        if any(it.kind.is_open for it in self.news):
            return UNKNOWN
        return DIFFERENCE if self.news else SUCCESS

    def look(self) -> None:
        """Fills tonight's catalogue."""
        with Catalogue(self.nights.tonight, make=True) as tonight:
            run, earlier = self.run, self.nights.earlier
            if earlier:  # which went on with both
                run = run._replace(sidecars=run.sidecars or earlier.sidecars, pixels=run.pixels or earlier.pixels)
            run = going_on(run, tonight.name, tonight.has_sidecars(), tonight.has_digests(), tonight.is_empty())
            own = [*self.nights.names, *([self.output.html] if self.output.html else [])]
            how = how_of(run, run.session.room)
            options = IndexOptions(self.folders, quiet=is_quiet(run), how=how, excluded=self.excluded, lines=self._note, own=own)
            index(options, tonight)
            self.unread = lacking(options, tonight)

    def _note(self, picture: PictureRecord) -> list[str]:
        self.closed.append(picture)
        return []

    def first(self) -> None:
        """Counts what a first night has found. Raises `WrongUse` if that is nothing."""
        if self.rules:
            kept_texts.keep(self.nights.tonight)
        with Catalogue(self.nights.tonight) as tonight:
            tally = Tally()
            query = f"SELECT path FROM pictures WHERE problem IN ({', '.join('?' * len(NOT_READABLE))}) ORDER BY path"
            head = heads_of([tonight])[0]
            for (path,) in tonight.rows(query, NOT_READABLE):
                tally.add(Kind.UNREADABLE, path[len(head) :] if path.startswith(head) else path)
            self.pictures = number_of(tonight, "problem IS NOT 'NoPicture'")
            if not self.pictures:
                raise _no_picture(self.folders)
            self.news = list(tally.all())
            if self.rules:
                self.broken = (Checked(tonight, self.rules).pictures_broken(), 0)
        if self.nights.earlier:
            self.notes = _of_earlier(self.nights)

    def compare(self) -> None:
        """Finds the news since the last night."""
        if self.rules:
            kept_texts.keep(self.nights.tonight)
        with Catalogue(self.nights.last) as last, Catalogue(self.nights.tonight, make=True) as tonight:
            self.since = next(iter(reversed(last.runs())), ("",))[0]
            between = Between(last, tonight, self.folders, self.run.session)
            between.absent.hold(last, tonight)
            self._add_closed(between, last)
            if self.rules:
                self._check(between, last, tonight)
            self.news, self.groups = between.tally.all(), between.kinds.groups()
            self.pictures, self.with_news = between.pictures, between.with_news
            self.notes = list(filter(None, [sentence_of_coded(between.coded, "--pixels")]))

    def _add_closed(self, between: Between, last: Catalogue) -> None:
        """The folders that can't be read. One that isn't there is absent."""
        for folder in self.closed:
            known = last.count_below(folder.path)
            if known:
                kind = Kind.CLOSED if os.path.lexists(folder.path) else Kind.ABSENT
                between.tally.add(kind, between.shown(folder.path), whole_path(folder.path), count=known)

    def _check(self, between: Between, last: Catalogue, tonight: Catalogue) -> None:
        """What breaks a rule that didn't, by the same rules."""
        with last.reading():
            before, now = Checked(last, self.rules), Checked(tonight, self.rules)
            for broken in newly_broken(before, now, between.moves):
                rule = self.rules[broken.number]
                between.tally.add(Kind.RULE, between.shown(broken.path), f"line {rule.line}: {rule.text}")
            for path in newly_unread(before, now, between.moves):
                between.tally.add(Kind.UNREAD, between.shown(path))
            self.broken = (now.pictures_broken(), before.pictures_broken())


def run(arguments: argparse.Namespace) -> int:
    """Looks at the folders, tells what is new, and keeps tonight's catalogue as the last one."""
    files, run, output = groups_of(arguments)
    name, files = settle_first(files)
    if shards.is_folder(name):
        raise NoCatalogue(
            f"{name} is a folder of catalogues, and nightly keeps one catalogue. What is new of a folder of them: cp -r {shlex.quote(name)}"
            f" BEFORE, then exifnorm-pictures index FOLDER --shards {shlex.quote(name)}, then exifnorm-pictures changed BEFORE"
            f" {shlex.quote(name)} --each"
        )
    folders = list(dict.fromkeys(os.path.abspath(os.fsencode(it)) for it in files.names))
    for folder in folders:
        if os.path.lexists(folder) and not os.path.isdir(folder):
            raise WrongUse(f"{whole_path(folder)} is no folder")
    _refuse_unknown(folders, name)
    if output.html:
        from ...report.rendering import check  # which takes long to import

        check()  # which may be missing
    rules = rules_of_file(arguments.rules) if arguments.rules else []
    about = repr((folders, run.sidecars, run.pixels, run.maker_notes, run.whole, run.exclude))
    with Nights(name, about, arguments.nights) as nights:
        nights.begin(run.session.room)
        night = Night(run, output, nights, folders, rules)
        night.look()
        if not nights.is_as_last:  # then cron sends this once
            say_notes(*not_read_again(night.unread))
        if night.is_first:
            night.first()
        else:
            night.compare()
        if night.status:
            _print_news(night)
        nights.keep(bool(night.status))
    return night.status


def _refuse_unknown(folders: Sequence[bytes], name: str) -> None:
    """Raises `WrongUse` for a folder that isn't there and of which no night has seen a picture: it may be mistyped, and would never have
    news."""
    absent = [folder for folder in folders if not os.path.lexists(folder)]
    if absent and (not os.path.lexists(name) or earlier_release(name)):
        raise _no_picture(absent)
    if absent:
        with Catalogue(name) as last:
            for folder in absent:
                if not last.count_below(folder):
                    raise WrongUse(f"{whole_path(folder)} isn't there, and {name} has no picture below it: is its name right?")


def _of_earlier(nights: Nights) -> list[str]:
    """What is said once of a catalogue of an earlier release."""
    assert nights.earlier
    last, kept = (whole_path(os.path.basename(os.fsencode(name))) for name in (nights.last, nights.kept))
    count = nights.earlier.pictures
    had = "" if count is None else f" It had {pictures_in_words(count)}."
    return [f"{last} was of an earlier release, and can't be compared with tonight.", f"It is kept as {kept}.{had}"]


def _no_picture(folders: Sequence[bytes]) -> WrongUse:
    return WrongUse(f"no picture is below {', '.join(map(whole_path, folders))}: is the disk mounted?")


def _print_news(night: Night) -> None:
    """Prints the letter and writes the page, before tonight's catalogue becomes the last one: if this is killed, the news is in tomorrow's
    letter."""
    if night.output.json:
        _print_objects(night)
    else:
        print_lines(letter(_head(night), night.news, _end(night), night.groups))
    sys.stdout.flush()
    say_unused(night.excluded.unused())
    if night.output.html:
        _write_page(night, night.output.html)


def _write_page(night: Night, name: str) -> None:
    from ...report import book, contents  # which take long to import

    with contextlib.ExitStack() as open_:
        tonight = open_.enter_context(Catalogue(night.nights.tonight))
        last = None if night.is_first else open_.enter_context(Catalogue(night.nights.last))
        about = contents.About(tonight, last, session=night.run.session, rules=night.rules)
        try:
            write_report(about, name, night.nights.names)
        except book.TooLarge as error:  # the letter is printed all the same
            say_notes(f"{name} isn't written: {error}")


# The letter


def _head(night: Night) -> str:
    where = ", ".join(map(whole_path, night.folders)) if len(night.folders) > 1 else whole_path(os.path.basename(night.folders[0]) or b"/")
    many = pictures_in_words(night.pictures)
    if night.is_first:
        return f"{where}, the first night: {many}"
    return f"{where} since {local_time(night.since)}: {many} then or now, {night.with_news:,} with news"


def _end(night: Night) -> list[str]:
    """The lines below the news."""
    lines = []
    if night.broken:
        now, before = night.broken
        many = f"{now:,} picture{'s break' if now != 1 else ' breaks'} a rule"
        lines.append(f"{many}." if night.is_first else f"{many}, {before:,} last night.")
    lines += night.notes
    if not night.is_first:
        lines += command(*(escaped(shlex.quote(name)) for name in night.nights.compared))
    return lines


# JSON


def _print_objects(night: Night) -> None:
    for news in night.news:
        about = {
            "news": news.kind,
            "about": news.about or None,
            "to": news.to or None,
            "is_open": news.kind.is_open,
            "count": news.count,
            "pictures": [{**path_members(path), "to": path_or_none(to)} for path, to in news.names],
        }
        print_object("nightly", "news", about)
    now, before = night.broken or (None, None)
    summary = {
        "since": night.since or None,
        "compared": night.pictures,
        "with_news": night.with_news,
        "broken_pictures": now,
        "broken_pictures_before": None if night.is_first else before,
        "notes": night.notes,
    }
    print_object("nightly", "summary", summary)
