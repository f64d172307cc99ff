"""A report as one page, or as the pages of a folder: what is on them, and in which order."""

from __future__ import annotations

from dataclasses import dataclass, field
from typing import Any, Callable, Iterator

from ..catalogue.checking import Checked
from ..model.errors import WrongUse
from ..model.texts import whole_path
from . import lists
from .changes import Changes
from .contents import About, Entry, pages_of
from .rendering import WITH_PICTURES, Marks, Renderer, SearchIndex
from .small_pictures import InPage, Kept

MOST_OF_A_PAGE = 2_000  # files of a report that is one page
MOST_BYTES = 64 << 20  # of such a page
CAPTIONED = "The same picture, other captions"
SHORT = 20  # pictures of a list that is on the first page of a folder

Put = Callable[[str, str], None]  # writes a page by its name


class TooLarge(WrongUse):
    """A report is too large for one page."""

    def __init__(self, why: str) -> None:
        super().__init__(f"{why} for one page. Write a folder of pages: --html NAME/ with a slash at the end")


@dataclass
class Section:
    """A list of a report. Its template has the name `key`."""

    key: str
    title: str
    what: str  # is counted of it
    entries: Iterator[Entry]


@dataclass
class Written:
    """A list that was written: on the first page, or on pages of its own."""

    section: Section
    number: int = 0  # of what is counted
    entries: int = 0
    pages: list[tuple[str, str]] = field(default_factory=list)  # names and labels
    body: Any = ""


class Book:
    """Writes the lists of a report, and then its first page."""

    def __init__(self, about: About, put: Put | None = None, kept: Kept | None = None) -> None:
        """`put` writes the further pages of a folder, and small pictures are `kept` there; without these there is one page. Raises `TooLarge`."""
        self.about, self._put = about, put
        self.done: Callable[[int], None] = lambda count: None  # gets the number of pictures that are shown
        self.counts = lists.counts_of(about)
        if not put and self.counts.total > MOST_OF_A_PAGE:
            raise TooLarge(f"{self.counts.total:,} files are too many")
        self._marks = Marks()
        self._renderer = Renderer(about, self._marks, kept or InPage())
        self._search = SearchIndex(put, about.catalogue.roots()) if put else None
        self._size = self._shown = 0

    def index(self) -> str:
        """The first page, after all others were written."""
        changes = Changes(self.about) if self.about.old else None
        try:
            rules = self.about.checked()
            written = [self._written(section) for section in self._sections(changes, rules)]
            shown = [it for it in written if it.entries or self._says_something(it.section.key)]
            return self._renderer.index(self.counts, shown, changes, rules, self._files(written))
        finally:
            self._marks.close()
            self._renderer.small_pictures.close()
            if changes:
                changes.close()

    def _files(self, written: list[Written]) -> int:
        """How many files the index for the search box has; 0 if all is on the first page."""
        if not self._search or not any(it.pages for it in written):
            return 0
        self._search.close()
        return self._search.files

    def _says_something(self, key: str) -> bool:
        """Whether a list without entries is shown."""
        if key == "contradictions":
            return self.counts.contradictions.pictures > 0
        return key in ("changed", "broken", "same", "refused") or (key == "unread" and self.counts.maker_notes > 0)

    def _sections(self, changes: Changes | None, rules: Checked | None) -> Iterator[Section]:
        about, counts = self.about, self.counts
        if changes:
            yield Section("changed", "Changed or in doubt", "file", changes.entries())
        yield Section("contradictions", "Contradictions", "picture", lists.contradicting(about, counts))
        if rules:
            yield Section("broken", "Broken rules", "rule", lists.breaking(rules))
        yield Section("same", "Pictures with the same metadata", "group", lists.same(about, counts))
        yield Section("captioned", CAPTIONED, "group", lists.captioned(about))
        yield Section("refused", "Refused blocks and what helps", "block", lists.refusals(about, counts))
        yield Section("damaged", "Cut off or damaged", "picture", lists.damaged(about))
        yield Section("unread", "Not wholly read", "picture", lists.unread(about))
        yield Section("problems", "Files without an answer", "file", lists.problems(about))
        yield Section("folders", "All pictures", "picture", lists.folders(about))

    def _written(self, section: Section) -> Written:
        """Writes a list: on the first page, if that is the only one or the list is short, and otherwise on pages of its own."""
        written = Written(section)
        pages = pages_of(section.entries)
        page = next(pages, None)
        while page is not None:
            following = next(pages, None)
            has_more = bool(written.pages or following)
            if self._put and (has_more or sum(len(it.pictures) for it in page) > SHORT):
                self._write_page(written, page, following is not None, self._put)
            else:
                written.body = self._renderer.joined([written.body, self._rendered(written, page, "")])
            page = following
        return written

    def _write_page(self, written: Written, page: list[Entry], has_next: bool, put: Put) -> None:
        section, number = written.section, len(written.pages) + 1
        name = f"{section.key}-{number}.html"
        body = self._rendered(written, page, name)
        written.pages.append((name, _label(section, page, number)))
        put(name, self._renderer.page(section, number, has_next, body))

    def _rendered(self, written: Written, page: list[Entry], name: str) -> Any:
        key, first = written.section.key, written.entries + 1
        for number, entry in enumerate(page, first):
            place = f"{name}#{key}-{number}"
            self._marks.add(key, ((path, place) for path in entry.pictures))
            if self._search:
                self._search.add(key, place, entry)
        body = self._renderer.entries(key, page, first)
        written.entries += len(page)
        is_counted = written.section.what in ("group", "rule")
        written.number += sum(it.is_first if is_counted else len(it.pictures) for it in page)
        if key in WITH_PICTURES:
            self._shown += self._marks.shown(path for it in page for path in it.pictures)
            self.done(min(self._shown, self.counts.total))  # the older catalogue may have more
        self._size += len(body)
        if not self._put and self._size > MOST_BYTES:
            raise TooLarge("what these pictures have is too much")
        return body


def _label(section: Section, page: list[Entry], number: int) -> str:
    """What a link to a page says: its number, or the folders that it shows."""
    if section.key != "folders":
        return f"page {number}"
    first, last = (whole_path(it.data["path"]) for it in (page[0], page[-1]))
    return first + " (continued)" * (not page[0].is_first) + f" to {last}" * (first != last)
