"""The parts of a report as HTML, by the templates."""

from __future__ import annotations

import base64
import hashlib
import json
import os
import sqlite3
from collections import Counter
from datetime import datetime
from pathlib import Path
from typing import TYPE_CHECKING, Any, Callable, Iterable, Sequence

from ..catalogue.checking import Checked
from ..catalogue.store import added
from ..comparison.changed.edits import head_of, steps_of
from ..comparison.same.groups import of_notes
from ..fields.choosing import of_maker_notes
from ..model.found import STANDARDS
from ..model.errors import Failure
from ..model.problems import COUNTED, NOT_THERE, TEXTS
from ..model.texts import Result, escaped, in_words, safe, whole_path
from ..refusals.causes import CAUSES, words_of
from .changes import ChangedPicture, Changes, Difference, labels_of
from .contents import About, Entry, Links, below, unproved
from .lists import Counts, mending_all, texts_by_standard
from .small_pictures import Kept, SmallPictures

if TYPE_CHECKING:
    import jinja2
    from .book import Section, Written

# The index of a report that is a folder: what its search box looks for, in scripts of a limited length, which a page of a file can load.

_LENGTH = 200_000  # characters of a script; fewer than the longest entry has more


def name_of(number: int) -> str:
    """The name of a script. report.js has it, too."""
    return f"search-{number}.js"


class SearchIndex:
    """Writes the index, entry by entry: of each its place, its kind, its words, and the names of its pictures."""

    def __init__(self, put: Callable[[str, str], None], roots: Sequence[bytes]) -> None:
        self.files = 0
        self._put, self._roots = put, roots
        self._lines: list[str] = []
        self._length = 0

    def add(self, key: str, place: str, entry: Entry) -> None:
        """Adds an entry of a list."""
        kind, names = key, [self._name(it) for it in entry.pictures]
        if isinstance(entry.data, Difference):
            kind, names = f"{key}/{entry.data.result}", [self._changed(it) for it in entry.data.pictures]
        line = json.dumps([place, kind, " ".join(safe(it) for it in entry.words if it), names])
        self._lines.append(line)
        self._length += len(line)
        if self._length > _LENGTH:
            self.close()

    def close(self) -> None:
        """Writes what wasn't written yet."""
        if self._lines:
            self.files += 1
            self._put(name_of(self.files), "exifnormIndex([\n" + ",\n".join(self._lines) + "\n]);\n")
            self._lines, self._length = [], 0

    def _name(self, path: bytes) -> str:
        return whole_path(below(path, self._roots))

    def _changed(self, picture: ChangedPicture) -> str:
        """The name of a picture, and its new one if it has moved."""
        name = whole_path(picture.name)
        after = self._name(picture.after) if picture.after else name
        return name if name == after else f"{name} \N{RIGHTWARDS ARROW} {after}"


def kinds_of(lists: Sequence[tuple[str, str]], results: Iterable[str]) -> list[tuple[str, str]]:
    """What can be chosen beside the search box: each list by its key and title, and the kinds of change.

    >>> kinds_of([("changed", "Changed or in doubt"), ("same", "Pictures with the same metadata")], ["moved"])[1:]
    [('changed/moved', 'Changed or in doubt: moved'), ('same', 'Pictures with the same metadata')]
    """
    kinds: list[tuple[str, str]] = []
    for key, title in lists:
        kinds.append((key, title))
        if key == "changed":
            kinds += [(f"{key}/{result}", f"{title}: {result}") for result in results]
    return kinds


TEMPLATES = Path(__file__).with_name("templates")

STATE_WORDS = {
    **COUNTED,
    "accepted": "accepted: all blocks were read",
    "refused": "with a block that is refused or unreadable",
    "no block": "without an Exif, IPTC or XMP block",
    "damaged": "cut off, and without a block in what is left",
}
_TONES = {"accepted": "good", "refused": "bad", "no block": "plain", "damaged": "bad", "NoPicture": "plain"}
_RESULT_TONES = {
    Result.SAME: "good",
    Result.ONLY_MAKER_NOTE: "plain",
    Result.SAME_FILE: "plain",
    Result.REFUSED_SAME: "plain",
    Result.DAMAGED: "bad",
    Result.DAMAGED_BEFORE: "bad",
    Result.DAMAGED_DIFFERENT: "bad",
    Result.REFUSED: "bad",
    Result.NOT_READ: "bad",
    Result.NOT_KNOWN: "bad",
}


class NoTemplates(Failure):
    """No page can be made. The text is the reason."""


def check() -> None:
    """Raises `NoTemplates` if Jinja2 isn't installed."""
    try:
        import jinja2  # noqa: F401  # which is needed later
    except ImportError:
        why = "it needs the Python package Jinja2 (Debian: apt-get install python3-jinja2)"
        raise NoTemplates(f"--html: {why}") from None


def environment(filters: dict[str, Callable[..., Any]]) -> "jinja2.Environment":
    """What knows the templates, with some filters more."""
    import jinja2

    def finalize(value: object) -> object:
        """A value as it is printed: what is no HTML of a template has no control characters."""
        return safe(str(value)) if isinstance(value, str) and not hasattr(value, "__html__") else value

    templates = jinja2.Environment(
        loader=jinja2.FileSystemLoader(TEMPLATES, encoding="utf-8"),
        autoescape=True,
        finalize=finalize,
        undefined=jinja2.StrictUndefined,
        trim_blocks=True,
        lstrip_blocks=True,
    )
    templates.filters.update({**_FILTERS, **filters})
    return templates


_FILTERS = {
    "number": "{:,}".format,
    "counted": in_words,
    "path": whole_path,
    "escaped": escaped,
    "rows": lambda counts, tone: [(name, count, tone) for name, count in Counter(dict(counts)).most_common()],  # of a chart
    "unknown": of_notes,
    "maker_notes": of_maker_notes,
    "state": lambda state: STATE_WORDS.get(state, state),
    "tone": lambda state: _TONES.get(state, "odd"),
    "result_tone": lambda result: _RESULT_TONES.get(result, "odd"),
    "problem": lambda problem: TEXTS.get(problem, ""),
    "texts": texts_by_standard,
    "labels": labels_of,
    "head": head_of,
    "words": steps_of,
    "cause": CAUSES.get,
    "words_of_cause": words_of,
}


WORDS = {
    "changed": "see changes",
    "contradictions": "contradicts itself",
    "broken": "breaks a rule",
    "same": "same as another",
    "refused": "refused",
    "damaged": "damaged",
    "unread": "not wholly read",
}


class Marks:
    """The lists that each picture is in. Close it."""

    def __init__(self) -> None:
        self._base = sqlite3.connect("", isolation_level=None)
        self._base.execute("CREATE TABLE marks (path BLOB, list TEXT, place TEXT, PRIMARY KEY (path, list)) WITHOUT ROWID")
        self._base.execute("PRAGMA journal_mode = OFF")
        self._base.execute("BEGIN")

    def close(self) -> None:
        """Closes the connection, and with it the database."""
        self._base.close()

    def add(self, key: str, places: Iterable[tuple[bytes, str]]) -> None:
        """Keeps where a list has some pictures; of several places the first."""
        if key in WORDS:
            self._base.executemany("INSERT OR IGNORE INTO marks VALUES (?, ?, ?)", ((path, key, place) for path, place in places))

    def shown(self, paths: Iterable[bytes]) -> int:
        """Notes that pictures were shown. Returns how many of them were not before."""
        return added(self._base, "INSERT OR IGNORE INTO marks VALUES (?, '', '')", ((path,) for path in paths))

    def of(self, path: bytes) -> list[tuple[str, str]]:
        """What the lists say of a picture, each with its place."""
        known = dict(self._base.execute("SELECT list, place FROM marks WHERE path = ?", (path,)))
        return [(word, known[key]) for key, word in WORDS.items() if key in known]


WITH_PICTURES = ("changed", "same", "captioned", "folders")  # the lists that show small pictures


class Renderer:
    """Makes HTML of what a report is about."""

    def __init__(self, about: About, marks: Marks, kept: Kept) -> None:
        from markupsafe import Markup  # of Jinja2

        self._html = Markup
        self.small_pictures = SmallPictures([one for one in (about.catalogue, about.old) if one], kept, about.session)
        self._look, self._kept = about.look, kept
        roots = about.catalogue.roots()
        filters = {
            "address": Links(about.link_to, roots, about.beside, about.up).of,
            "below": lambda path: below(path, roots),
            "marks": marks.of,
        }
        self._templates = environment(filters)
        for name in self._templates.list_templates(extensions=["html"]):
            self._templates.get_template(name)  # compiled once, whatever is listed
        style, script = ((TEMPLATES / name).read_text(encoding="utf-8") for name in ("report.css", "report.js"))
        self._shared: dict[str, Any] = {
            "title": about.title,
            "now": datetime.now().astimezone().strftime("%Y-%m-%d %H:%M"),
            "roots": roots,
            "unproved": unproved(about.catalogue.runs()),
            "standards": STANDARDS,
            "absent": NOT_THERE,
            "style": self._html(style),
            "style_digest": digest(style),
            "script": self._html(script),
            "script_digest": digest(script),
            "files": 0,
            "of_pictures": kept.SOURCES,
            "mend_all": mending_all(os.path.abspath(about.catalogue.name)),
            "has_pillow": self.small_pictures.has_pillow or not about.look,
            "look": about.look,
            "symbols": [],
        }

    def entries(self, key: str, entries: Sequence[Entry], first: int) -> Any:
        """Some entries of a list, which are numbered from `first` on."""
        pictures = self._small_pictures(key, entries)
        template: Any = self._templates.get_template(f"{key}.html")
        return template.make_module({**self._shared, "pictures": pictures}).entries(entries, first)

    def _small_pictures(self, key: str, entries: Sequence[Entry]) -> dict[Any, str]:
        """The small pictures of those lists that show them, by paths; and those of earlier files, by the digests of their coded pictures."""
        if not self._look or key not in WITH_PICTURES:
            return {}
        paths = [path for entry in entries for path in entry.pictures]
        # pictures that are other ones or damaged
        others = [one for entry in entries if key == "changed" and entry.data.is_other for one in entry.data.pictures]
        compared = [path for one in others for path in (one.after, one.earlier) if path]
        pictures: dict[Any, str] = self.small_pictures.of(paths, compared)
        for one in others:
            address = one.digest and self.small_pictures.of_digest(one.digest)
            if address:
                pictures[one.digest] = address
        return pictures

    def page(self, section: "Section", number: int, has_next: bool, body: Any) -> str:
        """A further page: a part of a list."""
        template = self._templates.get_template("list.html")
        return str(template.render(self._shared, section=section, number=number, has_next=has_next, body=body))

    def index(self, counts: Counts, lists: list["Written"], changes: Changes | None, rules: Checked | None, files: int) -> str:
        """The first page, or the only one, whose search box looks into the index if that has files."""
        results = [it for it, _ in changes.counted if it.has_changed is not False] if changes else []
        titles = [(it.section.key, it.section.title) for it in lists if it.entries]
        groups = changes.groups() if changes else []
        paths = [one.after for group in groups for one, _ in group.pictures if one.after]
        values = {
            "counts": counts,
            "lists": lists,
            "changes": changes,
            "rules": rules,
            "files": files,
            "kinds": kinds_of(titles, results),
            "groups": groups,
            "pictures": self.small_pictures.of(paths) if self._look else {},
            "symbols": self._kept.symbols,
        }
        return str(self._templates.get_template("index.html").render(self._shared, **values))

    def joined(self, parts: Sequence[Any]) -> Any:
        """Several parts as one."""
        return self._html("").join(parts)


def digest(text: str) -> str:
    """What allows a style or a script in a content security policy (CSP 2, 4.2.5)."""
    return f"sha256-{base64.b64encode(hashlib.sha256(text.encode('utf-8')).digest()).decode('ascii')}"
