"""The command `verify`: reads files again, and tells what is damaged from what is captioned."""

from __future__ import annotations

import argparse
import contextlib
import os
import sys
from collections import Counter
from datetime import datetime, timezone
from typing import BinaryIO, Iterable, Iterator, NamedTuple, Sequence

from ...catalogue.store import Catalogue, NoCatalogue
from ...comparison.verified import PAYLOAD, State, Verified, fill, looker, new_files, payload, verified
from ...files import atomic
from ...model.errors import WrongUse
from ...model.texts import escaped, in_words, path_members, path_or_none, shown_path
from ...scan.index import IndexOptions, index
from ..looking import how_of, is_quiet, opened
from ..names import named, settle_first, with_first
from ..exit_codes import DIFFERENCE, SUCCESS, UNKNOWN
from ..options import Files, Output, Run, groups_of
from ..output import answer, closed_folder, print_line

SHOWN = 10  # files that are named of each state


def run(arguments: argparse.Namespace) -> int:
    """Compares the files that are there with a catalogue."""
    files, run, output = groups_of(arguments)
    name, files = (arguments.bag, with_first(files)) if arguments.bag else settle_first(files)
    if arguments.evidence and os.path.lexists(arguments.evidence):
        raise atomic.NotReplaced(atomic.not_written(escaped(arguments.evidence), "it is there already"))
    form, told = arguments.form or "sha256sum", Told(output, arguments.list)
    with contextlib.ExitStack() as open_:
        before = open_.enter_context(_of_bag(name, run)) if arguments.bag else open_.enter_context(opened(name, run))
        folders = _folders(files, arguments.bag, before)
        now, earlier = open_.enter_context(_read_again(folders, run, arguments.state, before))
        for file in verified(before, now, folders):
            told.add(file)
        new = new_files(before, now) - told.counts[State.MOVED]
        size, count = next(now.rows("SELECT ifnull(sum(size), 0), count(*) FROM pictures WHERE sha256 != ''"))
        sums = _Sums(new, count, size, earlier)
        is_nothing = not (count or told.counts)
        if arguments.evidence and not is_nothing:
            _write_evidence(arguments.evidence, form, now)
    if is_nothing:
        _remove_state(arguments.state)
        below = f" below {', '.join(map(shown_path, folders))}" if folders else ""
        raise WrongUse(f"{name} has no file{below}, and none is there, so nothing is verified")
    about = {"counts": dict(told.counts), "damaged_before": told.old, **sums._asdict()}
    answer(output, "verify", "summary", about, _lines(told, sums, "manifest" if arguments.bag else "catalogue"))
    if arguments.evidence and not output.json:
        print_line(f"{escaped(arguments.evidence)}: SHA-256 of {in_words(count, 'file')}, {_READERS[form]}")
    _remove_state(arguments.state)
    # a bag has no other files than its manifest, nor other names
    return _status(told, bool(arguments.bag and (new or told.counts[State.MOVED])))


def _status(told: Told, has_more: bool) -> int:
    """The status; `has_more` is whether files are there that may not be."""
    if any(it.is_good is None for it in told.counts):
        return UNKNOWN
    return DIFFERENCE if has_more or any(it.is_good is False for it in told.counts) else SUCCESS


class _Sums(NamedTuple):
    """What was read, by the names that an object has for it."""

    new: int  # files that weren't known
    files: int
    bytes: int
    earlier: int  # files that a run has read which was stopped


def _folders(files: Files, bag: str | None, catalogue: Catalogue) -> list[bytes]:
    """The folders to read. Raises `WrongUse`."""
    names = named(files) if files.names or files.files_from else [payload(bag)] if bag else []
    folders = [os.path.abspath(it) for it in names] or catalogue.roots()
    for folder in folders:
        if not os.path.lexists(folder):  # as of a disk that isn't mounted: each of its files would seem to be missing
            raise WrongUse(f"{shown_path(folder)} isn't there, so nothing is verified: is its file system mounted?")
    return folders


@contextlib.contextmanager
def _of_bag(bag: str, run: Run) -> Iterator[Catalogue]:
    """A catalogue of the manifest of a bag."""
    with Catalogue(os.path.join(run.session.room, "manifest"), make=True) as catalogue:
        fill(catalogue, bag)
        yield catalogue


@contextlib.contextmanager
def _read_again(folders: Sequence[bytes], run: Run, state: str | None, before: Catalogue) -> Iterator[tuple[Catalogue, int]]:
    """A new catalogue of the files that are there now, each read once if it is as the catalogue has it; and how many a run has read which was
    stopped. With --state that run has left its catalogue for this one."""
    name = os.path.join(run.session.room, "catalogue")
    if state:
        is_other = not os.path.isdir(state) or not all(it.startswith(_KEPT) for it in os.listdir(state))
        if os.path.lexists(state) and is_other:
            raise atomic.NotReplaced(atomic.not_written(escaped(state), "it is there, and is no state of an earlier run"))
        with contextlib.suppress(FileExistsError):
            os.mkdir(state)
        name = os.path.join(state, _KEPT)
    with Catalogue(name, make=True) as catalogue:
        closed: list[str] = []
        # sidecars are files like all others here, each with its own digest
        how = how_of(run._replace(pixels=True), run.session.room, closed_folder)
        options = IndexOptions(folders, quiet=is_quiet(run), how=how, print_line=closed.append, look=looker(before))
        earlier = index(options, catalogue)["unchanged"]
        if closed:
            raise NoCatalogue("; ".join(closed))
        yield catalogue, earlier


_KEPT = "verified.catalogue"


def _remove_state(state: str | None) -> None:
    """Removes what a run could go on from, once its answer is out."""
    sys.stdout.flush()
    if state:
        os.unlink(os.path.join(state, _KEPT))
        os.rmdir(state)


# What is printed


class Told:
    """How many files have each state, and the first names of each."""

    def __init__(self, output: Output, listed: str | None) -> None:
        self._output, self._list = output, listed
        self.counts: "Counter[State]" = Counter()
        self.old = 0  # files that were damaged before, and in which nothing else is damaged now
        self._names: dict[State | None, list[str]] = {}  # None: of files that were damaged before

    def add(self, file: Verified) -> None:
        """Counts a file, and prints it or keeps its name."""
        self.counts[file.state] += 1
        is_old = bool(file.damage and file.state.is_good)
        self.old += is_old
        if self._list:
            # of damaged files also those that were so before
            if file.state.listed == self._list or (self._list == "damaged" and file.damage):
                _print_one(self._output, file)
        elif self._output.json:
            if file.state != State.AS_IT_WAS or is_old:
                _print_one(self._output, file)
        else:
            self._keep(file, is_old)

    def _keep(self, file: Verified, is_old: bool) -> None:
        """Keeps the names of a file, if it is one of the first."""
        names = self._names.setdefault(file.state, [])
        words = [] if is_old and file.place is None else _words(file)
        if file.state != State.AS_IT_WAS and len(names) <= SHOWN:
            names.append(shown_path(file.path) + (f" ({', '.join(words)})" if words else ""))
        old = self._names.setdefault(None, [])
        if is_old and len(old) <= SHOWN:
            old.append(f"{shown_path(file.path)} ({file.damage})")

    def lines(self) -> Iterator[str]:
        """The states and the names, for people. Damage that isn't new is no state, and is said so, because the status is 0."""
        for state in State:
            if self.counts[state]:
                yield f"{self.counts[state]:>11,} {state.text}"
                yield from _first(self._names.get(state, []))
        if self.old:
            yield f"{self.old:>11,} of these {'was' if self.old == 1 else 'were'} already damaged before"
            yield from _first(self._names.get(None, []))


def _lines(told: Told, sums: _Sums, what: str) -> Iterator[str]:
    """The summary for people."""
    of_earlier = f"; {sums.earlier:,} of them by a run that was stopped" * bool(sums.earlier)
    yield f"{in_words(sums.files, 'file')} read again, {_size(sums.bytes)}{of_earlier}."
    yield from told.lines()
    if sums.new:
        yield f"{sums.new:>11,} that the {what} doesn't know"


def _first(names: Sequence[str]) -> Iterator[str]:
    yield from (f"              {name}" for name in names[:SHOWN])
    yield from ["              .."] * (len(names) > SHOWN)


def _print_one(output: Output, result: Verified) -> None:
    """Prints an object, or the line of a file with its state."""
    known = {"state": result.state, "note": result.note or None, "place": path_or_none(result.place)}
    state = [result.state.text.removesuffix(": index --pixels adds it")] * (result.state != State.AS_IT_WAS)
    line = f"{shown_path(result.path)}: {', '.join([*state, *_words(result)])}"
    answer(output, "verify", "picture", {**path_members(result.path), **known}, [line])


def _words(result: Verified) -> list[str]:
    """What more is known of a file than its state."""
    if result.place is None:
        return [result.note] * bool(result.note)
    place = shown_path(result.place)
    return (
        [f"to {place}", *[result.note] * bool(result.note)]
        if result.state in (State.MOVED, State.RENUMBERED)
        else [f"{result.note} {place}"]
    )


def _size(octets: int) -> str:
    """A number of bytes for people.

    >>> _size(900), _size(1_100_000), _size(1_100_000_000_000)
    ('900 bytes', '1.1 MB', '1.1 TB')
    """
    for power, unit in ((4, "TB"), (3, "GB"), (2, "MB"), (1, "kB")):
        if octets >= 1000**power:
            return f"{octets / 1000**power:.1f} {unit}"
    return f"{octets} bytes"


# --evidence


def _write_evidence(name: str, form: str, now: Catalogue) -> None:
    """Writes the digest of each file, in the form that is asked for."""
    lines = _FORMS[form]

    def write(file: BinaryIO) -> None:
        rows = now.rows("SELECT path, sha256, size FROM pictures WHERE sha256 != '' ORDER BY path")
        file.writelines(lines(rows, os.path.dirname(os.path.abspath(os.fsencode(name)))))

    atomic.put(name, write, lambda _: False)


_Files = Iterable[tuple[bytes, str, int]]  # each with its SHA-256 and its bytes


def _sums(files: _Files, _folder: bytes) -> Iterator[bytes]:
    time = datetime.now(timezone.utc).strftime("%Y-%m-%d %H:%M:%S")
    yield f"# exifnorm-pictures verify, {time} UTC. To check again: sha256sum --quiet -c FILE\n".encode("ascii")
    yield from (line_of_sums(path, digest) for path, digest, _ in files)


def _hashdeep(files: _Files, _folder: bytes) -> Iterator[bytes]:
    """The form of hashdeep, in which a name is all to the end of the line. Raises `NotReplaced`."""
    yield b"%%%% HASHDEEP-1.0\n%%%% size,sha256,filename\n## exifnorm-pictures verify\n## To check again: hashdeep -r -a -k FILE FOLDER\n##\n"
    for path, digest, size in files:
        if b"\n" in path or b"\r" in path:
            raise atomic.NotReplaced(f"the form of hashdeep has no line ends in names, and {shown_path(path)} has one")
        yield b"%d,%s,%s\n" % (size, digest.encode("ascii"), path)


def _bag(files: _Files, folder: bytes) -> Iterator[bytes]:
    """The manifest of a bag (RFC 8493, 2.1.3), of the files of its payload. Raises `NotReplaced`."""
    for path, digest, _ in files:
        name = os.path.relpath(path, folder)
        if not name.startswith(PAYLOAD):
            raise atomic.NotReplaced(f"a bag has its files in the folder data beside the manifest, and {shown_path(path)} isn't there")
        try:
            name.decode("utf-8")
        except UnicodeDecodeError:
            raise atomic.NotReplaced(f"a manifest is in UTF-8, and the name {shown_path(path)} isn't") from None
        encoded = name.replace(b"%", b"%25").replace(b"\n", b"%0A").replace(b"\r", b"%0D")
        yield digest.encode("ascii") + b"  " + encoded + b"\n"


_FORMS = {"sha256sum": _sums, "hashdeep": _hashdeep, "bagit": _bag}
_READERS = {"sha256sum": "for sha256sum -c", "hashdeep": "for hashdeep -a -k", "bagit": "as the manifest of a bag"}


def line_of_sums(path: bytes, digest: str) -> bytes:
    r"""A line as sha256sum writes it, which escapes some characters of a name.

    >>> line_of_sums(b"/a/b.jpg", "12"), line_of_sums(b"/a\n\\", "12")
    (b'12  /a/b.jpg\n', b'\\12  /a\\n\\\\\n')
    """
    shown = path.replace(b"\\", b"\\\\").replace(b"\n", b"\\n").replace(b"\r", b"\\r")
    return (b"\\" if shown != path else b"") + digest.encode("ascii") + b"  " + shown + b"\n"
