"""Catalogues that are made row by row, without pictures: how each column is compared, paired and counted."""

import contextlib
import hashlib
import os
import re
import sqlite3
import unittest
from collections import Counter
from unittest import mock

import kinds
from studio import WithPictures

from exifnorm_pictures.catalogue import store
from exifnorm_pictures.catalogue.store import VERSION, Catalogue, NoCatalogue
from exifnorm_pictures.comparison.changed import states as changed, pairs as pairing
from exifnorm_pictures.judge import judge
from exifnorm_pictures.fields.field import Field
from exifnorm_pictures.fields.listing import numbers_text
from exifnorm_pictures.fields.packing import packed
from exifnorm_pictures.files.session import Session
from exifnorm_pictures.model.found import EXIF, IPTC, NAMES, XMP, NotRead
from exifnorm_pictures.model.records import BlockRecord, PictureRecord, Stamp
from exifnorm_pictures.model.tables import PICTURES
from exifnorm_pictures.scan import looking
from exifnorm_pictures.scan.walk import How
from exifnorm_pictures.scan.looking import look
from exifnorm_pictures.scan.walk import FoundFile
from exifnorm_pictures.comparison.changed.states import Equal

BASE = {EXIF: "e", IPTC: "i", XMP: "x"}
KNOWN, OTHER, UNKNOWN = NotRead("trailer", "1" * 64), NotRead("trailer", "2" * 64), NotRead("trailer", "")


def digest(text):
    return hashlib.sha256(os.fsencode(text)).hexdigest()


def block_of(kind, text):
    """A block that means a text; one that begins with ! is refused, and its bytes are the text."""
    fields = packed([Field("main", "010f", "ASCII", len(text), text.encode())])[0]
    if text.startswith("!"):
        return BlockRecord(kind, NAMES[kind], "somewhere", "own", "refused", None, text[1:], 7, 100, digest(text))
    return BlockRecord(kind, NAMES[kind], "somewhere", "own", "accepted", digest(text), None, None, 100, digest(text), fields=fields)


def written_since(it):
    """A picture to which somebody wrote: of the same file nothing is in doubt."""
    return it.stamped(it.stamp and it.stamp._replace(changed=it.stamp.changed + 1))


def picture(name, blocks=BASE, parts=(), number=0, problem=None, root="/a", file=""):
    """A row of a catalogue; the number distinguishes files."""
    if not root.startswith("/"):
        raise ValueError(root)
    path = os.fsencode(f"{root.rstrip('/')}/{name}")
    number = number or int(digest(name)[:8], 16)
    return PictureRecord.of(
        path,
        os.fsencode(root),
        Stamp(number, number, number, number),
        "JPEG",
        "own",
        problem,
        "why" if problem else "",
        tuple(block_of(kind, text) for kind, text in ({} if problem else blocks).items()),
        tuple(parts),
        file=file,
    )


def with_blocks(it, blocks):
    """A picture in the same file with other blocks, and without a problem."""
    return PictureRecord.of(it.path, it.root, it.stamp, it.type, it.extractor, None, it.detail, tuple(blocks), it.unread, file=it.file)


class Tables(WithPictures):
    def catalogue(self, name, *pictures):
        made = Catalogue(self.path(name), make=True)
        self.addCleanup(made.close)
        run = made.begin_run("2000-01-01T00:00:00Z")
        # a file that was there and is gone has the row that it had, and a problem
        made.put(run, [it for it in pictures if it.problem not in ("Vanished", "Moved")])
        for it in pictures:
            if it.problem in ("Vanished", "Moved"):
                made.put(run, [with_blocks(it, (block_of(*one) for one in BASE.items()))])
                made.base.execute("UPDATE pictures SET problem = ? WHERE path = ?", (it.problem, it.path))
        return made

    def compared(self, before, after, only=None, every=False):
        """The results by name, where each picture that moved went, and the counts."""
        number = len(os.listdir(self.folder))
        counts = Counter()
        sides = self.catalogue(f"before{number}", *before), self.catalogue(f"after{number}", *map(written_since, after))
        found = list(changed.changed(*sides, counts, only, every))
        self.assertEqual([it.name for it in found], sorted(it.name for it in found))
        return {os.fsdecode(it.name): os.fsdecode(it.moved_to) if it.moved_to else it.result for it in found}, dict(counts)

    def test_each_column_is_compared(self):
        cases = {
            "same": (picture("p"), "same"),
            "exif": (picture("p", {**BASE, EXIF: "other"}), "different"),
            "iptc": (picture("p", {**BASE, IPTC: "other"}), "different"),
            "xmp": (picture("p", {**BASE, XMP: "other"}), "different"),
            "no xmp": (picture("p", {EXIF: "e", IPTC: "i"}), "different"),
            "part": (picture("p", parts=[KNOWN]), "not wholly read"),
            "unknown part": (picture("p", parts=[UNKNOWN]), "not wholly read"),
            "refused": (picture("p", {**BASE, EXIF: "!Overlap"}), "refused"),
            "unreadable": (picture("p", problem="Unreadable"), "not read"),
            "no picture": (picture("p", problem="NoPicture"), "not read"),
            "gone": (picture("p", problem="Vanished"), "missing after"),
            "moved": (picture("p", problem="Moved"), "missing after"),
        }
        for what, (after, expected) in cases.items():
            with self.subTest(what):
                for every in (False, True):
                    found, counts = self.compared([picture("p", number=5)], [after], every=every)
                    self.assertEqual((found, counts), ({} if expected == "same" and not every else {"p": expected}, {expected: 1}))

    def test_both_sides_of_a_kind(self):
        refused = {EXIF: "!Overlap"}
        cases = [
            ({"parts": [KNOWN]}, {"parts": [KNOWN]}, "same"),
            ({"parts": [KNOWN]}, {"parts": [OTHER]}, "not wholly read"),
            ({"parts": [UNKNOWN]}, {"parts": [UNKNOWN]}, "not wholly read"),
            ({"blocks": refused}, {"blocks": refused}, "refused, the same bytes"),
            ({"blocks": refused}, {"blocks": {EXIF: "!Doubled"}}, "refused"),
            ({"blocks": {XMP: "!NoRDF"}}, {"blocks": {XMP: "!NotText"}}, "unreadable"),
            ({"blocks": {**refused, IPTC: "i"}}, {"blocks": {**refused, IPTC: "j"}}, "different"),
            ({"blocks": {}}, {"blocks": {}}, "same"),
            ({"problem": "NoPicture", "file": "f"}, {"problem": "NoPicture", "file": "f"}, "no picture, the same bytes"),
            ({"problem": "NoPicture", "file": "f"}, {"problem": "NoPicture", "file": "g"}, "no picture, different bytes"),
            ({"problem": "Unreadable", "file": "f"}, {"problem": "Unreadable", "file": "f"}, "not read, the same bytes"),
            ({"problem": "Unreadable", "file": "f"}, {"problem": "Unreadable", "file": "g"}, "not read, different bytes"),
            ({"problem": "NoPicture"}, {"problem": "NoPicture"}, "not read"),
            ({"problem": "Unreadable"}, {"problem": "Unreadable"}, "not read"),
        ]
        for one, other, expected in cases:
            for every in (False, True):
                with self.subTest(one=one, other=other, every=every):
                    found, counts = self.compared([picture("p", **one)], [picture("p", **other)], every=every)
                    self.assertEqual((found, counts), ({} if expected == "same" and not every else {"p": expected}, {expected: 1}))

    def test_what_moved(self):
        bare = {}
        before = [
            picture("file", {EXIF: "1"}, number=1),
            picture("meaning", {EXIF: "2"}, number=2),
            picture("bare", bare, number=3),
            picture("x/twin", {EXIF: "4"}, number=4),
            picture("y/twin2", {EXIF: "4"}, number=4),
            picture("stays", number=6),
            picture("here", problem="Vanished"),
            picture("bad", problem="Unreadable"),
            picture("part", {EXIF: "8"}, [UNKNOWN], 8),
            picture("edited", {EXIF: "9"}, number=9),
        ]
        after = [
            picture("new/file", {EXIF: "1"}, number=1),
            picture("new/edited", {EXIF: "other"}, number=9),
            picture("new/meaning", {EXIF: "2"}, number=2).stamped(Stamp(2, 9, 9, 9)),
            picture("new/bare", bare, number=33),
            picture("z/twin2", {EXIF: "4"}, number=4),
            picture("z/other", {EXIF: "4"}, number=4),
            picture("stays", number=66),
            picture("new/here"),
            picture("new/part", {EXIF: "8"}, [UNKNOWN], 88),
        ]
        found, counts = self.compared(before, after)
        moves = {"file": "new/file", "meaning": "new/meaning", "x/twin": "z/other", "y/twin2": "z/twin2"}
        gone = {it: "missing after" for it in ("bare", "bad", "part", "edited")}
        came = {it: "missing before" for it in ("new/bare", "new/here", "new/part", "new/edited")}
        self.assertEqual(found, {**moves, **gone, **came})
        self.assertEqual(counts, {"same": 1, "moved": 4, "missing after": 4, "missing before": 4})

    def test_an_error_of_sqlite_while_rows_are_paired(self):
        """It names both catalogues, as either may be damaged."""
        sides = [self.catalogue(name, picture("p", {EXIF: name})) for name in ("before", "after")]
        names = f"{re.escape(self.path('before'))} or {re.escape(self.path('after'))}"
        for call, table in (
            (lambda it: list(it.differing()), "moved"),
            (lambda it: list(it.came()), "alone_after"),
            (pairing.Pairs.count, "chosen_before"),
        ):
            with contextlib.closing(pairing.Pairs(*sides, only={b"p"})) as pairs:
                pairs.base.execute(f"DROP TABLE main.{table}")
                with self.assertRaisesRegex(NoCatalogue, rf"^{names}: no such table: (main\.)?{table}$"):
                    call(pairs)


class File(WithPictures):
    """The catalogue as a file of SQLite."""

    def test_tables(self):
        """They are in golden/tables.sql; another table or column needs another version."""
        with Catalogue(self.path("c"), make=True) as made:
            texts = [text for (text,) in made.base.execute("SELECT sql FROM sqlite_master WHERE sql IS NOT NULL ORDER BY name")]
        self.golden("tables.sql", f"-- version {VERSION}\n" + "".join(f"{it};\n" for it in texts))

    def test_each_column(self):
        """A picture is written, and read again, with each value under its own name."""
        names = PICTURES.names[PICTURES.names.index("exif") : PICTURES.names.index("file")]
        compared = {it: it for it in names}
        marks = {"size": 1, "modified": 2, "changed": 3, "inode": 4, "device": 5}
        about = {"path": b"/a/b", "root": b"/a", "type": "JPEG", "extractor": "own", "problem": "TooSlow", "detail": "why"}
        more = {"file": "file", "coded_picture": "coded", "beside": "icc", "damage": "cut", "sha256": "whole", "sidecars": "beside"}
        record = PictureRecord.of(**about, **more, stamp=Stamp(**marks))._replace(**compared)
        with Catalogue(self.path("c"), make=True) as made:
            run = made.begin_run("2000-01-01T00:00:00Z")
            made.put(run, [record])
            made.base.row_factory = sqlite3.Row
            row = dict(made.base.execute("SELECT * FROM pictures").fetchone())
            made.base.row_factory = None
            (picture,) = made.pictures()
        self.assertEqual(row, {"id": 1, **about, **marks, **compared, **more, "run": run})
        self.assertEqual(picture, record._replace(id=1))

    def settings(self, made):
        names = ("application_id", "user_version", "foreign_keys", "journal_mode", "synchronous", "cache_size", "busy_timeout")
        return [made.base.execute(f"PRAGMA {it}").fetchone()[0] for it in names]

    def test_settings(self):
        """A write-ahead log, of which each transaction is on the disk before it counts; when it is closed, all is in one file."""
        name = self.path("a b?c=%41#")
        with Catalogue(name, make=True) as made:
            self.assertEqual(self.settings(made), [0x45584E50, VERSION, 1, "wal", 2, -32000, 60_000])
            made.begin_run("2000-01-01T00:00:00Z")
            self.assertEqual(sorted(os.listdir(self.folder)), sorted(os.path.basename(name) + it for it in ("", "-shm", "-wal")))
        with open(name, "rb") as file:
            head = file.read(100)
        self.assertEqual(
            (head[18:20], head[60:64], head[68:72], os.listdir(self.folder)),
            (b"\1\1", VERSION.to_bytes(4, "big"), b"EXNP", [os.path.basename(name)]),
        )
        with Catalogue(name) as made:
            self.assertEqual(self.settings(made)[:4] + self.settings(made)[6:], [0x45584E50, VERSION, 1, "delete", 60_000])
            with self.assertRaisesRegex(NoCatalogue, "attempt to write a readonly database$"):
                made.begin_run("2000-01-01T00:00:00Z")
        with Catalogue(name, make=True) as made:
            self.assertEqual(made.runs(), [("2000-01-01T00:00:00Z", None, None)])

    def test_it_is_locked_before_its_tables_are_looked_for(self):
        """So if two runs make it at once, the second one waits for the first."""
        it = Catalogue.__new__(Catalogue)
        it.base, it.name = mock.MagicMock(), "c"
        with mock.patch.object(store, "check_schema"):
            it._prepare()
        statements = [call.args[0] for call in it.base.execute.call_args_list]
        self.assertEqual(statements[:2], ["BEGIN IMMEDIATE", "SELECT count(*) FROM sqlite_master"])

    def test_a_transaction_that_is_stopped(self):
        """Nothing of it is kept, and the catalogue is one file again."""
        with Catalogue(self.path("c"), make=True) as made:
            with self.assertRaises(KeyboardInterrupt), made.transaction():
                made.begin_run("2000-01-01T00:00:00Z")
                raise KeyboardInterrupt
            self.assertEqual(made.runs(), [])
        with open(self.path("c"), "rb") as file:
            self.assertEqual((file.read(20)[18:], os.listdir(self.folder)), (b"\1\1", ["c"]))


class Marks(WithPictures):
    def test_a_file_that_is_written_to_meanwhile(self):
        """It has no marks in the catalogue, so that the next run looks at it again."""
        path = os.fsencode(self.path("a.jpg"))
        with open(path, "wb") as file:
            file.write(b"\xff\xd8\xff\xd9")
        now = Stamp.of(os.stat(path))
        self.assertEqual(look(FoundFile(path, b"/", now), How(), Session()).stamp[:2], now[:2])
        for name in Stamp._fields:
            it = look(FoundFile(path, b"/", now._replace(**{name: 9})), How(), Session())
            self.assertEqual((it.stamp, it.problem), (None, None), name)

    def test_a_file_that_is_gone_after_it_was_read(self):
        """It has no marks either: what was read of it counts, and the run goes on."""
        self.assertIsNone(looking._unless_changed(FoundFile(os.fsencode(self.path("nothing")), b"/", Stamp(1, 2, 3, 4)), 5))


# numbers with zeros in front, where they are written in hexadecimal
SMALL_NUMBERS = ((kinds.FLOAT, (0, 1, 0xFFFF)), (kinds.DOUBLE, (0, 1, 0xFFFFFFFF)), (kinds.SSHORT, (0, -1)), (kinds.LONG, (0,)))


# A line of a listing: a directory, a field, a DataSet, or a picture of the thumbnail directory.
_LINE = re.compile(r"^(?:\[(\w+)\]|([0-9a-f]{4}) (\w+) (\d+):(?: (.*))?|(\d+:\d+) (\d+):(?: (.*))?|(jpeg|strip) (\d+):(?: (.*))?)$", re.M)


def _listed(listing):
    """The fields of a listing of the engine, each with its value as it is there."""
    found, where = [], "iptc"
    for directory, key, kind, count, value, dataset, length, octets, picture, size, data in _LINE.findall(listing):
        where = directory or where
        if key:
            found.append((where, key, kind, int(count), value))
        elif not directory:
            found.append(("iptc" if dataset else "thumb", dataset or picture, "octets", int(length or size), octets or data))
    return found


def _fields(form):
    return [
        (*it._identity[:4], it.content.hex() if isinstance(it.content, bytes) else numbers_text(it.type, it.content))
        for it in judge.fields_of_form(form)
    ]


class Forms(unittest.TestCase):
    def test_a_form_has_the_fields_of_its_listing(self):
        """Every kind of block that is accepted: each type in each directory, records, thumbnails and long values."""
        seen = set()
        for kind in kinds.small_kinds():
            listed = _listed(kind.meaning.listing())
            self.assertEqual(_fields(kind.meaning.normal()), listed, kind.name)
            seen.update((where, type) for where, _, type, *_ in listed)
        small = kinds.Exif({tag: kinds.Value(kind, list(numbers)) for tag, (kind, numbers) in enumerate(SMALL_NUMBERS, 0x9500)})
        self.assertEqual(_fields(small.normal()), _listed(small.listing()))
        types = [it[0] for it in kinds.TYPES.values()]
        self.assertLessEqual({(where, it) for where in ("main", "exif", "interop", "gps", "thumb") for it in types}, seen)


class EqualChanges(unittest.TestCase):
    def test_equal_ones_are_together(self):
        """Also where more are known than are kept in memory, and in the order in which they came."""
        equal, most = Equal(), 0
        self.addCleanup(equal.close)
        for number in range(2500):
            equal.add(f"change {number % 1200}", b"%04d" % number)
            equal.add("to a place", b"moved %04d" % number, True)
            most = max(most, *map(len, (equal._names, equal._heads, equal._known)))
        self.assertLess(most, 1000)
        found = [(said, count, list(names)) for said, count, names in equal.all()]
        self.assertEqual(len(found), 1200 + 2500)
        expected = [f"change {number}" for number in range(1200)]
        self.assertEqual([said for said, _, _ in found if said != "to a place"], expected)
        self.assertEqual(found[0], ("change 0", 3, [b"0000", b"1200", b"2400"]))
        self.assertEqual(found[1], ("to a place", 1, [b"moved 0000"]))
        for _, count, names in found:
            self.assertEqual(count, len(names))
