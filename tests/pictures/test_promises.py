"""What docs/exifnorm-pictures.1, README.md and docs/COMPARED.md promise, each by runs of the commands."""

import hashlib
import json
import os
import re
import shutil
import sys
from unittest import mock

from in_process import InProcess
from made_blocks import ASCII, BLOCKS, LONG
from made_files import A, B, K, L, T, T_OTHERWISE, app1, app1_xmp, chunk, jpeg, page, png, tiff, turned, webp, with_record
from studio import errors, needs, put, read, run, sql_rows, write

from exifnorm_pictures.cli import looking
from exifnorm_pictures.scan import index

DOUBLED = BLOCKS["Doubled"]


def sha256(octets):
    return hashlib.sha256(octets).hexdigest()


class Promises(InProcess):
    """Runs the commands on small folders."""

    maxDiff = None

    def files(self, folder, **octets):
        """A folder of JPEG files; `a__b` is b.jpg in the folder a."""
        for name, it in octets.items():
            there = self.path(folder, *name.split("__")) + ".jpg"
            os.makedirs(os.path.dirname(there), exist_ok=True)
            write(there, it)

    def rows(self, catalogue, query):
        return sql_rows(self.path(catalogue), query)

    def index(self, *words, catalogue="c", status=0):
        return self.printed("index", *words, "--catalogue", f"@/{catalogue}", "--quiet", status=status)


class WhatIsCompared(Promises):
    def test_readers(self):
        """Where no other program is installed. The entries that lead to pixels are left out of a block."""
        os.mkdir(self.path("p"))
        pages = tiff(page((0x014A, LONG, page((0x010F, ASCII, b"below\0")))), page())
        files = {
            "a.jpg": jpeg(app1(A)),
            "b.png": png(chunk(b"eXIf", A)),
            "c.webp": webp((b"EXIF", A)),
            "d.tif": pages,
            "e.tif": b"II+\0\x08\0\0\0" + bytes(24),
        }
        put(self.folder, {f"p/{name}": octets for name, octets in files.items()})
        done = run(
            [sys.executable, "-m", "exifnorm_pictures", "index", "p", "--catalogue", "c", "--quiet"], self.folder, PATH=self.path("none")
        )
        self.assertEqual(done.stdout.splitlines()[-1], b"4 accepted, 1 BigTIFF that can't be read", done)
        query = "SELECT type, name, octets, digest, source FROM pictures JOIN blocks ON picture = pictures.id WHERE kind = 'exif' ORDER BY path, number"
        found = self.rows("c", query)
        form = run(["exifnorm"], self.folder, A).stdout
        self.assertEqual([it[:4] for it in found[:3]], [(it, "Exif", sha256(A), sha256(form)) for it in ("JPEG", "PNG", "WEBP")])
        self.assertEqual(
            [(it[0], it[1], re.findall("Strip[A-z]*|SubIFDs", it[4])) for it in found[3:]],
            [
                ("TIFF", "Exif", ["StripByteCounts", "StripOffsets", "SubIFDs"]),
                ("TIFF", "Exif of SubIFD 1 of page 1", ["StripByteCounts", "StripOffsets"]),
                ("TIFF", "Exif of page 2", ["StripByteCounts", "StripOffsets"]),
            ],
        )


class Catalogues(Promises):
    def test_files_of_a_catalogue(self):
        self.files("p", a=jpeg(app1(A)), b=jpeg(behind=b"rest"))
        seen = set()
        with mock.patch.object(index.Progress, "done", lambda *_: seen.update(os.listdir(self.folder))):
            self.index("@/p")
        counts = [self.rows("c", f"SELECT count(*) FROM {it}")[0][0] for it in ("runs", "pictures", "blocks", "not_read")]
        self.assertEqual((counts, sorted(seen)), ([1, 2, 1, 1], ["c", "c-shm", "c-wal", "p"]))

    def test_pairs_of_changed(self):
        """By the path below a folder if each side has one, otherwise by the whole path. No progress is shown."""
        self.files("x", a=jpeg(app1(A)), s__b=jpeg(app1(B)))
        shutil.copytree(self.path("x"), self.path("y"))
        self.index("@/x", "@/y", catalogue="both")
        os.rename(self.path("y", "a.jpg"), self.path("y", "new.jpg"))
        self.index("@/x", "@/y", catalogue="later")
        for sides, moved in ((("@/x", "@/y"), ("a.jpg", "new.jpg")), (("@/both", "@/later"), ("F/y/a.jpg", "F/y/new.jpg"))):
            found = self.objects("changed", *sides, status=1)[0]
            self.assertEqual((found["path"], found["result"], found["moved_to"]["path"]), (moved[0], "moved", moved[1]))
        with mock.patch.object(looking, "index", wraps=looking.index) as read_:
            for more in ([], ["--quiet"]):
                self.printed("changed", "@/x", "@/both", "--jobs", "3", *more, status=1)
                self.assertEqual(errors(self.complaint), [])
        self.assertEqual([it.args[0].how.processes for it in read_.mock_calls], [3, 3])


class Pictures(Promises):
    @needs("exiftool")
    def test_a_plain_copy(self):
        """Of an accepted picture `mend` makes one, with its mode and times."""
        self.files("p", a=jpeg(with_record(K)))
        os.chmod(self.path("p", "a.jpg"), 0o640)
        os.utime(self.path("p", "a.jpg"), ns=(10**18, 10**18))
        self.printed("mend", "@/p/a.jpg", "@/copy.jpg")
        found = [(it.st_mode, it.st_mtime_ns) for it in map(os.stat, (self.path("p", "a.jpg"), self.path("copy.jpg")))]
        self.assertEqual(found, [(0o100640, 10**18)] * 2)
        self.assertEqual(read(self.path("copy.jpg")), read(self.path("p", "a.jpg")))

    def test_names_for_changed(self):
        """Paths below the folder, or whole ones; from standard input, too."""
        for folder, octets in (("p", K), ("q", L)):
            self.files(folder, a=jpeg(with_record(octets)), b=jpeg(with_record(octets)))
        for name in ("a.jpg", self.path("p", "a.jpg")):
            lines = self.asked("changed", "p", "q", "--files-from", "-", "--json", given=os.fsencode(f"{name}\n"), status=1)
            self.assertEqual(json.loads(lines[-1])["counts"], {"different": 1})

    def test_the_library_of_the_environment(self):
        """The library has another name here, and its folder has no other one."""
        self.files("p", a=jpeg(app1(A)))
        shutil.copy(os.environ["EXIFNORM_LIBRARY"], self.path("other.so"))
        found = [
            run(["exifnorm-pictures", "show", "p/a.jpg"], self.folder, EXIFNORM_LIBRARY=self.path(it)) for it in ("other.so", "none.so")
        ]
        self.assertEqual(
            [(it.returncode, b"Abc" in it.stdout, b"none.so" in it.stderr) for it in found], [(0, True, False), (4, False, True)]
        )

    @needs("exiftool")
    def test_no_picture_is_modified(self):
        self.files(
            "p",
            a=jpeg(app1(A), with_record(K), app1_xmp(T)),
            b=jpeg(app1(turned(A)), with_record(K + b"\0"), app1_xmp(T_OTHERWISE)),
            c=jpeg(app1(DOUBLED)),
        )
        shutil.copytree(self.path("p"), self.path("later"))
        write(self.path("later", "a.jpg"), jpeg(app1(B), with_record(K), app1_xmp(T)))
        before = self.marks("p")
        self.index("@/p")
        (group, _) = self.objects("same", "@/c", status=2)
        (changed, *_) = self.objects("changed", "@/p", "@/later", status=1)
        self.assertEqual((sorted(group["digests"]), [it["name"] for it in changed["fields"]]), (["exif", "iptc", "xmp"], ["IFD0:Make"]))
        for command in (["show"], ["show", "--captions"], ["explain"]):
            self.printed(*command, "@/p/c.jpg", status=2)
        self.printed("report", "@/c", "--html", "@/page")
        self.printed("mend", "@/p/a.jpg", "@/out.jpg")
        self.assertEqual(self.marks("p"), before)

    def marks(self, folder):
        found = [(it.name, it.stat(), read(it.path)) for it in os.scandir(self.path(folder))]
        return sorted((name, it.st_mtime_ns, it.st_ctime_ns, octets) for name, it, octets in found)
