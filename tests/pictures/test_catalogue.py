"""The states of an archive, run by run: the report of `index` on each picture, and the content of the catalogue afterwards."""

import json
import os
import subprocess
import sys
import time

import exifnorm
from in_process import InFolder
from made_blocks import MAKE, block, with_exif
from studio import SMALL_JPEG, Studio, WithPictures, needs, put, read, run, sql_rows, write

from exifnorm_pictures.model.problems import TEXTS

ONE, OTHER, THIRD = (with_exif(SMALL_JPEG, block([MAKE[:-4] + it])) for it in (b"One\0", b"Two\0", b"Ten\0"))
EXV = b"\xff\x01Exiv2\xff\xd9"  # exiv2's own format, which has no reader here


class Archive(InFolder):
    def setUp(self):
        super().setUp()
        os.mkdir(self.path("p"))
        os.mkdir(self.path("p", "sub"))
        put(
            self.folder,
            {
                f"p/{name}": octets
                for name, octets in (("a.jpg", ONE), ("b.jpg", OTHER), ("sub/c.jpg", THIRD), ("sub/plain.jpg", SMALL_JPEG))
            },
        )
        self.asked("index", "p", "--catalogue", "c", "--quiet")
        self.before = self.rows()

    def rows(self, name="c"):
        """Each picture's row: its problem, and the digests of its blocks."""
        query = "SELECT path, problem, (SELECT group_concat(digest) FROM blocks WHERE picture = id) FROM pictures"
        self.assertEqual(sql_rows(self.path(name), "PRAGMA foreign_key_check"), [])
        return {os.path.relpath(os.fsdecode(path), self.path("p")): tuple(row) for path, *row in sql_rows(self.path(name), query)}

    def run_again(self, *words, status=0, **more):
        """The report of a further run, by the names of the files."""
        lines = self.asked("index", "p", "--catalogue", "c", "--quiet", "--json", *words, status=status, **more)
        found = [json.loads(it) for it in lines]
        named = {os.path.relpath(it["path"], self.path("p")): it["problem"] or "looked at" for it in found[:-1]}
        return named, found[-1]["counts"]

    def changed_rows(self):
        after = self.rows()
        return {it: (self.before.get(it), after.get(it)) for it in {*self.before, *after} if self.before.get(it) != after.get(it)}

    def test_runs(self):
        """Each run has its times in UTC, and the version of the library, if it has read a picture."""
        write(self.path("p", "d.exv"), EXV)
        self.run_again()
        self.run_again()
        before = time.strftime("%Y-%m-%dT%H:%M:%SZ", time.gmtime())
        self.run_again("--again", TZ="Asia/Tokyo")
        after = time.strftime("%Y-%m-%dT%H:%M:%SZ", time.gmtime())
        runs = sql_rows(self.path("c"), "SELECT started, ended FROM runs ORDER BY id")
        versions = [it for it, in sql_rows(self.path("c"), "SELECT exifnorm FROM runs ORDER BY id")]
        moments = [runs[2][1], before, *runs[3], after]
        self.assertEqual(moments, sorted(moments))
        library = exifnorm.version()
        self.assertEqual(versions, [library, library, None, library])

    @needs("exiftool")
    def test_a_program_that_was_installed_since(self):
        write(self.path("p", "g.exv"), EXV)
        bare = os.path.join(Studio.room, "bin")
        self.assertEqual(self.run_again(status=2, PATH=bare), ({"g.exv": "NeedsExifTool"}, {"unchanged": 4, "NeedsExifTool": 1}))
        self.assertEqual(self.run_again(PATH=bare), ({}, {"unchanged": 5}))
        self.assertEqual(self.run_again(), ({"g.exv": "looked at"}, {"unchanged": 4, "no block": 1}))

    def test_what_a_picture_meant_is_kept_where_it_cannot_be_read(self):
        os.remove(self.path("p", "b.jpg"))
        os.mkfifo(self.path("p", "b.jpg"))
        self.assertEqual(self.run_again(), ({"b.jpg": "NotAFile"}, {"unchanged": 3, "NotAFile": 1}))
        self.assertEqual(self.changed_rows(), {"b.jpg": (self.before["b.jpg"], ("NotAFile", self.before["b.jpg"][1]))})

    def test_a_folder_that_is_gone_and_back(self):
        os.rename(self.path("p"), self.path("away"))
        lines = self.asked("index", "p", "--catalogue", "c", "--quiet", status=2)
        self.assertEqual((lines[0].startswith("p: Unreadable: "), " 4 " in lines[0], lines[1:]), (True, True, ["1 not readable"]), lines)
        self.assertEqual(self.changed_rows(), {})
        os.rename(self.path("away"), self.path("p"))
        self.assertEqual(self.run_again(), ({}, {"unchanged": 4}))

    def test_a_folder_too_deep_for_a_path(self):
        here = os.open(self.path("p"), os.O_RDONLY)
        for number in range(20):
            os.mkdir("d" * 250, dir_fd=here)
            below = os.open("d" * 250, os.O_RDONLY, dir_fd=here)
            os.close(here)
            here = below
        os.close(here)
        named, counts = self.run_again(status=2)
        self.assertEqual(counts, {"unchanged": 4, "Unreadable": 1})
        subprocess.run(["rm", "-rf", self.path("p", "d" * 250)], check=True)

    def test_a_picture_that_is_named_twice(self):
        words = ["index", "p", "p/a.jpg", "p/../p", "p/sub", "--quiet", "--catalogue"]
        self.assertEqual(self.asked(*words, "twice"), ["3 accepted, 1 no block"])
        self.assertEqual(self.asked(*words, "twice"), ["4 unchanged"])


class Processes(WithPictures):
    """Several processes look at pictures, of which some are slow, or end the process."""

    def setUp(self):
        super().setUp()
        put(self.folder, {f"p/{number:02}.jpg": ONE for number in range(100)})

    def indexed(self, before):
        """The states of a run with this text before it, and what it leaves in its folder for temporary files."""
        text = (
            "import collections, json, os\nfrom exifnorm_pictures.extract import extraction; from exifnorm_pictures.scan import index, looking, workers as processes\n"
            "from exifnorm_pictures.catalogue.store import Catalogue\nfrom exifnorm_pictures.cli.output import record_lines as entry_lines\n"
            f"{before}\nlines = []\nos.mkdir('room')\n"
            "how = looking.How(jobs=2, room=os.path.abspath('room'), lines=entry_lines)\n"
            "with Catalogue('c', make=True) as made:\n"
            "    counts = index.index(index.IndexOptions([b'p'], quiet=True, how=how, print_line=lines.append), made)\n"
            "print(json.dumps([counts, lines, [it for it in os.listdir('room') if it.startswith('rows')]]))"
        )
        done = run([sys.executable, "-c", text], self.folder)
        self.assertEqual(done.returncode, 0, done.stderr)
        return json.loads(done.stdout)

    def paths(self):
        found = sql_rows(self.path("c"), "SELECT path FROM pictures WHERE problem IS NULL ORDER BY id")
        return [os.path.basename(os.fsdecode(path)) for path, in found]

    def test_slow_pictures(self):
        """A process returns what it has after some time; another or the same one looks at the others."""
        self.assertEqual(self.indexed("processes.LONGEST_WAIT = 0"), [{"accepted": 100}, [], []])
        self.assertEqual(self.paths(), sorted(os.listdir(self.path("p"))))

    def test_a_picture_that_ends_the_process(self):
        """It costs one line; all others, also those that were given to the same process, are looked at."""
        ending = (
            "read = extraction.blocks_of_file\n"
            "extraction.blocks_of_file = lambda path, *more: os._exit(9) if path.endswith(b'41.jpg') else read(path, *more)"
        )
        counts, lines, left = self.indexed(ending)
        self.assertEqual(counts, {"accepted": 99, "ToolFailed": 1})
        self.assertEqual(lines, ["p/41.jpg: ToolFailed: the process that looked at it died twice"])
        self.assertEqual(left, [])
        self.assertEqual(sorted(self.paths()), [it for it in sorted(os.listdir(self.path("p"))) if it != "41.jpg"])

    def test_what_a_process_that_died_left(self):
        """Rows that no result names are removed before their pictures are looked at again: in a long run they would fill the disk."""
        ending = (
            "import time\nread, by_each, processes.SHORT = extraction.blocks_of_file, processes._one_by_one, 0\n"
            "def blocks_of(path, *more):\n"
            "    if path.endswith(b'00.jpg') and not os.path.exists('died'):\n"
            "        while not os.path.exists('room/rows-1'): time.sleep(0.001)\n"  # the other process's
            "        os.mkdir('died')\n        os._exit(9)\n"
            "    return read(path, *more)\n"
            "def one_by_one(*words):\n"
            "    with open('seen', 'a') as file: file.write(' '.join(os.listdir('room')) + '\\n')\n"
            "    return by_each(*words)\n"
            "extraction.blocks_of_file, processes._one_by_one = blocks_of, one_by_one"
        )
        self.assertEqual(self.indexed(ending), [{"accepted": 100}, [], []])
        seen = read(self.path("seen")).decode().splitlines()
        self.assertEqual([it for it in seen[0].split() if it.startswith("rows")], [])

    def test_processes_that_ended_before_they_got_more(self):
        """The pictures that could not be given to them are looked at as well: those of a new chunk, and those that were left of one."""
        for wait, number in ((2, 5), (0, 25)):
            with self.subTest(number):
                failing = (
                    f"processes.LONGEST_WAIT = {wait}\nsubmit, calls = processes.ProcessPoolExecutor.submit, []\n"
                    "def submitted(*words):\n    calls.append(1)\n"
                    f"    if len(calls) == {number}: raise processes.BrokenProcessPool('it ended')\n"
                    "    return submit(*words)\nprocesses.ProcessPoolExecutor.submit = submitted\n"
                    "import shutil\nshutil.rmtree('room', True)\nos.path.exists('c') and os.unlink('c')"
                )
                self.assertEqual(self.indexed(failing)[:2], [{"accepted": 100}, []])
                self.assertEqual(sorted(self.paths()), sorted(os.listdir(self.path("p"))))


@needs("exiftool")
class Rights(WithPictures):
    """Files and folders that an ordinary user can't read. The tests run as root, which reads everything, so another user asks."""

    def as_nobody(self, *words):
        os.chmod(Studio.room, 0o755)
        os.chmod(self.folder, 0o777)
        environment = Studio.environment(TMPDIR=self.folder, HOME=self.folder)
        call = [sys.executable, "-m", "exifnorm_pictures", *words]
        if os.geteuid() == 0:
            call = ["setpriv", "--reuid=65534", "--regid=65534", "--clear-groups", *call]
        return subprocess.run(call, cwd=self.folder, env=environment, capture_output=True, timeout=1800, stdin=subprocess.DEVNULL)

    def test_unreadable_files_and_folders(self):
        for folder in ("closed", "closed too"):
            os.makedirs(self.path("p", folder))
        put(self.folder, {f"p/{name}": ONE for name in ("a.jpg", "b.jpg", "closed/c.jpg", "closed too/d.jpg")})
        first = self.as_nobody("index", "p", "--catalogue", "c", "--quiet")
        self.assertEqual((first.returncode, first.stdout), (0, b"4 accepted\n"), first)
        os.remove(self.path("p", "closed too", "d.jpg"))
        os.chmod(self.path("p", "b.jpg"), 0)
        os.chmod(self.path("p", "closed"), 0)
        done = self.as_nobody("index", "p", "--catalogue", "c", "--quiet", "--json")
        self.assertEqual(done.returncode, 2, done)
        *found, counts = [json.loads(it) for it in done.stdout.splitlines()]
        said = {os.path.basename(it["path"]): (it["problem"], it["detail"]) for it in found}
        self.assertEqual(
            said,
            {
                "b.jpg": ("Unreadable", "permission denied"),
                "d.jpg": ("Vanished", TEXTS["Vanished"]),
                "closed": ("Unreadable", "permission denied; its 1 picture stays as before"),
            },
        )
        self.assertEqual(counts["counts"], {"unchanged": 1, "Unreadable": 2, "Vanished": 1})
        kept = sql_rows(self.path("c"), "SELECT problem FROM pictures WHERE CAST(path AS TEXT) LIKE '%c.jpg'")
        self.assertEqual(kept, [(None,)])
        self.assertEqual(sql_rows(self.path("c"), "SELECT count(*) FROM blocks"), [(4,)], "what b.jpg said is kept")
        os.chmod(self.path("p", "b.jpg"), 0o644)
        os.chmod(self.path("p", "closed"), 0o755)
        done = self.as_nobody("index", "p", "--catalogue", "c", "--quiet")
        self.assertEqual((done.returncode, done.stdout), (0, b"2 unchanged, 1 accepted\n"), done)

    def test_a_folder_that_cannot_be_read_is_no_difference(self):
        """Its pictures aren't missing: the message names it, and nothing is compared."""
        for side in ("before", "after"):
            os.makedirs(self.path(side, "closed"))
            put(self.folder, {f"{side}/{name}": ONE for name in ("a.jpg", "closed/c.jpg")})
        self.asked("index", "after", "--catalogue", "c", "--quiet", "--pixels")
        for words, line in (
            (("changed", "before", "after"), b"2 pictures compared: none changed."),
            (("verify", "c"), b"2 files read again, "),
        ):
            os.chmod(self.path("after", "closed"), 0)
            done = self.as_nobody(*words)
            said = (done.returncode, done.stdout, done.stderr.count(b" after/closed "))
            self.assertEqual(said, (4, b"", 1), done.stderr)
            os.chmod(self.path("after", "closed"), 0o755)
            done = self.as_nobody(*words)
            self.assertEqual((done.returncode, done.stdout.startswith(line)), (0, True), done)

    def test_a_folder_that_nothing_can_be_written_to(self):
        os.makedirs(self.path("shut"))
        write(self.path("a.jpg"), ONE)
        os.chmod(self.path("shut"), 0o555)
        for words in (["index", "a.jpg", "--catalogue", "shut/c", "--quiet"], ["mend", "a.jpg", "shut/out"]):
            done = self.as_nobody(*words)
            self.assertEqual((done.returncode, len(done.stderr.splitlines() + done.stdout.splitlines())), (4, 1), done)
        self.assertEqual(os.listdir(self.path("shut")), [])
