"""Faults made on purpose: each is a line or a clear error with its documented status, and no result is lost and no file left."""

import json
import os
import shutil
import signal
import sqlite3
import subprocess
import sys
from pathlib import Path

from in_process import InFolder
from made_blocks import BLOCKS, MAKE, block, with_exif
from made_files import app1_xmp
from studio import SMALL_JPEG, Studio, WithPictures, errors, needs, put, read, run, write


EXV = b"\xff\x01Exiv2\xff\xd9"  # exiv2's own format, which has no reader here
ONLY_METADATA = "Only metadata was compared: index --pixels compares the pictures, too."
GOOD = with_exif(SMALL_JPEG, block([MAKE]))
PAGE = b"<!DOCTYPE html>an earlier page"

# The output of a fake ExifTool in place of that about `$name`, and the words of the line about that file.
ANSWERS = {
    "a text": ("echo this is no JSON", "no JSON"),
    "an object without a name": ('echo \'[{"EXIF":"x"}]\'', "another file"),
    "another file": ('echo \'[{"SourceFile":"/other.exv"}]\'', "another file"),
    "a number for a name": ("echo '[{\"SourceFile\":7}]'", "another file"),
    "a file twice": ('printf \'[{"SourceFile":"%s"},{"SourceFile":"%s"}]\\n\' "$name" "$name"', "isn't one object"),
    "no object": ("echo '[7]'", "isn't one object"),
    "JSON nested too deep": ("head -c 200000 /dev/zero | tr '\\0' '['; echo", "no JSON"),
    "a list for a block": ('printf \'[{"SourceFile":"%s","A:EXIF":[1,2]}]\\n\' "$name"', "neither a text nor a number"),
    "broken base64": ('printf \'[{"SourceFile":"%s","A:EXIF":"base64:!!"}]\\n\' "$name"', "no base64"),
    "nothing but its end": ("exit 3", "ended with status 3"),
    "death by a signal": ("kill -9 $$", "ended with status -9"),
}

# Reads requests as ExifTool does with -stay_open; the output about a file that is called bad*.exv is the fault.
FAKE = """#!/bin/sh
name=
while read -r line; do
    case "$line" in
    /*|./*) name=$line ;;
    "{done"*) done=$line ;;
    -execute)
        case "$name" in
        */bad*) %s ;;
        *) printf '[{"SourceFile":"%%s","A:FileType":"EXV","A:MIMEType":"image/x-exv"}]\\n' "$name" ;;
        esac
        echo "$done" ;;
    esac
done
"""


class Tools(WithPictures):
    """An ExifTool of a few lines that goes wrong at one file."""

    def fake(self, name, text):
        os.makedirs(self.path("bin"), exist_ok=True)
        write(self.path("bin", name), text.encode())
        os.chmod(self.path("bin", name), 0o755)
        return {"PATH": self.path("bin") + os.pathsep + Studio.environment()["PATH"]}

    def pictures(self):
        put(self.folder, {f"p/{name}": EXV for name in ("a.exv", "bad.exv", "c.exv")})

    def test_each_wrong_result_costs_one_file(self):
        self.pictures()
        for what, (answer, words) in ANSWERS.items():
            with self.subTest(what):
                environment = self.fake("exiftool", FAKE % answer)
                lines = self.asked("index", "p", "--catalogue", "c", "--again", "--quiet", "--json", status=2, **environment)
                found = {os.path.basename(it["path"]): it for it in map(json.loads, lines[:-1])}
                self.assertEqual([found[it].get("problem") for it in ("a.exv", "bad.exv", "c.exv")], [None, "ToolFailed", None])
                self.assertIn(words, found["bad.exv"]["detail"])

    def test_a_file_at_which_a_program_failed_is_looked_at_again(self):
        self.pictures()
        self.asked("index", "p", "--catalogue", "c", "--quiet", status=2, **self.fake("exiftool", FAKE % "exit 3"))
        mended = self.fake("exiftool", FAKE.replace("*/bad*)", "x)") % ":")
        self.assertEqual(self.asked("index", "p", "--catalogue", "c", "--quiet", **mended)[-1], "2 unchanged, 1 no block")

    def test_one_that_hangs_at_its_version(self):
        """The limit that was given holds, and not that of 60 seconds."""
        self.pictures()
        how = {"status": 2, **self.fake("exiftool", "#!/bin/sh\nexec sleep 1000\n")}
        for words in (["index", "p/a.exv", "--catalogue", "c"], ["show", "p/a.exv"], ["mend", "p/a.exv", "out"]):
            lines = self.asked(*words, "--limit", "1", **how)
            self.assertIn("exiftool took longer than 1 seconds", "\n".join(lines) + self.complaint)
        self.assertFalse(os.path.exists(self.path("out")))

    @needs("exiftool")
    def test_each_wrong_result_of_exiv2_costs_one_file(self):
        """It ends, is killed, or writes a file or a folder without a block: each raw picture gives a line."""
        put(self.folder, {name: b"II*\0\x08\0\0\0\0\0\0\0\0\0" for name in ("a.nrw", "bad.nrw")})
        for fault in ("exit 3", "kill -9 $$", 'echo garbage > "$4/picture.exv"', 'mkdir "$4/picture.exv"', "true"):
            with self.subTest(fault):
                text = f"#!/bin/sh\n{fault}\n"
                lines = self.asked(
                    "index", "a.nrw", "bad.nrw", "--catalogue", "c", "--again", "--quiet", "--json", status=2, **self.fake("exiv2", text)
                )
                found = [json.loads(it) for it in lines]
                self.assertEqual([(it["problem"], "exiv2" in it["detail"]) for it in found[:-1]], [("ToolFailed", True)] * 2)

    @needs("exiftool")
    def test_no_configuration_file_is_read(self):
        write(self.path("a.exv"), EXV[:-2] + app1_xmp(b"<x:xmpmeta/>") + EXV[-2:])
        write(self.path(".ExifTool_config"), f'open my $file, ">", "{self.path("it_was_read")}"; 1;\n'.encode())
        homes = {"HOME": self.folder, "EXIFTOOL_HOME": self.folder}
        run(["exiftool", "-ver"], self.folder, **homes)
        os.remove(self.path("it_was_read"))  # ExifTool by itself reads it
        self.asked("index", "a.exv", "--catalogue", "c", "--quiet", **homes)
        self.assertFalse(os.path.exists(self.path("it_was_read")))

    def test_no_program_and_no_folder_is_left_behind(self):
        self.pictures()
        own = self.path("own")
        os.mkdir(own)
        pids = self.path("pids")
        environment = self.fake("exiftool", f'#!/bin/sh\necho $$ >> "{pids}"\nexec sleep 1000\n')
        for number in (signal.SIGTERM, signal.SIGHUP, signal.SIGINT, signal.SIGKILL):
            with self.subTest(number.name):
                write(pids, b"")
                words = (
                    [
                        "env",
                        f"--default-signal={number.name[3:]}",
                        sys.executable,
                        "-m",
                        "exifnorm_pictures",
                        "index",
                        "p",
                        "--catalogue",
                        self.path("c"),
                        "--quiet",
                    ]
                    if number != signal.SIGKILL
                    else [sys.executable, "-m", "exifnorm_pictures", "index", "p", "--catalogue", self.path("c"), "--quiet"]
                )
                started = subprocess.Popen(
                    words,
                    cwd=self.folder,
                    env={**Studio.environment(**environment), "TMPDIR": own},
                    stdout=subprocess.DEVNULL,
                    stderr=subprocess.DEVNULL,
                )
                while not read(pids).endswith(b"\n"):
                    if started.poll() is not None:
                        self.fail("it ended before it started ExifTool")
                tool = int(read(pids).split()[-1])
                self.assertFalse(self.has_ended(tool, looks=1))
                started.send_signal(number)
                expected = 130 if number == signal.SIGINT else -number
                self.assertEqual(started.wait(1800), expected)
                self.assertTrue(self.has_ended(tool))
                if number != signal.SIGKILL:
                    self.assertEqual(os.listdir(own), [])
        self.assertEqual(len(os.listdir(own)), 1)
        self.asked("index", "p", "--catalogue", "d", "--quiet", TMPDIR=own, **self.fake("exiftool", FAKE % ":"))
        self.assertEqual(os.listdir(own), [], "what a killed run left is removed by the next one")
        put(self.folder, {f"many/{number}.exv": EXV for number in range(70)})
        self.asked("index", "many", "--catalogue", "e", "--quiet", "--jobs", "2", TMPDIR=own, **self.fake("exiftool", FAKE % ":"))
        self.assertEqual(os.listdir(own), [], "each process works in the folder of its run")

    def test_a_signal_while_a_process_is_started(self):
        """What a handler raises in a function that Python calls around a fork is lost, as here, where each fork brings a signal."""
        self.pictures()
        put(self.folder, {f"many/{number}.jpg": SMALL_JPEG for number in range(70)})
        sleeping = self.fake("exiftool", "#!/bin/sh\nexec sleep 1000\n")
        call = (
            "import os, sys; from exifnorm_pictures.cli.main import main\n"
            "os.register_at_fork(after_in_parent=lambda: os.kill(os.getpid(), int(sys.argv[1])))\n"
            "sys.exit(main(['index', sys.argv[2], '--catalogue', 'c', '--quiet', '--jobs', '2', '--limit', '20']))\n"
        )
        for number, expected in ((signal.SIGTERM, -signal.SIGTERM), (signal.SIGINT, 130)):
            for folder, environment in (("p", sleeping), ("many", {"PATH": self.path("none")})):
                with self.subTest(number.name, folder=folder):
                    own = self.path(f"own {number.name} {folder}")
                    os.mkdir(own)
                    words = [
                        shutil.which("env"),
                        f"--default-signal={number.name[3:]}",
                        sys.executable,
                        "-c",
                        call,
                        str(int(number)),
                        folder,
                    ]
                    done = subprocess.run(
                        words, cwd=self.folder, env={**Studio.environment(**environment), "TMPDIR": own}, capture_output=True, timeout=1800
                    )
                    self.assertEqual(done.returncode, expected, done.stderr)
                    self.assertEqual(os.listdir(own), [])

    def test_processes_that_the_system_refuses(self):
        """The message names what couldn't be started. Standard output has nothing to do with it. Without further processes one does all."""
        self.pictures()
        put(self.folder, {f"many/{number}.jpg": SMALL_JPEG for number in range(70)})
        call = (
            "import errno, os, subprocess, sys; from exifnorm_pictures.cli.main import main\n"
            "def refused(*_, **__): raise BlockingIOError(errno.EAGAIN, os.strerror(errno.EAGAIN))\n"
            "os.fork = subprocess.Popen = refused\nsys.exit(main(sys.argv[1:]))"
        )
        environment = self.fake("exiftool", "#!/bin/sh\n")
        for words, what, status in (
            (["index", "p/a.exv", "--catalogue", "c"], "exiftool", 2),
            (["show", "p/a.exv"], "exiftool", 2),
            (["mend", "p/a.exv", "out"], "exiftool", 2),
            (["index", "many", "--catalogue", "c", "--quiet", "--jobs", "2"], "a further process", 0),
        ):
            with self.subTest(words):
                done = run([sys.executable, "-c", call, *words], self.folder, **environment)
                self.assertEqual(done.returncode, status, done)
                self.assertRegex((done.stdout + done.stderr).decode(), rf"(?m)\b{what} .*resource temporarily unavailable$")
                if status == 0:
                    self.assertEqual(done.stdout.decode().splitlines()[-1], "70 no block")
                self.assertNotIn(b"standard output", done.stderr)

    def test_a_library_that_is_missing(self):
        """It's one error and no line for each picture, whose earlier results stay."""
        put(self.folder, {f"many/{number}.jpg": GOOD for number in range(70)})
        self.asked("index", "many", "--catalogue", "c", "--quiet")
        for words in (
            ["index", "many", "--catalogue", "c", "--again", "--jobs", "1"],
            ["show", "many/1.jpg"],
            ["changed", "many", "many"],
            ["index", "many", "--catalogue", "c", "--again", "--jobs", "2"],
        ):
            with self.subTest(words):
                self.assertEqual(self.asked(*words, status=4, EXIFNORM_LIBRARY=self.path("nothing")), [])
                self.assertEqual(["libexifnorm" in line for line in errors(self.complaint)], [True])
        self.assertEqual(self.asked("index", "many", "--catalogue", "c", "--quiet"), ["70 unchanged"])

    def has_ended(self, pid, looks=2000):
        """Waits until a process that isn't ours has ended; the system has already been asked to end it."""
        for _ in range(looks):
            try:
                with open(f"/proc/{pid}/stat") as file:
                    if file.read().rsplit(")", 1)[1].split()[0] in "ZX":
                        return True
            except (FileNotFoundError, ProcessLookupError):
                return True
            os.sched_yield()
            subprocess.run(["true"], check=True)
        return False

    @needs("exiftool")
    def test_a_folder_for_temporary_files_with_an_odd_name(self):
        odd = self.path("line\nfeed")
        os.mkdir(odd)
        write(self.path("odd\nname.exv"), EXV)
        self.assertEqual(self.asked("index", "odd\nname.exv", "--catalogue", "c", "--quiet", TMPDIR=odd)[-1], "1 no block")
        self.assertEqual(os.listdir(odd), [])


class Catalogues(InFolder):
    """What isn't ours, or is damaged."""

    def setUp(self):
        super().setUp()
        put(self.folder, {"p/a.jpg": GOOD})

    def test_names_that_sqlite_takes_for_something_else(self):
        for name in (":memory:", "file:x?mode=memory"):
            self.asked("index", "p", "--catalogue", name, "--quiet")
            self.assertEqual(self.asked("index", "p", "--catalogue", name, "--quiet"), ["1 unchanged"])
            self.assertTrue(os.path.exists(self.path(name)))
        self.asked("index", "p", "--catalogue", "", status=3)
        self.assertIn("argument --catalogue: ", self.complaint)

    def test_one_that_another_program_reads(self):
        """The end of a run doesn't wait for the other program, and the next run puts all into one file again."""
        text = (
            "import sqlite3\nfrom exifnorm_pictures.catalogue.store import Catalogue\n"
            "made = Catalogue('c', make=True)\nother = sqlite3.connect('c', isolation_level=None)\n"
            "other.execute('BEGIN')\nother.execute('SELECT count(*) FROM pictures').fetchall()\nmade.close()\n"
        )
        done = run([sys.executable, "-c", text], self.folder)
        self.assertEqual((done.returncode, done.stderr), (0, b""))
        self.asked("index", "p", "--catalogue", "c", "--quiet")
        self.assertEqual(read(self.path("c"))[18:20], b"\1\1", "no write-ahead log is needed to read it")

    def test_one_that_another_program_has_locked(self):
        """SQLite waits for it; then the command ends, and the catalogue is as it was."""
        self.asked("index", "p", "--catalogue", "c", "--quiet")
        call = (
            "import sqlite3, sys; from exifnorm_pictures.cli.main import main; connect = sqlite3.connect\n"
            "sqlite3.connect = lambda *words, **more: connect(*words, **{**more, 'timeout': 0.1})\nsys.exit(main(sys.argv[1:]))"
        )
        other = sqlite3.connect(self.path("c"), isolation_level=None)
        self.addCleanup(other.close)
        other.execute("BEGIN EXCLUSIVE")
        for words in (
            ["index", "p", "--catalogue", "c", "--quiet"],
            ["same", "c"],
            ["report", "c", "--html", "page"],
        ):
            with self.subTest(words[0]):
                done = run([sys.executable, "-c", call, *words], self.folder)
                self.assertEqual((done.returncode, done.stdout, len(done.stderr.splitlines())), (4, b"", 1), done)
                self.assertIn(b"locked", done.stderr)
        other.execute("ROLLBACK")
        self.assertEqual(self.asked("index", "p", "--catalogue", "c", "--quiet"), ["1 unchanged"])

    def test_two_first_runs_at_once(self):
        words = [sys.executable, "-m", "exifnorm_pictures", "index", "p", "--catalogue", "c", "--quiet"]
        started = [subprocess.Popen(words, cwd=self.folder, env=Studio.environment(), stderr=subprocess.PIPE) for _ in range(4)]
        for it in started:
            _, said = it.communicate(timeout=1800)
            self.assertEqual((it.returncode, said), (0, b""))
        self.assertEqual(self.asked("index", "p", "--catalogue", "c", "--quiet"), ["1 unchanged"])


INTO = ("index p --quiet --catalogue", "catalogue merge d --catalogue")
CATALOGUES = ("c", "same", "link")
NEW = (
    "index p --catalogue c --quiet --keep-old",
    "report c --since d --html",
    "catalogue export c",
    "verify c --quiet --evidence",
    "changed d c --undo",
    "mend p/refused.jpg",
)


class Outputs(InFolder):
    """Files that are written, and those that must not be."""

    def setUp(self):
        super().setUp()
        put(
            self.folder,
            {
                "p/a.jpg": GOOD,
                "p/refused.jpg": with_exif(SMALL_JPEG, BLOCKS["Overlap"]),
            },
        )
        self.asked("index", "p", "--catalogue", "c", "--quiet")
        shutil.copy(self.path("c"), self.path("d"))

    def files(self, written):
        return {it: it.is_file() and it.read_bytes() for it in Path(self.folder).rglob("*") if it.name not in written}

    def test_what_is_not_replaced(self):
        """Each output, by the name of something else: nothing changes, and the message has the name that was given."""
        write(self.path("text"), b"a text\n")
        sqlite3.connect(self.path("foreign")).executescript("CREATE TABLE x (y);")
        os.link(self.path("c"), self.path("same"))
        os.symlink("c", self.path("link"))
        os.mkfifo(self.path("pipe"))
        for words in (*NEW, *INTO):
            written = CATALOGUES if words == NEW[0] else ()
            before = self.files(written)
            into = CATALOGUES if words not in INTO else ()
            for name in (*into, "text", "foreign", "p", "pipe", "/dev/null", "p/a.jpg", "missing/out", "p/a.jpg/out"):
                with self.subTest(words, name=name):
                    said = "\n".join([*self.asked(*words.split(), name, status=4), self.complaint])
                    self.assertIn(name, said)
                    self.assertNotIn(".part", said)
                    self.assertEqual(self.files(written), before)

    def test_what_is_replaced(self):
        """An earlier output of its kind, an empty file, and where a link leads."""
        os.symlink("out", self.path("link"))
        for words in NEW[:3]:
            self.asked(*words.split(), "link")
            self.assertTrue(os.path.islink(self.path("link")))
            earlier = read(self.path("out"))
            for octets in (earlier, b""):
                write(self.path("out"), octets)
                self.asked(*words.split(), "out")
                self.assertEqual(len(read(self.path("out"))), len(earlier))
            os.remove(self.path("out"))
        self.asked(*NEW[0].split(), "new")
        self.assertEqual(read(self.path("new"))[18:20], b"\1\1", "no write-ahead log is needed to read it")

    def full(self, *words, blocks=0, **more):
        """A call that may write no file longer than some blocks of 1,024 bytes."""
        line = f'ulimit -f {blocks}; exec "$0" "$@"'
        return run(["bash", "-c", line, sys.executable, "-m", "exifnorm_pictures", *words], self.folder, **more)

    def test_full_folder_for_temporary_files(self):
        """Several processes write rows there; what they wrote is removed again."""
        own = self.path("own")
        os.mkdir(own)
        put(self.folder, {f"p/{number}.jpg": GOOD for number in range(100)})
        done = self.full("index", "p", "--catalogue", "c", "--again", "--quiet", "--jobs", "2", TMPDIR=own, blocks=20)
        self.assertEqual((done.returncode, done.stdout), (4, b""), done)
        self.assertRegex(done.stderr.decode(), r"^exifnorm-pictures: [^\n]+\n$")
        self.assertEqual(os.listdir(own), [])
        self.asked("index", "p", "--catalogue", "c", "--quiet", "--jobs", "2", TMPDIR=own)
        self.assertEqual(os.listdir(own), [])

    def test_streams(self):
        for words in (["show", "p/a.jpg"], ["index", "p", "--catalogue", "c", "--again"], ["--help"], ["--version"]):
            for redirected, expected in ((">/dev/full", 4), (">&-", 4), ("2>/dev/full", 0), ("2>&-", 0), ("<&-", 0)):
                with self.subTest(words, stream=redirected):
                    line = f'exec "$0" "$@" {redirected}'
                    done = run(["bash", "-c", line, sys.executable, "-m", "exifnorm_pictures", *words], self.folder)
                    self.assertEqual(done.returncode, expected, done)
                    self.assertNotIn(b"Traceback", done.stderr)
                    self.assertNotIn(b"Exception", done.stderr)

    def test_a_reader_that_went_away(self):
        line = 'set -o pipefail; "$0" "$@" | true'
        words = ["show", "--json", *["p/a.jpg", "./p/a.jpg"] * 1]
        done = run(["bash", "-c", line, sys.executable, "-m", "exifnorm_pictures", *words], self.folder)
        self.assertIn((done.returncode, done.stderr), ((4, b""), (0, b"")))


class Arguments(WithPictures):
    def test_a_list_that_ends_with_nul(self):
        self.asked("show", "--files-from", "-", status=3, given=b"a.jpg\0b.jpg\0")
        self.assertIn("-0", self.complaint)

    def test_a_list_that_cannot_be_read(self):
        for name, words in (("missing", "no such file or directory"), ("line\nfeed", "no such file or directory"), (".", "is a directory")):
            self.asked("show", "--files-from", name, status=4)
            shown = name.replace("\n", "\\n")
            self.assertEqual(self.complaint, f"exifnorm-pictures: {shown}: {words}\n")

    def test_one_picture_by_two_names(self):
        write(self.path("a.jpg"), GOOD)
        lines = self.asked("show", "a.jpg", "./a.jpg")
        self.assertEqual([it for it in lines if it.startswith("==")], ["== a.jpg", "== a.jpg"])
        self.assertEqual(self.asked("show", "a.jpg", "a.jpg"), self.asked("show", "a.jpg"), "one that is given twice is shown once")

    def test_a_name_that_leads_nowhere(self):
        self.assertEqual(self.asked("index", "typo", "--catalogue", "c", "--quiet", status=3), [])
        self.assertIn("no folder or file typo", self.complaint)

    def test_a_list_of_absolute_names(self):
        for side, artist in (("one", b"Abc\0"), ("two", b"Xyz\0")):
            put(self.folder, {f"{side}/{name}": with_exif(SMALL_JPEG, block([MAKE[:-4] + artist])) for name in ("a.jpg", "b.jpg")})
            self.asked("index", side, "--catalogue", side + ".c", "--quiet")
        for listed in (os.fsencode(self.path("two", "a.jpg")), os.fsencode(self.path("one", "a.jpg")), b"a.jpg", b"./a.jpg"):
            lines = self.asked("changed", "one.c", "two.c", "--each", "--files-from", "-", given=listed, status=1)
            self.assertEqual((lines[-2:], self.complaint), (["1 different", ONLY_METADATA], ""))
