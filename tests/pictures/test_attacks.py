"""Pictures, catalogues and folders that mean harm: each command ends within 50 seconds of a processor and 256 MB, without other programs."""

import json
import os
import re
import shutil
import signal
import sqlite3
import subprocess
import sys
import tempfile
import zlib
from pathlib import Path

import pytest
from attacks import FILES
from made_blocks import BLOCKS, with_exif
from made_files import app1, app1_xmp, exif, jpeg, packed_zeros, png, png_xmp, title, xmp
from studio import SMALL_JPEG, TOP, Studio, errors, interpreter_with, put, write

from exifnorm_pictures.catalogue.store import VERSION

SECONDS, MEMORY = 50, 256 << 20  # none takes a tenth of this time; one that goes through its data again and again takes far more
GUARD = 120, 3 << 30  # what ends a process, so that a fault harms nothing else

# Runs commands, each in a process of its own, which a first one forks: to start Python takes longer than most commands. Each writes what
# it took to a file: the processor time of its process and its threads, and the most memory that it had. The system's own maximum can be
# that of the process that started this one.
CALLS = """
import importlib, json, os, resource, sys
from exifnorm_pictures.cli.main import main
commands, ended = json.loads(sys.argv[1]), []
for name in {words[words[0] == "catalogue"] for words in commands}:
    if name.isalpha():
        importlib.import_module("exifnorm_pictures.cli.commands." + name)  # once for all of them
for number, words in enumerate(commands):
    process = fork()
    if not process:
        break
    ended.append(os.waitstatus_to_exitcode(os.waitpid(process, 0)[1]))
else:
    print(json.dumps(ended))
    sys.exit()
for stream, name in ((1, "out"), (2, "err"), (3, "used")):
    os.dup2(os.open(os.path.join(sys.argv[2], f"{name}-{number}"), os.O_WRONLY | os.O_CREAT), stream)
try:
    status = main(words)
except SystemExit as refused:  # the arguments
    status = refused.code
memory = next(int(line.split()[1]) << 10 for line in open("/proc/self/status") if line.startswith("VmHWM"))
used = resource.getrusage(resource.RUSAGE_SELF)
os.write(3, b"%f %d" % (used.ru_utime + used.ru_stime, memory))
sys.exit(status)
"""


def limits():
    import resource

    resource.setrlimit(resource.RLIMIT_CPU, (GUARD[0], GUARD[0]))
    resource.setrlimit(resource.RLIMIT_AS, (GUARD[1], GUARD[1]))
    resource.setrlimit(resource.RLIMIT_CORE, (0, 0))


# Then the limits of what is counted end a picture, and not that of time, at which a slow machine comes first.
NO_CLOCK = "from exifnorm_pictures.model import budgets\nbudgets.SECONDS = 3600.0\n"


class Ended:
    """How a command ended, and what it took."""

    def __init__(self, words, status, out, err, used):
        self.words, self.status = words, status
        self.out, self.err = out.decode("utf-8", "surrogateescape"), err.decode("utf-8", "replace")
        seconds, memory = used.split() if used else (b"inf", b"-1")
        self.seconds, self.memory = float(seconds), int(memory)

    def check(self, *statuses):
        """The command has ended with one of these statuses, within the limits, and with no error of our own."""
        print(f"{self.seconds:.2f} s, {self.memory >> 20 if self.memory < 1e12 else -1} MB, status {self.status}")
        assert self.status in statuses, (self.words, self.status, self.out[-2000:], self.err[-2000:])
        assert "internal error" not in self.out + self.err and "Traceback" not in self.err, (self.words, self.err[-2000:])
        assert self.seconds <= SECONDS, f"{self.words}: {self.seconds:.1f} seconds of a processor"
        assert self.memory <= MEMORY, f"{self.words}: {self.memory / (1 << 20):.0f} MB"
        return self


def run_each(folder, commands, code="", **variables):
    """Runs commands of exifnorm-pictures one after another, each in a process of its own, after some code."""
    with tempfile.TemporaryDirectory() as room:
        done = subprocess.run(
            [sys.executable, "-c", "from os import fork\n" + code + CALLS, json.dumps([*commands]), room],
            cwd=folder,
            stdin=subprocess.DEVNULL,
            capture_output=True,
            timeout=800,
            preexec_fn=limits,
            env=Studio.environment(EXIFNORM_DEBUG="", **variables),
        )
        assert done.returncode == 0, done
        streams = ("out", "err", "used")
        return [
            Ended(words, status, *((Path(room) / f"{it}-{number}").read_bytes() for it in streams))
            for number, (words, status) in enumerate(zip(commands, json.loads(done.stdout)))
        ]


def run(folder, *words, code="", **variables):
    """Runs one command of exifnorm-pictures, as `run_each` does."""
    return run_each(folder, [words], code, **variables)[0]


def words_of(catalogue):
    """What a catalogue has of its only picture: its problem, the causes of its blocks, and its parts."""
    with sqlite3.connect(f"file:{catalogue}?mode=ro", uri=True) as base:
        rows = base.execute("SELECT problem FROM pictures UNION ALL SELECT cause FROM blocks UNION ALL SELECT what FROM not_read")
        return [it for it, in rows if it]


@pytest.mark.parametrize("name", FILES)
def test_a_file(name, tmp_path):
    """The file is looked at within the limits, once, and without another program. The catalogue has what was not read."""
    make, word = FILES[name]
    os.mkdir(tmp_path / "p")
    make(tmp_path / "p" / name)
    os.utime(tmp_path / "p" / name, (1e9, 1e9))
    try:
        words = ["index", "p", "--catalogue", "c", "--quiet", "--jobs", "1"]
        first, second = run_each(tmp_path, [words, words], NO_CLOCK, PATH="/nowhere")
        first.check(0, 2)
        assert second.check(0).out.splitlines() == ["1 unchanged"]
    finally:
        os.remove(tmp_path / "p" / name)  # which pytest would keep
    found = words_of(tmp_path / "c")
    assert any(word in it for it in found) if word else "TooMuch" not in found, found


@pytest.mark.parametrize("words", (["compare", "p/a.png", "q/a.png"], ["changed", "p", "q", "--quiet"], ["same", "c"]), ids=" ".join)
def test_a_pattern_of_fields(words, tmp_path):
    """A property has a long name, in which the first word of the pattern is everywhere, and the second one nowhere."""
    for number, side in enumerate("pq"):
        (tmp_path / side).mkdir()
        name = "date" * 200_000
        write(tmp_path / side / "a.png", png(png_xmp(xmp(f"<dc:{name}>{number}</dc:{name}>"), packed=True)))
    index = ["index", "p", "--catalogue", "c", "--quiet", "--jobs", "1"]
    for ended in run_each(tmp_path, [index, [*words, "--ignore", "*date*time*", "--ignore", "*d?t*m?"]], PATH="/nowhere"):
        ended.check(0, 1, 2)


def installed_command(folder):
    """The command, as it is installed."""
    command = folder / "bin" / "exifnorm-pictures"
    words = [sys.executable, os.path.join(TOP, "packaging", "command.py"), command.parent, os.path.join(TOP, "python")]
    write(command, subprocess.run(words, stdout=subprocess.PIPE, check=True).stdout)
    os.chmod(command, 0o755)
    return [command]


def script_of_pip(folder):
    (folder / "bin" / "script").write_text("import sys\nfrom exifnorm_pictures.cli.main import main\nsys.exit(main())\n")
    return [sys.executable, "bin/script"]


# Each way to start it in a folder
WAYS = {
    "installed": installed_command,
    "pip's script": script_of_pip,
    "python3 -m": lambda _: [sys.executable, "-m", "exifnorm_pictures"],
    "from the sources": lambda _: [os.path.join(TOP, "exifnorm-pictures")],
}


class TestCurrentFolder:
    """Modules in the current folder, which may be the archive, are never imported in place of Python's."""

    NAMES = ("sqlite3", "argparse", "json", "typing", "exifnorm")

    @pytest.fixture
    def folder(self, tmp_path):
        for name in self.NAMES:
            (tmp_path / f"{name}.py").write_text("raise SystemExit('a file of the current folder was taken')\n")
        (tmp_path / "bin").mkdir()
        return tmp_path

    @pytest.mark.parametrize("path", (":{}", ".:{}", "{}:", "bin:{}"))
    def test_programs(self, folder, path):
        """A program in the current folder isn't ExifTool, whatever PATH is."""
        for program in (folder / "exiftool", folder / "bin" / "exiftool"):
            program.write_text("#!/bin/sh\n: >taken\n")
            program.chmod(0o755)
        write(folder / "a.jpg", with_exif(SMALL_JPEG, BLOCKS["UnknownKind"]))
        environment = {**Studio.environment(), "PATH": path.format("/usr/sbin")}
        done = subprocess.run(
            [sys.executable, "-m", "exifnorm_pictures", "mend", "a.jpg", "b.jpg"], cwd=folder, capture_output=True, env=environment
        )
        assert b"isn't installed" in done.stdout and not (folder / "taken").exists(), done

    @pytest.mark.parametrize("way", WAYS)
    def test_each_path(self, way, folder):
        """No module of the current folder is taken, but for two that Python imports by itself, if PYTHONPATH leads to them: an empty part or a
        point of it is the current folder."""
        own = ("sitecustomize", "usercustomize")
        for name in own:
            (folder / f"{name}.py").write_text(f"open('{name} was imported', 'w').close()\n")
        python = os.path.join(TOP, "python") if way in ("pip's script", "python3 -m") else ""  # how these find the packages here
        if not python:
            put(folder, {"exifnorm_pictures/__init__.py": b"raise SystemExit('a package of the current folder was taken')\n"})
        for path, is_taken in {
            "": False,
            "/x": False,
            "..:/x": False,
            **dict.fromkeys((":", ".", ":/x", "/x:", "/x::/y", f"../{folder.name}:/x"), True),
        }.items():
            self.see_that_it_runs(WAYS[way](folder), folder, os.pathsep.join(filter(None, (path, python))))
            taken = [name for name in own if (folder / f"{name} was imported").exists()]
            assert taken == list(own) * is_taken, path
            for name in taken:
                (folder / f"{name} was imported").unlink()

    @pytest.mark.parametrize("way", WAYS)
    def test_a_folder_that_is_named_as_a_whole(self, way, folder):
        """As any other folder of PYTHONPATH."""
        path = os.pathsep.join((str(folder), os.path.join(TOP, "python")))
        done = subprocess.run(
            [*WAYS[way](folder), "--help"], cwd=folder, capture_output=True, env={**Studio.environment(), "PYTHONPATH": path}
        )
        assert b"a file of the current folder was taken" in done.stderr, done

    @pytest.mark.skipif(not shutil.which("strace") or not interpreter_with("PIL"), reason="not installed: strace, python3-pil")
    @pytest.mark.parametrize("path", ("", ":/x", ".", "/x:"))
    def test_the_python_that_makes_small_pictures(self, folder, path):
        """report starts another Python, for which PYTHONPATH isn't: neither a package nor what Python imports by itself is taken."""
        (folder / "p").mkdir()
        write(folder / "p" / "a.jpg", SMALL_JPEG)
        words = [sys.executable, "-m", "exifnorm_pictures"]
        python = os.path.join(TOP, "python")
        environment = {**Studio.environment(), "PYTHONPATH": os.pathsep.join((python, path))}
        index = subprocess.run([*words, "index", "p", "--catalogue", "c", "--quiet"], cwd=folder, capture_output=True, env=environment)
        for name in ("PIL", "struct", "resource", "sitecustomize", "usercustomize"):
            (folder / f"{name}.py").write_text("import os\nopen(f'taken {os.getpid()}', 'w').close()\n")
        traced = ["strace", "-f", "-qq", "-s", "1000", "-e", "trace=execve", "-o", "trace"]
        report = subprocess.run([*traced, *words, "report", "c", "--html", "r/"], cwd=folder, capture_output=True, env=environment)
        assert index.returncode == report.returncode == 0, (index, report)
        taken = [name.name.split()[1] for name in folder.glob("taken *")]
        started = re.findall(r"^(\d+) +execve\(.*shrinking\.py.* = 0$", (folder / "trace").read_text(), re.M)
        assert len(started) == 1 and not set(started) & set(taken), (started, taken)
        assert list((folder / "r").glob("small-*.jpg")), "no small picture was made, or this test shows nothing"

    def see_that_it_runs(self, command, folder, path):
        done = subprocess.run(
            [*command, "same", "nothing"], cwd=folder, capture_output=True, env={**Studio.environment(), "PYTHONPATH": path}
        )
        assert (done.returncode, done.stderr) == (4, b"exifnorm-pictures: there is no catalogue nothing\n"), done


COMMANDS = (
    ["same", "c"],
    ["changed", "c", "c"],
    ["changed", "good", "c"],
    ["report", "c", "--html", "page"],
    ["catalogue", "export", "c", "tables"],
    ["catalogue", "merge", "c", "--catalogue", "into"],
    ["index", "p", "--catalogue", "c", "--quiet"],
    ["catalogue", "forget", "c", "p"],
    ["catalogue", "relocate", "c", "p", "."],
    ["verify", "c", "--quiet"],
    ["changed", "--picture", "p/a.jpg", "good", "c"],
    ["list", "c", "--with", "title"],
    ["list", "c", "--geojson"],
    ["check", "--rules", "rules", "c"],
    ["check", "c"],
    ["show", "--captions", "c"],
    ["mend", "c", "p"],
)
# What nothing printed may have: control characters but the end of a line, and marks that turn the direction of a text
RAW = re.compile("[\0-\x09\x0b-\x1f\x7f-\x9f\u2028\u2029\u202a-\u202e\u2066-\u2069\udc80-\udcff]")
NASTY = "x\x1b[2J\x9b31m\u202etxt\u2066\r\nfalse line"


@pytest.fixture
def archive(tmp_path):
    """A folder with two pictures of the same meaning and a third, and two catalogues of them."""
    (tmp_path / "p").mkdir()
    (tmp_path / "rules").write_text("title is one\n")
    for name, make in (("a.jpg", b"Abc"), ("b.jpg", b"Abc"), ("c.jpg", b"Xyz")):
        write(tmp_path / "p" / name, jpeg(app1(exif(make)), app1_xmp(title("one"))))
        os.utime(tmp_path / "p" / name, (1e9, 1e9))
    run(tmp_path, "index", "p", "--catalogue", "good", "--quiet").check(0)
    shutil.copy(tmp_path / "good", tmp_path / "c")
    return tmp_path


def changed(catalogue, *statements):
    """Changes a catalogue as another program could."""
    base = sqlite3.connect(catalogue, isolation_level=None)
    for it in statements:
        base.execute(it)
    base.close()


VIEW = "PRAGMA foreign_keys = OFF", "PRAGMA legacy_alter_table = ON", "ALTER TABLE {0} RENAME TO {0}2"
# What isn't ours, and what makes it of a catalogue
SCHEMAS = {
    "a trigger": ["CREATE TRIGGER t AFTER INSERT ON pictures BEGIN UPDATE pictures SET exif = 'x', exif_octets = 'y'; END"],
    "a view without end": [*VIEW, "CREATE VIEW {0} AS WITH RECURSIVE n(i) AS (SELECT 1 UNION ALL SELECT i + 1 FROM n) SELECT i FROM n"],
    "a view of long texts": [*VIEW, "CREATE VIEW {0} AS SELECT picture, number, hex(zeroblob(300000000)) AS what, '' AS digest FROM {0}2"],
    "a further table": ["CREATE TABLE more (x)"],
    "many tables": ["BEGIN", *(f"CREATE TABLE t{number} (x)" for number in range(5000)), "COMMIT"],
    "a further index": ["CREATE INDEX more ON blocks (abs(length))"],
    "a further column": ["ALTER TABLE runs ADD COLUMN more TEXT DEFAULT 'x'"],
    "an earlier release's": [f"PRAGMA user_version = {VERSION - 1}"],
    "a later release's": [f"PRAGMA user_version = {VERSION + 1}"],
    **{f"without {it}": ["PRAGMA foreign_keys = OFF", f"DROP TABLE {it}"] for it in ("runs", "pictures", "blocks", "not_read")},
}


@pytest.mark.parametrize("name", SCHEMAS)
def test_what_is_not_ours(name, archive):
    """A catalogue that is not made as ours is refused before any row is read, and nothing is written."""
    changed(archive / "c", *(it.format("not_read") for it in SCHEMAS[name]))
    before = (archive / "c").read_bytes()
    for ended in run_each(archive, COMMANDS):
        (said,) = errors(ended.check(4).err)
        assert ("c is a catalogue of a" if "release" in name else "c is no catalogue") in said, (ended.words, said)
    assert (archive / "c").read_bytes() == before and not list(archive.glob("c-*"))


def test_a_log_of_another_state(archive):
    """A backup that is copied over a catalogue whose run was killed is never changed by the log that the run has left."""
    code = "import os, sys\nfrom exifnorm_pictures.catalogue.store import Catalogue\nCatalogue.close = lambda _: os._exit(9)\n"
    write(archive / "p" / "c.jpg", jpeg(app1(exif(b"Abc")), app1_xmp(title("one"))))
    run(archive, "index", "p", "--catalogue", "c", "--quiet", code=code)
    assert os.path.getsize(archive / "c-wal") > 0
    shutil.copy(archive / "good", archive / "c")
    for ended in run_each(archive, COMMANDS):
        assert "c-wal" in ended.check(4).err, (ended.words, ended.err)
    for name in ("c-wal", "c-shm"):
        os.remove(archive / name)
    assert "2 pictures" in run(archive, "same", "c").check(0, 1, 2).out


COARSE = """
import sys
from exifnorm_pictures.model import records
from exifnorm_pictures.scan import looking
class Stat:
    st_mtime_ns = st_ctime_ns = 1_700_000_000 * 10**9
    def __init__(self, it): self.it = it
    def __getattr__(self, name): return getattr(self.it, name)
of = records.Stamp.of
records.Stamp.of = staticmethod(lambda it: of(Stat(it)))
looking._now = lambda: Stat.st_mtime_ns + {later}
"""


@pytest.mark.parametrize("later", (0, 999_999_999, 10_000_000_000, -3600 * 10**9))
def test_an_edit_within_a_tick(later, archive):
    """Edits may leave the times as they were, where a file system has whole seconds: of a file that was just written no stamp is kept. The
    clock of a share may be an hour ahead."""
    picture = archive / "p" / "c.jpg"
    looks = []
    for make in (b"One", b"Two", b"Six"):
        write(picture, jpeg(app1(exif(make)), app1_xmp(title("one"))))
        run(archive, "index", "p", "--catalogue", "new", "--quiet", code=COARSE.format(later=later)).check(0)
        with sqlite3.connect(archive / "new") as base:
            looks.append(base.execute("SELECT exif FROM pictures ORDER BY path DESC").fetchone()[0])
    assert len(set(looks)) == (3 if later < 2 * 10**9 else 1), "after two seconds no further edit has the same times"


@pytest.mark.parametrize("number", (signal.SIGTERM, signal.SIGINT, signal.SIGHUP))
def test_a_signal_in_a_long_query(number, archive):
    """A signal ends a command also while SQLite works."""
    code = (
        "import sys\nfrom exifnorm_pictures.comparison.same.groups import Groups\n"
        "def endless(groups, *_, **__):\n"
        "    groups.catalogue.base.create_function('begun', 0, lambda: print('begun', flush=True), deterministic=True)\n"
        "    yield from groups.catalogue.rows('WITH RECURSIVE n(i) AS (SELECT begun() UNION ALL SELECT 0 FROM n) SELECT i FROM n WHERE i')\n"
        "Groups.by_meaning = endless\n"
        "from exifnorm_pictures.cli.main import main\nsys.exit(main(sys.argv[1:]))\n"
    )
    words = ["env", f"--default-signal={number.name[3:]}", sys.executable, "-c", code, "same", "c"]
    with subprocess.Popen(words, cwd=archive, stdout=subprocess.PIPE, stderr=subprocess.DEVNULL, env=Studio.environment()) as started:
        try:
            assert started.stdout.readline() == b"begun\n"
            started.send_signal(number)
            assert started.wait(300) == (130 if number == signal.SIGINT else -number)
        finally:
            started.kill()


def no_control(ended):
    """Nothing that was printed controls a terminal or forges a line."""
    for text in (ended.out, ended.err):
        assert not RAW.search(text), repr(text[:2000])
        assert "\nfalse line" not in text
    return ended


def test_a_picture_that_became_a_pipe(archive):
    """No pipe and no device is opened, whoever names it: a catalogue, an argument or a list."""
    for name in ("a.jpg", "b.jpg"):
        os.remove(archive / "p" / name)
        os.mkfifo(archive / "p" / name)
    for ended in run_each(archive, [["report", "c", "--html", "page"], ["same", "c"]]):
        ended.check(0, 1, 2)
    commands = [
        words
        for device in ("/dev/zero", "p/a.jpg", "p")
        for words in (
            ["show", device],
            ["explain", device],
            ["show", "--captions", device],
            ["mend", device, "out"],
            ["index", device, "--catalogue", "new", "--quiet"],
        )
        if words[0] not in ("show", "index", "mend") or device != "p"  # which read folders, or say what to do with them
    ]
    for ended in run_each(archive, commands):
        assert len((ended.check(2).out + ended.err).splitlines()) >= 1, ended.words
    assert not (archive / "out").exists()


@pytest.mark.parametrize("name", ("/dev/zero", "/dev/stdin", "p/a\0b.jpg", "/proc/self/mem"))
def test_a_catalogue_that_names_devices(name, archive):
    with sqlite3.connect(archive / "c") as base:
        base.execute("UPDATE pictures SET path = ? WHERE id = 1", (name.encode(),))
    commands = (
        ["report", "c", "--html", "page"],
        ["same", "c"],
        ["changed", "good", "c"],
        ["changed", "c", "good"],
    )
    for ended in run_each(archive, commands):
        no_control(ended.check(0, 1, 2))


@pytest.mark.parametrize("what", ("threading.Thread.start", "os.fork"))
def test_no_further_thread_or_process(what, tmp_path):
    """In a container with few processes one does all the work, and says so."""
    (tmp_path / "p").mkdir()
    for number in range(150):
        write(tmp_path / "p" / f"{number}.jpg", jpeg(app1(exif(b"%03d" % number))))
    module = what.partition(".")[0]
    code = f'import {module}\ndef refused(*_, **__): raise RuntimeError("can\'t start new thread")\n{what} = refused\n'
    ended = run(tmp_path, "index", "p", "--catalogue", "c", "--quiet", "--jobs", "2", code=code).check(0)
    assert ended.out == "150 accepted\n"
    assert "one process looks at the pictures" in ended.err


def test_fields_that_inflate(archive):
    """Compressed fields of 400 kB that are 400 MB are damaged, and so are those of other types than ours."""
    base = sqlite3.connect(archive / "c")
    for fields in (
        packed_zeros(400),
        zlib.compress(b"[" * 8_000_000),
        b'[["main","010f","ASCII","4","x"]]',
        b'[["main",1,"ASCII",4,null]]',
        b"{}",
        b"[[]]",
        b"[1]",
        b"\xff",
        7,
    ):
        with base:
            base.execute("UPDATE pictures SET exif = 'x' || id, exif_octets = 'x' || id")
            base.execute("UPDATE blocks SET digest = 'x', fields = ? WHERE kind = 'exif'", (fields,))
        commands = ["changed", "good", "c"], ["report", "c", "--since", "good", "--html", "page"]
        for ended in run_each(archive, commands):
            no_control(ended.check(4))
            assert "c is damaged" in ended.err, ended.err
    base.close()


def test_texts_of_a_catalogue(archive):
    """Texts of a foreign catalogue are escaped, on the page too."""
    with sqlite3.connect(archive / "c") as base:
        for table, column in (
            ("pictures", "detail"),
            ("pictures", "type"),
            ("blocks", "name"),
            ("blocks", "source"),
            ("blocks", "cause"),
            ("runs", "exifnorm"),
        ):
            base.execute(f"UPDATE {table} SET {column} = ?", (NASTY,))
        base.execute("INSERT INTO not_read SELECT id, 7, ?, '' FROM pictures", (NASTY,))
        base.execute("UPDATE pictures SET not_read = 'x', exif = 'y'")
        base.execute("UPDATE pictures SET problem = ? WHERE id = 3", (NASTY,))
        fields = json.dumps(
            [["main", NASTY, "ASCII", 4, NASTY], [NASTY, "010f", "octets", 4, NASTY], ["xmp", NASTY, NASTY, 4, [NASTY]]]
        ).encode()
        base.execute("UPDATE blocks SET fields = ?, digest = 'x'", (fields,))
    commands = [
        ["same", "c"],
        ["changed", "good", "c", "--all"],
        ["changed", "c", "good", "--all"],
        ["report", "c", "--html", "page"],
        ["report", "c", "--html", "changes", "--since", "good"],
        ["index", "p", "--catalogue", "c"],
        ["catalogue", "forget", "c", "p"],
    ]
    for ended in run_each(archive, commands):
        no_control(ended.check(0, 1, 2, 4))
    for name in ("page", "changes"):
        if (archive / name).exists():
            assert not RAW.search((archive / name).read_text("utf-8"))


@pytest.mark.skipif(not shutil.which("exiftool"), reason="not installed: exiftool (package libimage-exiftool-perl)")
def test_what_mend_prints(archive):
    """Texts of a picture that ExifTool prints."""
    subprocess.run(
        [
            "exiftool",
            "-q",
            "-overwrite_original",
            f"-Artist={NASTY}",
            f"-XMP-dc:Title={NASTY}",
            f"-IPTC:Keywords={NASTY}",
            archive / "p" / "a.jpg",
        ],
        check=True,
    )
    octets = (archive / "p" / "a.jpg").read_bytes()
    at = octets.index(b"Exif\0\0") + 6
    write(archive / "bad.jpg", octets[: at + 4] + b"\0\0\0\x09" + octets[at + 8 :])
    for name in ("p/a.jpg", "bad.jpg"):
        commands = ["mend", name, f"out-{os.path.basename(name)}"], ["show", name], ["show", "--captions", name], ["explain", name]
        for ended in run_each(archive, commands):
            no_control(ended.check(0, 1, 2))


FAKE = """#!/bin/sh
while read -r line; do
    case "$line" in
    /*|./*) name=$line ;;
    "{done"*) done=$line ;;
    -execute) printf '[{"SourceFile":"%s","A:Error":"x\\\\u001b[2J\\\\u009b\\\\u202e\\\\nfalse line","A:FileType":"\\\\u001b[2J","A:MIMEType":"\\\\u009b"}]\\n' "$name"; echo "$done" ;;
    esac
done
"""


def test_texts_of_exiftool(archive):
    (archive / "bin").mkdir()
    write(archive / "bin" / "exiftool", FAKE.encode())
    os.chmod(archive / "bin" / "exiftool", 0o755)
    write(archive / "p" / "x.gif", b"GIF89a")
    path = os.pathsep.join((str(archive / "bin"), os.environ["PATH"]))
    commands = ["index", "p", "--catalogue", "c"], ["show", "p/x.gif"], ["report", "c", "--html", "page"]
    for ended in run_each(archive, commands, PATH=path):
        no_control(ended.check(0, 2))
    assert not RAW.search((archive / "page").read_text("utf-8"))


@pytest.mark.parametrize("scheduler", ("nonsense", "tcp://", "tls://127.0.0.1:1", "tcp://127.0.0.1:1", "x\x1b[2J", "ftp://a"))
def test_schedulers(scheduler, archive):
    """A name that is no address, and an address where nothing is: a line, without the tracebacks of Dask."""
    ended = run(archive, "index", "p", "--shards", "new", "--quiet", "--limit", "1", "--scheduler", scheduler)
    assert (ended.status, len(ended.err.splitlines())) == (4, 1), ended.err
    assert "internal error" not in ended.err and "Traceback" not in ended.err
    no_control(ended)
