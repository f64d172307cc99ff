"""An option that a command accepts has an effect, or is refused."""

import argparse
import importlib
import json
import os
import select
import shutil
import subprocess
import sys

import pytest
from made_blocks import block, entry
from made_files import A, app1, exif, jpeg
from meanings import ASCII, UNDEFINED
from studio import SMALL_JPEG, TOP, put

from exifnorm_pictures.cli import parser
from exifnorm_pictures.cli.options import Fields, Files, Least, Output, Run
from exifnorm_pictures.files.session import Session

BOWL, PHONE = f"{TOP}/samples/before/ceramics/2003-12-bowl.jpg", f"{TOP}/samples/before/arrivals/IMG_20240502.jpg"
LISTED = ("--files-from", "list", "-0")
OF_CHECK = ("p", "--rules", "rules")
COMMANDS = {
    "index": (*LISTED, "--catalogue", "other"),
    "catalogue merge": ("--catalogue", "other", "c"),
    "catalogue forget": ("c", *LISTED),
    "catalogue relocate": ("c", "p", "q"),
    "verify": ("c", *LISTED),
    "same": (*LISTED, "c"),
    "changed": (*LISTED, "p", "p"),
    "compare": (BOWL, PHONE),
    "show": LISTED,
    "list": ("p",),
    "check": (*LISTED, "--rules", "rules"),
    "nightly": ("p", "--catalogue", "nights", "--html", "page"),
    "explain": LISTED,
    "report": (*LISTED, "c", "--html", "page"),
    "catalogue export": (*LISTED, "c", "tables"),
    "mend": (*LISTED, "p"),
}


def recorded(kind, names, monkeypatch):
    """Adds to `names` what is read of each object of a kind."""
    monkeypatch.setattr(kind, "__getattribute__", lambda self, name: names.add(name) or object.__getattribute__(self, name))


@pytest.fixture
def archive(folder, called):
    """A folder of one picture, its catalogue, and a list of its names."""
    (folder / "p").mkdir()
    (folder / "q").mkdir()
    put(
        folder,
        {
            "p/a.jpg": jpeg(app1(A)),
            "list": b"p/a.jpg\0",
            "rules": b"every picture needs title\n",
        },
    )
    assert called("index", "p", "--catalogue", "c", "--quiet")[0] == 0
    return folder


@pytest.mark.parametrize("command", [name for name, *_ in parser.COMMANDS])
def test_each_option_is_looked_at(command, archive, capsys, monkeypatch):
    """An option that no statement looks at would be accepted and have no effect. `main` itself looks at --debug, --limit and --xlsx. A record of
    options is made of all that a command has, so what counts is what is read of the record."""
    words = (*COMMANDS[command], *(("--evidence", "sums") if command == "verify" else ()))  # by which --form is looked at
    given = vars(parser.parsers()[0].parse_args([command, *words]))
    accepted = set(given) - {"command", "version", "debug", "limit", "no_programs", "xlsx"}
    read = set()
    arguments = type("Recorded", (argparse.Namespace,), {})(**given, session=Session(), least=Least())
    for kind in (type(arguments), Files, Fields, Output, Run):
        recorded(kind, read, monkeypatch)
    importlib.import_module(f"exifnorm_pictures.cli.commands.{command.split()[-1]}").run(arguments)
    assert accepted <= read, "an option of this command is never looked at"


def options():
    """Each option of each command: the command, and the spellings of the option."""
    for name, command in parser.parsers()[1].items():
        for action in command._actions:
            if action.option_strings and action.dest != "help":
                yield name, frozenset(action.option_strings)


def of_each_command(*spellings):
    """The commands that have an option, and with them the option as a test gives it."""
    return [(name, spelling) for spelling in spellings for name, of_command in options() if spelling in of_command]


NAMED = {"index": ("c", "p"), "nightly": ("c", "p")}  # whose catalogue can be given in two ways


@pytest.mark.parametrize("command", NAMED)
def test_the_catalogue_as_a_name_and_as_an_option(command, archive, called):
    """The answer is the same, and so is what is written."""
    unsorted = block([entry(0x013B, ASCII, 4, b"Ann\0"), entry(0x010F, ASCII, 4, b"Bob\0")])
    for name in ("a.jpg", "b.jpg"):
        (archive / "p" / name).write_bytes(jpeg(app1(unsorted)))
    called("index", "p", "--catalogue", "c", "--quiet", "--pixels")
    (archive / "p" / "new.jpg").write_bytes(jpeg(app1(A)))
    words, before = NAMED[command], folder_of(archive)

    def answer(*given):
        status, printed, _ = called(*command.split(), *given)
        written = folder_of(archive)
        for name in set(written) - set(before):
            (archive / name).unlink()
        (archive / "c").write_bytes(before["c"])
        return status, printed, {name: octets for name, octets in written.items() if name.startswith(("p/", "q/"))}, sorted(written)

    expected = answer(*words)
    assert expected[0] < 3 and expected[1]
    assert answer(*(it for it in words if it != "c"), "--catalogue", "c") == expected


def folder_of(top):
    """The bytes of each file below a folder."""
    return {str(it.relative_to(top)): it.read_bytes() for it in sorted(top.rglob("*")) if it.is_file()}


@pytest.mark.parametrize("command, option", of_each_command("--no-programs"))
def test_no_program_is_started(command, option, archive, called, monkeypatch):
    """Of a picture that only ExifTool reads, one with a MakerNote, and one of which a small picture is made. Without the option most commands
    start one, which fails here: what only it could read is not known then either."""
    maker = block([entry(0x927C, UNDEFINED, 40, b"\1" * 40), entry(0x8769, 4, 1, (8).to_bytes(4, "little"))][:1])
    for folder in "pq":
        put(archive, {f"{folder}/b.exv": b"\xff\x01Exiv2\xff\xd9", f"{folder}/c.jpg": jpeg(app1(maker.replace(b"\1", folder.encode())))})
        shutil.copy(BOWL, archive / folder / "d.jpg")
    called("index", "p", "--catalogue", "c", "--quiet", option)
    words = {
        "explain": ("p/b.exv",),
        "show": ("p/b.exv",),
        "compare": ("p/b.exv", "q/b.exv"),
        "mend": ("p/b.exv", "copy"),
        "changed": ("p", "q"),
    }
    words = words.get(command, OF_CHECK if command == "check" else [it for it in COMMANDS[command] if it not in LISTED])
    words = [*(["p"] * (command == "index")), *words, *(["--jobs", "1"] * ((command, "--jobs") in of_each_command("--jobs")))]
    started = []

    def start(*given, **how):
        started.append(given[0])
        raise OSError(2, "not there")

    monkeypatch.setattr("subprocess.Popen", start)
    status = called(*command.split(), *words, option)[0]
    assert status in (0, 1, 2) and started == []
    for path in ("other", "nights", "page", "tables", "copy"):
        (archive / path).unlink(missing_ok=True)
    called(*command.split(), *words)
    assert bool(started) == (command != "catalogue export"), "with a catalogue of pictures that were read"


# ---- Commands that get names on standard input answer each before they read the next: a program can keep one open.

NAMES = [f"samples/before/{it}" for it in ("ceramics/1998-7-vase.jpg", "arrivals/IMG_20240502.jpg", "ceramics/2003-12-bowl.jpg")]
PATIENCE = 60  # seconds; a busy machine needs a few


@pytest.fixture
def opened():
    """Starts a command that reads names."""
    running = []

    def start(*words, end=b"\n"):
        process = subprocess.Popen(
            [sys.executable, "-m", "exifnorm_pictures", *words, "--files-from", "-", *(["-0"] if end == b"\0" else [])],
            stdin=subprocess.PIPE,
            stdout=subprocess.PIPE,
            env={**os.environ, "PYTHONPATH": f"{TOP}/python"},
            cwd=TOP,
            bufsize=0,
        )
        running.append(process)
        return process

    yield start
    for process in running:
        process.kill()
        process.wait()
        process.stdin.close()
        process.stdout.close()


def answered(process, name, wanted, end=b"\n"):
    """What a command prints for a name, up to a line with some bytes."""
    process.stdin.write(os.fsencode(name) + end)
    printed = b""
    while wanted not in printed or not printed.endswith(b"\n"):  # a read can end within a line
        assert select.select([process.stdout], [], [], PATIENCE)[0], f"no answer to {name} while more names may come; so far: {printed!r}"
        piece = process.stdout.read(1 << 16)
        assert piece, f"ended with {process.wait()} after {printed!r}"
        printed += piece
    return printed


def answers(command):
    """Whether a command does something with each picture that is named."""
    arguments = {action.dest for action in command._actions}
    return {"files_from", "names"} <= arguments and "source" not in arguments


ANSWER = [name for name, command in parser.parsers()[1].items() if answers(command)]


@pytest.mark.parametrize("end", [b"\n", b"\0"], ids=["lines", "NUL"])
@pytest.mark.parametrize("command", ANSWER)
def test_an_object_for_each_name(opened, command, end, tmp_path):
    """Whatever the picture is, also if it is asked for again: a program that waits for the answer would wait for ever."""
    (tmp_path / "text.jpg").write_text("no picture")
    (tmp_path / "plain.jpg").write_bytes(SMALL_JPEG)
    (tmp_path / "cut.jpg").write_bytes(SMALL_JPEG[:15])
    (tmp_path / "out").mkdir()
    process = opened(command, "--json", *([str(tmp_path / "out")] if command == "mend" else []), end=end)
    names = [*NAMES, *map(str, sorted(tmp_path.glob("*.jpg"))), "nowhere.jpg", NAMES[0]]
    for at, name in enumerate(names):
        lines = answered(process, name, json.dumps(name).encode(), end).split(b"\n")[:-1]
        paths = {json.loads(it)["path"] for it in lines}
        assert name in paths and paths <= set(names[: at + 1])
    process.stdin.close()
    process.stdout.read()
    assert process.wait() in (2, 4)


@pytest.mark.parametrize(
    "words",
    [
        ("show",),
        ("show", "--exact"),
        ("show", "--csv"),
        ("show", "--captions"),
        ("show", "--captions", "--csv"),
        ("explain",),
    ],
    ids=" ".join,
)
def test_lines_for_each_name(opened, words):
    process = opened(*words)
    for name in NAMES:
        assert os.fsencode(name) in answered(process, name, os.fsencode(name))


def test_a_name_in_pieces_and_the_last_one_without_an_end(opened):
    process = opened("show", "--json")
    process.stdin.write(os.fsencode(NAMES[0])[:9])
    assert json.loads(answered(process, NAMES[0][9:], b"\n"))["path"] == NAMES[0]
    process.stdin.write(os.fsencode("\n\n" + NAMES[2]))
    process.stdin.close()
    assert json.loads(process.stdout.read())["path"] == NAMES[2]


# ---- Answers to words that name no command or no picture: they name the command or the file that is meant.


@pytest.fixture
def pictures(folder):
    put(folder / "p q", {"a.jpg": jpeg(app1(exif(b"abc")))})
    return folder / "p q"


@pytest.mark.parametrize("command", ("show", "explain"))
def test_a_folder_where_pictures_are_expected(pictures, called, command):
    """The words that are printed can be typed: they lead to the same pictures."""
    status, printed, _ = called(*command.split(), "p q")
    assert (
        status == 2
        and "show --captions, check and index take folders" in printed
        and f"{command} takes pictures, such as 'p q'/*" in printed
    )
    assert called(*command.split(), "p q", "--json")[1].count("NotAFile") == 1


def test_pictures_where_folders_are_expected(pictures, called):
    status, _, messages = called("changed", "p q/a.jpg", "p q/a.jpg")
    assert status == 3 and messages.endswith("for two pictures use: exifnorm-pictures compare A B\n")


def test_help(called, capsys):
    first = {"": "usage: exifnorm-pictures [-h]", "mend": "usage: exifnorm-pictures mend [", "rules": "Rules:", "fields": "FIELD is a name"}
    for words, usage in first.items():
        with pytest.raises(SystemExit) as ended:
            called("help", *words.split())
        assert ended.value.code == 0 and capsys.readouterr().out.startswith(usage)
    with pytest.raises(SystemExit) as ended:
        called("help", "nothing")
    assert ended.value.code == 3
