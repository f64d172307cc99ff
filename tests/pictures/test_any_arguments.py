"""Any arguments: a documented status and a message, and never an internal error or a traceback. The options are those of the parser."""

import argparse
import os
import re
import shutil
import socket
import threading

import pytest
from made_files import app1, exif, jpeg

from exifnorm_pictures.cli.parser import parsers
from exifnorm_pictures.cli import main

VALUES = (
    "--",
    "-",
    "",
    "a\nb\x1b[2J",
    "\udcff",
    "title has \udcff",
    "dc:a\udcff",
    "-1",
    "1e999",
    "**[",
    "a" * 70000,
    "/dev/null",
    "@/dev/zero",
    "pipe",
    "socket",
    "loop",
    "q",
    "=cmd|' /C calc'!A0",
)
STATUSES = range(5)
COMMANDS = parsers()[1]


# What each command is given: the folder p has the picture a.jpg, c is its catalogue, q another folder, and rules a file of rules
GIVEN = {
    "index": ["p", "--catalogue", "c", "--quiet"],
    "catalogue merge": ["c", "--catalogue", "new"],
    "catalogue forget": ["c", "nothing"],
    "catalogue relocate": ["c", "p", "q"],
    "verify": ["c", "p", "--quiet", "--jobs", "1"],
    "same": ["c"],
    "changed": ["c", "c"],
    "compare": ["p/a.jpg", "p/a.jpg"],
    "list": ["c", "--where", "title = x"],
    "check": ["c", "--rules", "rules"],
    "nightly": ["p", "--catalogue", "c", "--rules", "rules"],
    "show": ["p/a.jpg"],
    "explain": ["p/a.jpg"],
    "report": ["c", "--html", "r"],
    "catalogue export": ["c", "t"],
    "mend": ["p/a.jpg", "copy.jpg"],
}


def calls(command: str, parser: argparse.ArgumentParser):
    """The command with each value for each option, in place of each name that it is given, and as one more name."""
    words = GIVEN[command]
    names = next((at for at, word in enumerate(words) if word.startswith("--")), len(words))
    yield []
    yield words[names:]
    for value in VALUES:
        for action in parser._actions:
            option = action.option_strings[-1:]
            if not option or option[0] in ("--jobs", "--scheduler"):  # which take seconds
                continue
            if (value, option[0]) != ("pipe", "--files-from"):  # which waits for who writes
                yield [*words, f"{option[0]}={value}"]
        for at in range(names):
            replaced = [*words[:at], value, *words[at + 1 :]]
            yield replaced
            yield [*replaced[names:], "--", *replaced[:names]]
        yield [*words[:names], value, *words[names:]]


@pytest.fixture
def end(folder, monkeypatch, capsys):
    """Runs a command in a folder with a picture and a catalogue: the status, and what is on standard error."""
    monkeypatch.chdir(folder)
    monkeypatch.setattr("sys.stdin", open(os.devnull))
    (folder / "p").mkdir()
    (folder / "q").mkdir()
    (folder / "rules").write_text("every picture needs title\n")
    os.mkfifo(folder / "pipe")
    (folder / "loop").symlink_to("loop")
    with socket.socket(socket.AF_UNIX) as listening:
        listening.bind("socket")
    (folder / "p/a.jpg").write_bytes(jpeg(app1(exif(b"abc"))))

    def call(words):
        try:
            status = main._run(words)
        except SystemExit as ended:
            status = ended.code or 0
        return status, capsys.readouterr().err

    assert call(["index", "p", "--catalogue", "c", "--quiet"]) == (0, "")
    return call


@pytest.mark.parametrize("command", COMMANDS)
def test_any_value_of_any_argument(command, end, folder, checks):
    before = {it.name for it in folder.iterdir()}
    shutil.copy(folder / "c", folder / "kept")
    statuses = set()
    for words in calls(command, COMMANDS[command]):
        status, messages = end([*command.split(), *words])
        statuses.add(status)
        shown = " ".join(map(ascii, [*command.split(), *words]))[:200]
        is_told = "internal error" not in messages and "Traceback" not in messages
        checks.check(shown, status in STATUSES and is_told, (status, messages[-300:]))
        checks.check(shown, not re.search("[\0-\x09\x0b-\x1f\x7f-\x9f]", messages), ascii(messages[-300:]))
        shutil.copy(folder / "kept", folder / "c")
        for made in {it.name for it in folder.iterdir()} - before - {"kept"}:
            (folder / made).unlink()
    assert 3 in statuses and statuses & {0, 1, 2}, "it never did what it is for"


@pytest.mark.parametrize("words", ("show --files-from pipe", "compare Make Make --only @pipe", "compare Make Make --ignore @pipe"))
def test_a_list_may_be_a_pipe(words, end, folder):
    """As of `<(find ..)`. The line that is read from it is the name of a picture, and of a field."""
    shutil.copy("p/a.jpg", "Make")
    writing = threading.Thread(target=(folder / "pipe").write_text, args=("Make\n",), daemon=True)
    writing.start()
    assert end(words.split())[0] == 0
    writing.join(600)
    assert not writing.is_alive(), "nobody has read it"


def test_a_list_without_end(end):
    """A device is read up to a limit."""
    status, messages = end(["show", "--files-from", "/dev/zero", "-0"])
    assert (status, len(messages.splitlines())) == (3, 1) and "standard input" in messages
