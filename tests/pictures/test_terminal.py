"""Lines on a terminal: none is wider than the screen."""

import fcntl
import os
import pty
import re
import shutil
import struct
import subprocess
import termios

import pytest
from studio import SMALL_JPEG, TOP, Studio, needs, run, write

from exifnorm_pictures.cli.output import folded, width

COMMANDS = (
    "index p --catalogue new --quiet",
    "index p --catalogue other",
    "index --again p --catalogue c",
    "same c",
    "same c --kind pixels",
    "same c --ignore title",
    "changed p q",
    "changed p q --each",
    "changed p q --pixels --only creator",
    "changed p q --ignore GPS --all",
    "compare p/ceramics/1998-7-vase.jpg q/ceramics/1998-7-vase.jpg",
    "compare p/ceramics/2003-12-bowl.jpg q/ceramics/2003-12-bowl.jpg",
    "show p",
    "show p/ceramics/2003-12-bowl.jpg",
    "show --captions p",
    "check p --all",
    "check p --rules rules",
    "explain p",
    "explain p/arrivals/IMG_20240502.jpg",
    "catalogue export c c.sqlite",
    "verify c",
    "mend p/arrivals/IMG_20240502.jpg mended.jpg",
)


def on_terminal(words, folder, columns, is_error=False):
    """What a command prints on a terminal of so many columns; with `is_error` on standard error."""
    mine, its = pty.openpty()
    fcntl.ioctl(its, termios.TIOCSWINSZ, struct.pack("HHHH", 24, columns, 0, 0))
    environment = {name: value for name, value in Studio.environment().items() if name != "COLUMNS"}
    program = shutil.which(words[0], path=environment["PATH"])
    with subprocess.Popen(
        [program, *words[1:]],
        cwd=folder,
        env=environment,
        stdin=subprocess.DEVNULL,
        stdout=subprocess.PIPE if is_error else its,
        stderr=its if is_error else subprocess.PIPE,
    ) as process:
        os.close(its)
        printed = b""
        while True:
            try:
                octets = os.read(mine, 1 << 16)
            except OSError:  # the process has ended
                break
            printed += octets
        os.close(mine)
        other = process.stdout if is_error else process.stderr
        assert other is not None
        messages = other.read().decode()
    assert "internal error" not in messages and "Traceback" not in messages, messages
    return printed.decode().replace("\r\n", "\n").splitlines()


@pytest.fixture(scope="module")
def samples(tmp_path_factory):
    """A catalogue of the samples, and what was edited in them."""
    folder = tmp_path_factory.mktemp("terminal")
    for name, side in (("p", "before"), ("q", "after")):
        shutil.copytree(os.path.join(TOP, "samples", side), folder / name)
    vase = (folder / "p" / "ceramics" / "1998-7-vase.jpg").read_bytes()
    write(str(folder / "q" / "ceramics" / "1998-7-vase.jpg"), vase[:-300])
    write(str(folder / "rules"), b"every picture needs credit, rights end\nlabels agree except title\n")
    run(["exifnorm-pictures", "index", "p", "--catalogue", "c", "--pixels", "--quiet"], str(folder))
    return folder


@needs("exiftool")
@pytest.mark.parametrize("columns", (80, 60))
@pytest.mark.parametrize("words", COMMANDS)
def test_no_line_is_wider_than_the_screen(samples, tmp_path, words, columns):
    """Each command on the samples. A name and a command to copy stay whole."""
    shutil.copytree(samples, tmp_path / "s")
    lines = on_terminal(["exifnorm-pictures", *words.split()], tmp_path / "s", columns)
    names = ("exifnorm-pictures ", str(tmp_path), str(samples))
    bare = [re.sub("\x1b\\[[0-9;]*m", "", it) for it in lines]  # without colours
    wide = [it for it in bare if width(it) > columns and " " in it.strip() and not any(name in it for name in names)]
    assert lines and not wide, "\n".join(wide)


@needs("exiftool")
@pytest.mark.parametrize("words", [["--limit", "20"], ["--json", "--limit", "20"]])
def test_explain_says_what_it_waits_for(words, tmp_path):
    """The steps of `mend` may take as long as --limit; the line is gone when they are over. An accepted picture needs none."""
    packet = b"<x:xmpmeta xmlns:x='adobe:ns:meta/'/>"
    for name, octets, expected in (
        ("a.xmp", packet, ["trying what mend does, for at most 20 seconds", "\x1b[K"]),
        ("b.jpg", SMALL_JPEG, []),
    ):
        write(str(tmp_path / name), octets)
        assert on_terminal(["exifnorm-pictures", "explain", name, *words], tmp_path, 80, is_error=True) == expected


def test_a_folded_line_has_the_same_words():
    for text in ("a " * 90, "x" * 200, "b" * 90 + ": " + "c d " * 30, "one two three: exifnorm-pictures list --where " + "e" * 90):
        for columns in (20, 80):
            assert " ".join(folded(text, columns)).split() == text.split(), text
