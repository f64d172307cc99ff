"""What commands print and write in another environment: nothing is other but what is of local time."""

import contextlib
import json
import os
import random
import re
import subprocess
import sys
from pathlib import Path

import pytest
from museum import run, standing_clock
from studio import TESTS_PATH, TOP, needs
from test_options_together import LINES, fresh, make, written
from exifnorm_pictures.scan import looking

MORE = (
    "changed old c --csv",
    "changed old c --each --exact",
    "changed q p --jobs 1 --quiet --json",
    "same c --kind pixels --columns title,creator",
    "list c --columns title,creator,keywords",
    "list c --count creator",
    'list c --where \'creator like "ANNA*" or title = "a bowl"\' --csv',
    "show --captions c --csv",
    "report c --since old --rules rules --html page.html --no-look",
    "report c --since old --html pages/ --no-look",
    "index p --catalogue new --jobs 2 --pixels --sidecars",
    "index p p/a --catalogue both",
)
ONCE = [lines[0] for command, lines in LINES.items() if command != "mend"]
PROGRESS = re.compile(r"\d+ of \d+ pictures, .* a second$")
LOCAL = re.compile(r"20\d\d-\d\d-\d\d \d\d:\d\d\b")  # when a report was made, and the last run of a catalogue


def outcomes(folder, zone, chance):
    """What each line prints and writes in a new archive, whose folders are listed by chance."""
    if chance:
        shuffle_folders(random.Random(chance))
    with standing_clock(zone), contextlib.chdir(folder):
        make(folder)
        for line in (*ONCE, *MORE):
            fresh(folder)
            status, lines, messages = run(line, folder)
            texts = [it.replace(str(folder), "F") for it in (*lines, *messages) if not PROGRESS.match(it)]
            digests = {} if "page" in line or "tables" in line else sorted(written(folder))
            pages = [it.read_text(encoding="utf-8").replace(str(folder), "F").splitlines() for it in sorted(folder.rglob("*.html"))]
            yield line, status, texts, digests, pages


def shuffle_folders(chance):
    scan, names = os.scandir, os.listdir

    class Shuffled:
        def __init__(self, path="."):
            with scan(path) as entries:
                self.entries = iter(chance.sample(found := list(entries), len(found)))

        def __enter__(self):
            return self

        def __exit__(self, *_):
            pass

        def __iter__(self):
            return self

        def __next__(self):
            return next(self.entries)

        def close(self):
            pass

    os.scandir = Shuffled
    os.listdir = lambda path=".": chance.sample(found := names(path), len(found))


def main():
    looking.FINE = 0
    folder, zone, chance = sys.argv[1:]
    json.dump(list(outcomes(Path(folder), zone, int(chance))), sys.stdout)


# The variables, the time zone, the seed of the order of folders, and the umask
NO_UTF8 = {"LC_ALL": "POSIX", "PYTHONCOERCECLOCALE": "0", "PYTHONUTF8": "0"}
VARIANTS = {
    "no UTF-8, a narrow terminal, folders in another order": ({**NO_UTF8, "COLUMNS": "20", "PYTHONHASHSEED": "77"}, "UTC", 5, 0o077),
    "Turkish, a day ahead": ({"LC_ALL": "tr_TR.UTF-8", "PYTHONHASHSEED": "3"}, "Pacific/Kiritimati", 0, 0o022),
    "German in Latin-1, half an hour off": ({"LC_ALL": "de_DE.ISO-8859-1", "LANGUAGE": "de"}, "America/St_Johns", 9, 0o002),
}


def ran(folder, variables, zone, chance, umask):
    folder.mkdir()
    before = os.umask(umask)
    try:
        call = [sys.executable, "-c", "import test_environments as it; it.main()", str(folder), zone, str(chance)]
        environment = {**os.environ, "LC_ALL": "C.UTF-8", "PYTHONPATH": TESTS_PATH, **variables}
        done = subprocess.run(call, capture_output=True, env=environment, timeout=600)
    finally:
        os.umask(before)
    assert done.returncode == 0, done.stderr.decode(errors="replace")
    return json.loads(done.stdout)


@pytest.fixture(scope="session")
def locales(tmp_path_factory):
    """The folder of two locales, which are made here: few machines have them."""
    folder = tmp_path_factory.mktemp("locales")
    for name, territory, characters in (("tr_TR.UTF-8", "tr_TR", "UTF-8"), ("de_DE.ISO-8859-1", "de_DE", "ISO-8859-1")):
        subprocess.run(["localedef", "-i", territory, "-f", characters, str(folder / name)], capture_output=True)
    return folder


@pytest.fixture(scope="session")
def usual(tmp_path_factory):
    return ran(tmp_path_factory.mktemp("usual") / "archive", {}, "UTC", 0, 0o022)


@needs("exiftool", "exiv2")
@pytest.mark.parametrize("name", VARIANTS)
def test_another_environment_changes_nothing(name, usual, locales, tmp_path_factory, checks):
    variables, zone, *more = VARIANTS[name]
    wanted = variables.get("LC_ALL", "C")
    if "_" in wanted and not (locales / wanted).exists():
        pytest.skip(f"localedef made no locale {wanted}")
    found = ran(
        tmp_path_factory.mktemp("other") / "elsewhere",
        {**variables, "LOCPATH": str(locales)} if "_" in wanted else variables,
        zone,
        *more,
    )
    for (line, *expected), (_, *others) in zip(usual, found):
        sides = [json.dumps(it, indent=1).splitlines() for it in (expected, others)]
        if zone != "UTC":
            sides = [[LOCAL.sub("a local time", text) for text in side] for side in sides]
        checks.equal(line, *([text for text in side if text not in other] for side, other in (sides[::-1], sides)))


def test_the_launcher_of_a_clone_needs_no_environment():
    """Without a PATH Python doesn't know its own name."""
    only = {"EXIFNORM_LIBRARY": os.environ["EXIFNORM_LIBRARY"]}
    done = subprocess.run([f"{TOP}/exifnorm-pictures", "--version"], capture_output=True, env=only)
    assert (done.returncode, done.stderr) == (0, b"") and done.stdout.startswith(b"exifnorm-pictures "), done
