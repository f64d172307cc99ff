"""What a command costs before it does its work, in instructions, which don't depend on what else the machine does."""

import os
import platform
import re
import subprocess
import sys

import pytest
from made_files import app1, app1_xmp, app13, exif, iim, jpeg, resource, title
from studio import needs

from exifnorm_pictures import __file__ as PACKAGE

# Millions over those of Python alone, in a process that finds all modules compiled; of another Python they differ
MOST = {"--version": 50, "show a.jpg": 165, "compare a.jpg b.jpg": 170}
IS_MEASURED = sys.implementation.name == "cpython" and sys.version_info[:2] == (3, 11) and platform.machine() == "x86_64"


@pytest.fixture(scope="module")
def counted(tmp_path_factory):
    """The millions of instructions of a command of Python, in a folder with two pictures."""
    folder = tmp_path_factory.mktemp("start")
    for name, text in (("a.jpg", "one"), ("b.jpg", "two")):
        record = resource(0x0404, iim(text.encode()))
        picture = jpeg(app1(exif(text.encode())), app1_xmp(title(text)), app13(record))
        (folder / name).write_bytes(picture)
    environment = {**os.environ, "PYTHONPATH": os.path.dirname(os.path.dirname(PACKAGE)), "PYTHONPYCACHEPREFIX": str(folder / "compiled")}
    environment.pop("PYTHONDONTWRITEBYTECODE", None)

    def count(*words):
        words = [sys.executable, *words]
        done = subprocess.run(words, cwd=folder, env=environment, capture_output=True, check=False)  # which compiles the modules
        assert done.returncode in (0, 1), done
        valgrind = ["valgrind", "--tool=cachegrind", "--cache-sim=no", "--cachegrind-out-file=/dev/null", *words]
        again = subprocess.run(valgrind, cwd=folder, env=environment, capture_output=True, text=True, check=False)
        return int(re.findall(r"I\s+refs:\s+([\d,]+)", again.stderr)[-1].replace(",", "")) / 1e6

    return count


@needs("valgrind")
@pytest.mark.skipif(not IS_MEASURED, reason="the bounds are those of CPython 3.11 on x86-64")
@pytest.mark.parametrize("words", MOST)
def test_instructions_of_a_start(words, counted):
    alone = counted("-c", "pass")
    assert counted("-m", "exifnorm_pictures", *words.split()) - alone <= MOST[words]
