"""./test in a folder of its own, with commands in place of the toolchain, make and Python: what it counts, and what it leaves."""

import os
import shutil
import signal
import subprocess
import time
from pathlib import Path
from typing import Dict

import pytest

TOP = Path(__file__).resolve().parent.parent
# What each command does. `make` writes the program; the command in place of Python runs "pytest" and prints how it was called. `rt ci`
# refuses what a build leaves, as the toolchain does.
COMMANDS = {
    "rt": '[ "$1" = ci ] || exec cat "${0%/*}/version"; [ -d .git ] && [ ! -e out ] && [ ! -e crates/px_c/out ] && echo proving',
    "make": "printf '#!/bin/sh\\necho exifnorm 1.0.0\\n' >out/exifnorm; chmod +x out/exifnorm",
    "python3": 'echo "$@" $(cat "$3"/crates/px_c/src/lib.rt)',
    "tests-python": '[ "$1" = -c ] || { echo "$@"; echo "5 passed, 0 failed"; }',
    "version": "toolchain 1",
}


@pytest.fixture
def gate(folder: Path) -> Path:
    """The folder, in which ./test can be called."""
    shutil.copy(TOP / "test", folder)
    (folder / "bin").mkdir()
    put(folder, **COMMANDS)
    for name in (
        "crates.txt",
        "HANDLES",
        "crates/px_c/src/lib.rt",
        "crates/px_c/must-fail/one.edit",
        "crates/px_c/out/left",
        "out/proved/left",
    ):
        (folder / name).parent.mkdir(parents=True, exist_ok=True)
        (folder / name).write_text("one", encoding="ascii")
    return folder


def put(folder: Path, **commands: str) -> None:
    for name, script in commands.items():
        path = folder / "bin" / name
        path.write_text(f"#!/bin/sh\n{script}\n", encoding="ascii")
        path.chmod(0o755)


def environment(folder: Path) -> Dict[str, str]:
    return {**os.environ, "PATH": f"{folder}/bin:{os.environ['PATH']}", "EXIFNORM_PYTHON": f"{folder}/bin/tests-python", "CI": ""}


def call(folder: Path, *words: str, **named: str) -> "subprocess.CompletedProcess[str]":
    how = {"cwd": folder, "stdin": subprocess.DEVNULL, "capture_output": True, "text": True, "timeout": 600, "check": False}
    return subprocess.run(["./test", *words], env={**environment(folder), **named}, **how)  # type: ignore[call-overload, no-any-return]


def last_line(ran: "subprocess.CompletedProcess[str]") -> str:
    return ran.stdout.splitlines()[-1]


def test_all_is_well(gate):
    ran = call(gate)
    assert (ran.returncode, last_line(ran)) == (0, "5 passed, 0 failed"), ran
    assert "build/prove.py --take out/gate one" in ran.stdout, "what rt ci has proved is not taken over"
    assert (gate / "out/proved/left").exists() and not (gate / "out/gate").exists()


@pytest.mark.parametrize(
    "command, script",
    [
        ("rt", "echo proving; exit 1"),
        ("make", COMMANDS["make"] + "; exit 2"),
        ("make", "printf '#!/bin/sh\\necho exifnorm 1.0.0-unproved\\n' >out/exifnorm; chmod +x out/exifnorm"),
        ("make", "printf '#!/bin/sh\\nexit 70\\n' >out/exifnorm; chmod +x out/exifnorm"),
        ("python3", "exit 1"),
        ("tests-python", "exit 1"),
        ("tar", "exit 1"),
    ],
)
def test_no_test_runs_over_what_is_not_proved(gate, command, script):
    put(gate, **{command: script})
    for _ in range(2):
        ran = call(gate)
        assert (ran.returncode, last_line(ran)) == (1, "0 passed, 1 failed"), ran
        assert "-m pytest" not in ran.stdout


def test_what_was_proved_is_not_proved_again_until_something_changes_but_in_ci(gate):
    assert "proving" in call(gate).stdout
    (gate / "crates/px_c/out/more").touch()
    (gate / "crates/README.md").write_text("a page", encoding="ascii")
    ran = call(gate)
    assert ran.returncode == 0 and "proving" not in ran.stdout and "all was proved by an earlier run" in ran.stdout, ran
    assert "proving" in call(gate, CI="true").stdout
    for name in (
        "crates/px_c/src/lib.rt",
        "crates/px_c/must-fail/one.edit",
        "crates/px_c/src/more.rt",
        "crates.txt",
        "HANDLES",
        "bin/version",
    ):
        (gate / name).write_text("two\n", encoding="ascii")
        assert "proving" in call(gate).stdout, name
        assert "proving" not in call(gate).stdout, name


def test_a_source_that_is_edited_meanwhile_is_proved_by_the_next_run(gate):
    put(gate, rt=f"{COMMANDS['rt']}; echo two >'{gate}/crates/px_c/src/lib.rt'")
    assert "build/prove.py --take out/gate one" in call(gate).stdout
    put(gate, rt=COMMANDS["rt"])
    assert "proving" in call(gate).stdout


def begun(folder: Path) -> int:
    """Waits until the command in place of `rt` has begun: the number that it wrote. A file is there before it has what is written to it."""
    while not (folder / "started").exists() or not (folder / "started").read_text(encoding="ascii").endswith("\n"):
        time.sleep(0.05)
    return int((folder / "started").read_text(encoding="ascii"))


def test_after_a_run_that_was_killed(gate):
    put(gate, rt='[ "$1" = ci ] || exit 0; echo $$ >../../started; exec sleep 600')
    started = subprocess.Popen(["setsid", "./test"], cwd=gate, env=environment(gate), stdin=subprocess.DEVNULL, stdout=subprocess.DEVNULL)
    os.killpg(os.getpgid(begun(gate)), signal.SIGKILL)
    started.wait(timeout=600)
    assert (gate / "out/gate").exists(), "the run left nothing, so this test shows nothing"
    (gate / "out/gate/crates/px_c/more.rt").touch()
    put(gate, rt="[ ! -e crates/px_c/more.rt ] || exit 1\n" + COMMANDS["rt"])
    assert call(gate).returncode == 0 and not (gate / "out/gate").exists()


def test_a_stopped_run_leaves_no_process(gate, tmp_path):
    """By any of these signals. The runs take seconds to end, so they do it at the same time."""
    put(gate, rt="[ \"$1\" = ci ] || exit 0; (trap '' INT TERM; echo $$ >../../started; exec sleep 600) & sleep 600")
    runs = {}
    for number in (signal.SIGINT, signal.SIGTERM, signal.SIGHUP):
        shutil.copytree(gate, top := tmp_path / number.name)
        words, how = ["env", "--default-signal", "./test"], {"stdin": subprocess.DEVNULL, "stdout": subprocess.PIPE, "text": True}
        runs[number] = subprocess.Popen(words, cwd=top, env=environment(top), **how)
    for number, started in runs.items():
        begun(tmp_path / number.name)
        started.send_signal(number)
    for number, started in runs.items():
        output, _ = started.communicate(timeout=600)  # the pipe is open as long as a process is left
        assert started.returncode == 1, (number, output)


@pytest.mark.parametrize(
    "words, expected",
    [(["--quick"], "--program quick/exifnorm"), (["tests/pictures", "--only", "a, [b]"], "-m not proof tests/pictures --only a, [b]")],
)
def test_a_choice_and_the_quick_form_prove_nothing(gate, words, expected):
    """The quick one builds by the two launchers and calls pytest with what they built."""
    put(gate, rt="echo proving", make="echo building")
    for name, script in {"exifnorm": "echo quick/exifnorm", "exifnorm-pictures": "true"}.items():
        (gate / name).write_text(f"#!/bin/sh\n{script}\n", encoding="ascii")
        (gate / name).chmod(0o755)
    for name in ("crates/px_c/include/exifnorm.h", "out/quick/libexifnorm.so.1"):
        (gate / name).parent.mkdir(parents=True, exist_ok=True)
        (gate / name).touch()
    ran = call(gate, *words)
    assert (ran.returncode, last_line(ran)) == (0, "5 passed, 0 failed") and expected in ran.stdout, ran
    assert "proving" not in ran.stdout and "building" not in ran.stdout, ran
