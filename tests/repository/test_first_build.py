"""Builds with the toolchain itself: a small repository from nothing, and these sources without proofs.

./test builds its program and its library over what `rt ci` has just proved, so the way from nothing is tested here: with a library of
one function, two that are proved side by side over it, a program over all, and the same for C. `rt lib` has to make the same archive.
"""

import os
import shutil
import subprocess
import sys
import uuid
from pathlib import Path

import pytest

TOP = Path(__file__).resolve().parents[2]


HOURS = 4 * 3600  # what a command may take at most, also on a very busy machine

pytestmark = [pytest.mark.proof, pytest.mark.timeout(2 * HOURS), pytest.mark.xdist_group("first_build")]

ARCHIVE = "out/proved/libpx_c.a"

# A library over px_bytes.
OVER = """// The same under another name.
#![tactic(auto)]

ghost use Rattle.px_bytes.specs.Echo.{echo_of};
ghost use Rattle.std.specs.Prelude.{◌≡◌};

/// What `echo` answers.
pub fn NAME(x: usize) -> usize
    ensures { result ≡ echo_of x }
{
    px_bytes::echo(x)
}
"""

# The files besides the library, px_bytes, which is the toolchain's template of one.
FILES = {
    "HANDLES": "Handles allowed: none.\n",
    "crates.txt": "px_bytes:\npx_one: px_bytes\npx_two: px_bytes\npx_cli: px_bytes px_one px_two\npx_c staticlib: px_bytes\n",
    "crates/px_one/src/lib.rt": OVER.replace("NAME", "one"),
    "crates/px_two/src/lib.rt": OVER.replace("NAME", "two"),
    "crates/px_c/include/exifnorm.h": "unsigned long exifnorm_echo(unsigned long x);\n",
    "crates/px_cli/status": "2\n",
    "crates/px_cli/src/main.rt": """// Prints the first of its words. Without any it ends with status 2.
#![tactic(auto)]

use px_bytes::echo;
use px_one::one;
use px_two::two;
use std::env;
use std::process::ExitCode;

fn run(rt: &HostRuntime) -> u8 {
    let Ok(args) = env::args(rt) else {
        return 4;
    };
    let all: Vec<String> = match args.collect(rt.alloc()) {
        Ok(all) => all,
        Err(_) => return 4,
    };
    let Some(word) = all.get(echo(one(two(1)))) else {
        return 2;
    };
    match println!(rt; "one: {word}") {
        Ok(()) => 0,
        Err(_) => 4,
    }
}

fn main(rt: HostRuntime) -> ExitCode {
    ExitCode::from(run(&rt))
}
""",
    "crates/px_c/src/lib.rt": """// The same for C.
#![tactic(auto)]

ghost use Rattle.px_bytes.specs.Echo.{echo_of};
ghost use Rattle.std.specs.Prelude.{◌≡◌};

use px_bytes::echo;

#[unsafe(no_mangle)]
pub extern "C" fn exifnorm_echo(x: usize) -> usize
    ensures { result ≡ echo_of x }
{
    echo(x)
}
""",
}


# Two functions that are proved though no body could be wrong: no call can meet the first contract, and the second may never return.
NEVER = """// A contract that no call can meet.
#![tactic(auto)]

ghost use Rattle.std.specs.Prelude.{◌<◌, ◌≡◌};

/// Answers 1.
pub fn one(n: u32) -> u32
    requires { n < 0 }
    ensures { result ≡ 1 }
{
    n
}
"""
WAITS = """// A function that may never return.
#![tactic(auto)]

use std::sync::Wait;

ghost use Rattle.std.specs.Prelude.{◌≡◌};

/// Answers 1.
pub fn two(rt: &impl Wait) -> u32
    ensures { result ≡ 1 }
{
    for _ in rt.forever() {}
    2
}
"""


# In each source, so that the toolchain has kept no proof of it from an earlier run on this machine.
UNIQUE = f"// {uuid.uuid4()}\n"


class Project:
    """The small repository in a folder that is made for it."""

    def __init__(self, top: Path) -> None:
        self.top = top
        top.mkdir()
        (top / "crates.txt").touch()
        self.call("rt", "new", "crates/px_bytes", "start_lib")
        (top / "crates/px_bytes/BUILD.bazel").unlink(missing_ok=True)  # older toolchains write one
        for name, text in FILES.items():
            (top / name).parent.mkdir(parents=True, exist_ok=True)
            (top / name).write_text(text, encoding="utf-8")
        for source in top.glob("crates/*/src/*.rt"):
            source.write_text(UNIQUE + source.read_text(encoding="utf-8"), encoding="utf-8")
        for name in ("build", "packaging"):
            shutil.copytree(TOP / name, top / name, ignore=shutil.ignore_patterns("__pycache__"))
        for name in ("exifnorm", "Makefile", "test"):
            shutil.copy(TOP / name, top / name)

    def call(self, *words: str, folder: str = ".", **named: str) -> subprocess.CompletedProcess:
        environment = {
            key: value for key, value in os.environ.items() if not key.startswith(("RT_", "EXIFNORM_", "MAKE", "TEST_PARTS", "CI"))
        }
        how = {"cwd": self.top / folder, "stdin": subprocess.DEVNULL, "capture_output": True, "text": True, "timeout": HOURS}
        return subprocess.run(words, env={**environment, **named}, check=False, **how)

    def bytes_of(self, name: str) -> bytes:
        return (self.top / name).read_bytes()


@pytest.fixture(scope="module")
def user(session_folder):
    """The repository, built as users do."""
    if not shutil.which("rt"):
        pytest.skip("there is no command rt on the PATH")
    return Project(session_folder / "user")


def test_make_proves_and_builds_and_the_launcher_runs_it(user):
    made, launched = user.call("make", "program"), user.call("./exifnorm", "a b")
    assert (made.returncode, made.stdout) == (0, "") and "proving px_bytes (1 of 4, 3 left)" in made.stderr, made
    assert (launched.returncode, launched.stdout, launched.stderr) == (0, "one: a b\n", ""), launched
    assert "logic=proved" in (user.top / "out/build-px_bytes.log").read_text(encoding="utf-8"), "the log has no proof"
    library, by_rt = user.call("make", "library"), user.call("rt", "lib", folder="crates/px_c")
    assert (library.returncode, by_rt.returncode) == (0, 0), (library, by_rt)
    assert "proving px_c (1 of 1, 0 left)" in library.stderr, "what the program stands on was proved again"
    archive = user.bytes_of("crates/px_c/out/libpx_c.a")
    assert archive[:8] == b"!<arch>\n" and archive == user.bytes_of(ARCHIVE), "another archive than that of `rt lib`"


@pytest.mark.parametrize("name, text, why", [("px_one", NEVER, "no call of `px_one::one`"), ("px_two", WAITS, "may-wait=1")])
def test_what_the_gate_refuses_is_not_built(user, name, text, why):
    (user.top / f"crates/{name}/src/lib.rt").write_text(text, encoding="utf-8")
    ran = user.call("python3", "build/prove.py", name)
    assert ran.returncode == 1 and f"fn {name}" in ran.stderr and ": proved" in ran.stderr and why in ran.stderr, ran


# ---- these sources without proofs


BLOCK = bytes.fromhex("4949 2a00 08000000 0100 1201 0300 01000000 0600 0000 00000000")
NORMAL = bytes.fromhex("4d4d 002a 00000008 0001 0112 0003 00000001 0006 0000 00000000")


def test_these_sources_are_compiled_without_proofs(folder):
    """By both launchers in a clone, each called once: the program and the library answer, and the guard refuses both."""
    if not shutil.which("rt"):
        pytest.skip("there is no command rt on the PATH")
    for name in ("build", "crates", "packaging", "python"):
        shutil.copytree(TOP / name, folder / name, ignore=shutil.ignore_patterns("out", "__pycache__"))
    for name in ("crates.txt", "HANDLES", "exifnorm", "exifnorm-pictures"):
        shutil.copy(TOP / name, folder / name)
    environment = {name: value for name, value in os.environ.items() if not name.startswith("EXIFNORM_")}
    assert subprocess.check_output([folder / "exifnorm"], env=environment, input=BLOCK) == NORMAL
    assert subprocess.check_output([folder / "exifnorm-pictures", "--version"], env=environment, text=True).endswith("-unproved\n")
    environment |= {"PYTHONPATH": str(TOP / "python"), "EXIFNORM_LIBRARY": str(folder / "out/quick/libexifnorm.so.1")}
    code = f"import exifnorm; assert exifnorm.normal({BLOCK!r}) == {NORMAL!r}"  # which needs each function of the header
    subprocess.run([sys.executable, "-c", code], env=environment, check=True)
    for name in ("exifnorm", "libexifnorm.so.1"):
        ran = subprocess.run(
            [sys.executable, TOP / "build/guard.py", folder / "out/quick" / name], capture_output=True, text=True, check=False
        )
        assert ran.returncode == 1 and "without proofs" in ran.stderr, ran
