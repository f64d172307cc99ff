"""What `make install`, the Debian packages, the archive and the wheel write, each used where it is: the same questions for each of them.

The program and the library have to be built: `make`. The packages and the archive are those of a release.
"""

from __future__ import annotations

import os
import re
import shutil
import sys
import tarfile
import zipfile
from dataclasses import dataclass
from pathlib import Path
from typing import Callable, Iterator

import pytest
from installed import CALLS, DEBIAN_PYTHON, EXAMPLES, FILE, MAKE, TOP, VERSION, Tree, has_headers, modules, need_headers, run, text_of, tree
from releases import DEBS

BLOCK = bytes.fromhex("4d4d002a00000008 0001 0112 0003 00000001 00060000 00000000")
PICTURE = b"\xff\xd8\xff\xe1" + (len(BLOCK) + 8).to_bytes(2, "big") + b"Exif\0\0" + BLOCK + b"\xff\xd9"
EXTENSION = "exifnorm/_native.abi3.so"
SYSTEM_PATH = "/usr/sbin:/usr/bin:/sbin:/bin"
pytestmark = pytest.mark.xdist_group("release")  # everything is made once, and shared


@dataclass
class Place:
    """Where everything is, of one form."""

    tree: Path  # all of it
    prefix: Path
    libraries: Path
    packages: Path
    python: str = DEBIAN_PYTHON

    def run(self, *words: str | Path, **more) -> str:
        """Runs a command with the variables that lead to this form, and to no other."""
        found = {"PKG_CONFIG_LIBDIR": self.libraries / "pkgconfig", "PKG_CONFIG_SYSROOT_DIR": self.tree, "LD_LIBRARY_PATH": self.libraries}
        if "pcfiledir" in (self.libraries / "pkgconfig/exifnorm.pc").read_text(encoding="utf-8"):
            del found["PKG_CONFIG_SYSROOT_DIR"]
        found |= {
            "PATH": f"{self.prefix}/bin:{SYSTEM_PATH}",
            "PYTHONPATH": self.packages,
            "EXIFNORM_LIBRARY": "",
            "PYTHONDONTWRITEBYTECODE": "1",
        }
        return run(*words, **{name: str(it) for name, it in found.items()}, **more)


# ---- the forms


@pytest.fixture(scope="session")
def usr(session_folder: Path, program: Path, library: Path) -> Tree:
    """An installation for Debian's Python."""
    it = Tree(session_folder / "usr", "/usr", DEBIAN_PYTHON)
    it.make("install")
    return it


@pytest.fixture(scope="session")
def other(session_folder: Path, program: Path, library: Path) -> Tree:
    """An installation with another prefix and umask, for a Python in a folder whose name has a space."""
    python = session_folder / "other python"
    run(sys.executable, "-m", "venv", "--without-pip", python)
    it = Tree(session_folder / "other", "/x", str(python / "bin" / "python3"))
    it.make("install", mask=0o077)
    return it


@pytest.fixture(scope="session")
def debs(made: Path) -> dict[str, Path]:
    """The Debian packages of a release, by their names. None has a script of its own that dpkg would run."""
    return {it.name.partition("_")[0]: it for pattern in DEBS for it in made.glob(f"{pattern}.deb")}


@pytest.fixture(scope="session")
def debian(session_folder: Path, debs: dict[str, Path]) -> Path:
    """The folder in which all packages are unpacked."""
    for file in debs.values():
        run("dpkg-deb", "-x", file, session_folder / "debian")
    return session_folder / "debian"


@pytest.fixture(scope="session")
def archive(session_folder: Path, made: Path) -> Path:
    """The folder of the unpacked archive."""
    (file,) = made.glob("*-linux-*.tar.gz")
    run("tar", "-xf", file, "-C", session_folder)
    return session_folder / file.name[: -len(".tar.gz")]


@pytest.fixture(scope="session")
def wheel(session_folder: Path, made: Path) -> Path:
    """The folder of the unpacked wheel."""
    (file,) = made.glob(f"*_{os.uname().machine}.whl")
    with zipfile.ZipFile(file) as it:
        it.extractall(session_folder / "wheel")
    return session_folder / "wheel"


@pytest.fixture(params=["usr", "other", "debian", "archive"])
def place(request: pytest.FixtureRequest) -> Place:
    it = request.getfixturevalue(request.param)
    if isinstance(it, Tree):
        return Place(it.root, it.at(), it.at("lib"), it.module_folder, it.python)
    if request.param == "debian":
        machine = run("dpkg-architecture", "-qDEB_HOST_MULTIARCH").strip()
        return Place(it, it / "usr", it / "usr/lib" / machine, it / "usr/lib/python3/dist-packages")
    return Place(it, it, it / "lib", it / "lib/python3/site-packages")


# ---- questions for each of them


def test_it_is_used(place: Place, folder: Path) -> None:
    """By the test that Debian runs of its packages: the program, the library from C and from Python, and exifnorm-pictures."""
    samples = place.prefix / "share/doc/exifnorm/samples"
    assert "bowl" in place.run("sh", TOP / "debian/tests/samples", SAMPLES=str(samples), AUTOPKGTEST_TMP=str(folder), folder=folder)
    assert place.run("sh", "-e", EXAMPLES / "compare.sh", folder=folder) == place.run(place.python, EXAMPLES / "compare.py") == "same\n"
    place.run("exifnorm-pictures", "no-such-command", status=3)
    words = ["cc", "-std=c99", "-Wall", "-Wextra", "-pedantic", "-Werror", EXAMPLES / "compare.c", "-o", folder / "shared"]
    place.run("sh", "-c", '"$@" $(pkg-config --cflags --libs exifnorm)', "sh", *words)
    assert place.run(folder / "shared") == "same\n" and "[libexifnorm.so.1]" in run("readelf", "-dW", folder / "shared")


def test_python_loads_its_library(place: Place) -> None:
    code = "import exifnorm as e, importlib.metadata as m; print(e.version(), m.version('exifnorm'), open('/proc/self/maps').read())"
    said = place.run(place.python, "-c", code)
    assert said.startswith(f"{VERSION} {VERSION} ") and f"{place.libraries}/libexifnorm.so.{VERSION}" in said
    if (place.packages / EXTENSION).exists():
        code = "import exifnorm._library as l; print(l._native.__file__, l.library().normalise(bytes.fromhex('1c02780004') + b'Vase'))"
        assert place.run(place.python, "-c", code) == f"{place.packages / EXTENSION} b'\\x1c\\x02x\\x00\\x04Vase'\n"


def test_man_finds_each_page(place: Place) -> None:
    for section, name in ((1, "exifnorm"), (3, "exifnorm"), (3, "exifnorm-fields"), (1, "exifnorm-pictures")):
        where = run("man", "-M", place.prefix / "share/man", "-w", str(section), name).strip()
        assert where.startswith(str(place.prefix / f"share/man/man{section}/{name}.{section}"))


def test_code_is_hardened_and_the_libraries_are_stripped(place: Place) -> None:
    """The library needs only functions that allocate and copy: so it opens no file, starts no process, and has no state of the C library."""
    library = place.libraries / "libexifnorm.so"
    for file in (place.prefix / "bin/exifnorm", library, *place.packages.glob(EXTENSION)):
        said = run("readelf", "-hdlSW", file)
        assert "BIND_NOW" in said and "GNU_RELRO" in said and "DYN (" in said and re.search(r"GNU_STACK .* RW ", said), file
        assert not re.search(r"TEXTREL|PATH\)|LOAD .* RWE ", said) and (".symtab" not in said or "bin" in str(file)), file
    needed = set(re.findall(r"\bU (\w+)", run("nm", "-D", "--undefined-only", library)))
    assert needed <= {"malloc", "calloc", "realloc", "free", "memcpy", "memmove", "memset"}


def test_no_file_names_a_folder_of_the_build(place: Place, session_folder: Path) -> None:
    for it in place.tree.rglob("*"):
        if it.is_file() and "var/lib/dpkg" not in str(it) and it.suffix != ".pyc" and it.name != "exifnorm-pictures":
            assert not any(name in it.read_bytes() for name in (str(TOP).encode(), str(session_folder).encode())), it


def test_what_documents_refer_to_is_there(place: Place) -> None:
    papers = place.prefix / "share/doc/exifnorm"
    texts = {
        it: it.read_text(encoding="utf-8") for it in (*papers.glob("*.md"), *place.prefix.glob("include/*"), *place.packages.rglob("*.py"))
    }
    named = {name for text in texts.values() for name in re.findall(r"(?<![\w/-])(?:docs/)?([A-Z-]{3,}\.md)", text)}
    linked = {name for it, text in texts.items() if it.suffix == ".md" for name in re.findall(r"\]\(([^)#:]+)[^)]*\)", text)}
    assert {"FORMAT.md", "RECIPES.md"} <= named and [it for it in named | linked if not (papers / it).exists()] == []


# ---- what each has


def test_files_and_modes_of_installations(usr: Tree, other: Tree, golden: Callable[[str, str], None]) -> None:
    assert (tree(usr.root), tree(other.root)) == (usr.expected(), other.expected())
    info = usr.module_folder / f"exifnorm-{VERSION}.dist-info"
    golden("exifnorm.pc", usr.at("lib/pkgconfig/exifnorm.pc").read_text(encoding="utf-8").replace(VERSION, "VERSION"))
    golden("METADATA", (info / "METADATA").read_text(encoding="utf-8").replace(VERSION, "VERSION"))
    assert (info / "INSTALLER").read_text(encoding="utf-8") == "make\n", "by PEP 376 other installers leave it alone"
    assert (
        (info / "LICENSE-MIT").read_text(encoding="utf-8") == usr.at("share/doc/exifnorm/LICENSE-MIT").read_text() == text_of("LICENSE-MIT")
    )


def test_files_and_modes_of_the_packages(debs: dict[str, Path], folder: Path) -> None:
    """All packages together have what install writes, but for the list of uninstall, the licences and the link of the Python package;
    and each has the papers that Debian requires."""
    found = {}
    for name, file in debs.items():
        run("dpkg-deb", "-x", file, folder / name)
        files = {it: mode for it, mode in tree(folder / name).items() if not it.endswith("/")}
        assert set(files) & set(found) == set(), name
        found.update(files)
    libraries = f"usr/lib/{run('dpkg-architecture', '-qDEB_HOST_MULTIARCH').strip()}"
    expected = {f"usr/share/doc/{name}/{it}": FILE for name in debs for it in ("changelog.Debian.gz", "changelog.gz", "copyright")}
    for name, mode in Tree(Path("/"), "/usr", DEBIAN_PYTHON, ["PYTHONINCLUDE="]).expected().items():
        moved = re.sub(r"^usr/lib/(cmake|lib|pkgconfig)", rf"{libraries}/\1", name).replace("site-functions", "vendor-completions")
        if not re.search(r"/$|LICENSE-|CHANGELOG|share/exifnorm/installed|exifnorm/libexifnorm", moved):
            expected[f"{moved}.gz" if "/man/" in moved else moved] = mode
    assert found == expected and (folder / "libexifnorm1" / libraries).exists() and (folder / "python3-exifnorm/usr/lib/python3").exists()


def test_lintian_has_no_error_and_no_warning(debs: dict[str, Path]) -> None:
    """Except for the Debian bug that a first upload closes."""
    words = ["--allow-root", "--fail-on", "error,warning", "--suppress-tags", "initial-upload-closes-no-bugs"]
    run("lintian", *words, *debs.values(), PATH=SYSTEM_PATH)
    depends = run("dpkg-deb", "-f", debs["python3-exifnorm"], "Depends")
    assert f"libexifnorm1 (>= {VERSION})" in depends and "libimage-exiftool-perl" in run(
        "dpkg-deb", "-f", debs["exifnorm-pictures"], "Depends"
    )


def test_files_and_owners_of_the_archive(made: Path, archive: Path) -> None:
    with tarfile.open(f"{made}/{archive.name}.tar.gz") as it:
        members = it.getmembers()
    names, date = [it.name for it in members], run("dpkg-parsechangelog", "-l", TOP / "debian/changelog", "-S", "Timestamp").strip()
    assert names == sorted(names, key=lambda it: it.split("/"))
    assert {(it.uid, it.gid, it.uname, it.gname, it.mtime) for it in members} == {(0, 0, "", "", int(date))}
    programs = {it.name for it in members if it.isfile() and it.mode == 0o755}
    assert programs == {f"{archive.name}/bin/exifnorm", f"{archive.name}/bin/exifnorm-pictures"}
    assert {it.mode for it in members if not it.issym() and it.name not in programs} == {0o644, 0o755}
    found = {it for it in tree(archive) if not it.endswith("/")}
    packages = f"lib/{Tree(Path('/'), '/usr', DEBIAN_PYTHON).packages[9:]}/"
    listed = {
        it[4:].replace(packages, "lib/python3/site-packages/") for it in Tree(Path("/"), "/usr", DEBIAN_PYTHON).expected() if it[-1] != "/"
    }
    more = {"README", "INSTALL", f"share/doc/exifnorm/exifnorm-{VERSION}.spdx.json"}
    assert {it for it in found if "/crates/" not in it} == {*listed, *more} - {"share/exifnorm/installed"}
    assert "share/doc/exifnorm/crates/clap/LICENSE-MIT" in found


def test_files_and_tag_of_the_wheel(made: Path, wheel: Path, usr: Tree) -> None:
    """It claims the newest glibc that it needs."""
    (file,) = made.glob(f"*_{os.uname().machine}.whl")
    info = f"exifnorm-{VERSION}.dist-info"
    papers = {
        f"{info}/{it}" for it in ("LICENSE-APACHE", "LICENSE-MIT", "METADATA", "RECORD", "WHEEL", "entry_points.txt", "top_level.txt")
    }
    wanted = {*modules(), *papers, "exifnorm/libexifnorm.so.1", *[EXTENSION] * has_headers(DEBIAN_PYTHON)}
    assert {it for it in tree(wheel) if not it.endswith("/")} == wanted
    symbols = "".join(run("readelf", "--dyn-syms", "-W", it) for it in wheel.glob("exifnorm/*.so*"))
    newest = max((int(a), int(b)) for a, b in re.findall(r"@GLIBC_(\d+)\.(\d+)", symbols))
    assert file.name == f"exifnorm-{VERSION}-py3-none-manylinux_{newest[0]}_{newest[1]}_{os.uname().machine}.whl"
    assert f"Tag: {file.stem.partition(VERSION)[2][1:]}\n" in (wheel / info / "WHEEL").read_text(encoding="utf-8")
    licences = "License-File: LICENSE-APACHE\nLicense-File: LICENSE-MIT\n"
    ours, theirs = ((it / info / "METADATA").read_text(encoding="utf-8") for it in (usr.module_folder, wheel))
    assert sorted(theirs.replace(licences, "").splitlines()) == sorted(ours.splitlines())


def wheel_of(copy: Path, folder: Path) -> list[str]:
    """The wheel that pip builds of a copy of the sources."""
    words = ["--no-index", "--no-build-isolation", "--no-deps", "--disable-pip-version-check", "-w", folder, copy / "python"]
    run(DEBIAN_PYTHON, "-m", "pip", "wheel", *words)
    return [it.name for it in folder.iterdir()]


def test_a_wheel_whose_library_needs_more_claims_no_manylinux(folder: Path, library: Path) -> None:
    """Nor does it have a module that was in an earlier one, and nothing is left in the sources."""
    for name in ("python", "build", "packaging"):
        shutil.copytree(TOP / name, folder / name, ignore=shutil.ignore_patterns("__pycache__"))
    (folder / "python/exifnorm/stale.py").write_text('"""Gone."""\n')
    (folder / "more.c").write_text("#include <math.h>\ndouble more(double x) { return pow(x, x); }\n")
    (folder / "out/lib").mkdir(parents=True)
    run("cc", "-shared", "-fPIC", "more.c", "-lm", "-o", "out/lib/libexifnorm.so.1", folder=folder)
    expected = [f"exifnorm-{VERSION}-py3-none-linux_{os.uname().machine}.whl"]
    before = {it for it in tree(folder / "python") if "__pycache__" not in it}
    assert wheel_of(folder, folder / "made") == expected
    assert {it for it in tree(folder / "python") if "__pycache__" not in it} == before
    (folder / "python/exifnorm/stale.py").unlink()
    assert wheel_of(folder, folder / "made") == expected
    assert "stale" not in "".join(zipfile.ZipFile(folder / "made" / expected[0]).namelist())


# ---- how `make install` is called


def test_names_with_spaces_no_headers_of_python_and_no_strip(folder: Path, library: Path) -> None:
    """Without Python.h the extension module is left out, and Python calls the library by ctypes. Without STRIP the library is installed
    as it was linked."""
    here = Tree(folder / "a folder", "/a prefix", DEBIAN_PYTHON, ["PYTHONINCLUDE=/no/headers", "STRIP="])
    line = "exifnorm: there is no /no/headers/Python.h, so _native.abi3.so is left out: Python calls the library by ctypes"
    assert [it for it in here.make("install").splitlines() if it.startswith("exifnorm:")] == [line]
    assert tree(here.root) == here.expected()
    linked = (TOP / "out/lib/libexifnorm.so.1").read_bytes()
    assert here.at("lib/libexifnorm.so").read_bytes() == linked and b".symtab" in linked
    code = f"import exifnorm, exifnorm._library as l; print(exifnorm.normal({BLOCK}) == {BLOCK}, l._native)"
    assert run(DEBIAN_PYTHON, "-B", "-c", code, PYTHONPATH=str(here.module_folder), EXIFNORM_LIBRARY="") == "True None\n"


@pytest.mark.parametrize(
    "word", ["pages=docs/nothing.1 docs/exifnorm.1", "packages=nothing exifnorm", "program=/bin/false", "LDFLAGS=-l_no_such_library"]
)
def test_a_step_that_fails_ends_the_installation(folder: Path, library: Path, word: str) -> None:
    """Also if those after it would succeed."""
    if word.startswith("LDFLAGS"):
        need_headers(DEBIAN_PYTHON)
        shutil.copytree(TOP / "out/lib", folder / "lib", symlinks=True, ignore=shutil.ignore_patterns("_native*"))
    run(
        *MAKE,
        "stage",
        f"stage={folder}/failed",
        f"PYTHON={DEBIAN_PYTHON}",
        *[f"built={folder}/lib"] * word.startswith("LDFLAGS"),
        word,
        status=2,
    )


def test_what_is_left_to_do_is_printed_but_for_a_package() -> None:
    said = run("make", "-n", "install", "PREFIX=/usr/local", f"PYTHON={DEBIAN_PYTHON}")
    version = run(DEBIAN_PYTHON, "-c", "import sys; print('%d.%d' % sys.version_info[:2])").strip()
    assert f"out/stage/usr/local/lib/python{version}/dist-packages" in said, "Debian's Python looks there"
    command = said[said.rindex("[ -n ''") :]
    assert "export PATH=/usr/local/bin:$PATH" in run("sh", "-c", command) and "libexifnorm.so.1" in run("sh", "-c", command)
    assert run("sh", "-c", command.replace("-n ''", "-n '/stage'")) == ""


def test_the_command_runs_by_the_python_that_it_was_installed_for(usr: Tree, other: Tree, folder: Path) -> None:
    """Also through a link, and with the packages that were installed with it."""
    assert usr.at("bin/exifnorm-pictures").read_text(encoding="utf-8").startswith(f"#!{DEBIAN_PYTHON}\n")
    lines = other.at("bin/exifnorm-pictures").read_text(encoding="utf-8").split("\n")
    assert lines[:2] == ["#!/bin/sh", f"'''exec' '{other.python}' \"$0\" \"$@\""]
    long = run(DEBIAN_PYTHON, TOP / "packaging/command.py", "/bin", "/lib", "/" + 125 * "p")
    assert long.startswith("#!/bin/sh\n"), "every Linux reads 127 bytes of a first line"
    (folder / "linked-pictures").symlink_to(other.at("bin/exifnorm-pictures"))
    (folder / "exifnorm_pictures/cli").mkdir(parents=True)
    for name in ("", "cli/"):
        (folder / f"exifnorm_pictures/{name}__init__.py").touch()
    (folder / "exifnorm_pictures/cli/main.py").write_text("def main():\n    print('another version')\n")
    assert run(folder / "linked-pictures", "--version", PYTHONPATH=str(folder)) == f"exifnorm-pictures {VERSION}\n"


def test_uninstall_removes_what_install_wrote_and_nothing_else(folder: Path, library: Path) -> None:
    """It leaves what others have in its folders, and the folders that were there, empty ones too, with the modes that they had. Nothing of an
    older version is left, nor of the modules that Python compiled. Links are replaced, and not followed."""
    it = Tree(folder / "root", "/usr", DEBIAN_PYTHON)
    shared = [name for name in it.expected() if name.endswith("/") and "/man/" not in name and "/fish/" not in name]
    for name in (f"{at}{other}" for at in shared for other in ("foreign", "foreign folder/file", "__pycache__/other.cpython-311.pyc")):
        (it.root / name).parent.mkdir(parents=True, exist_ok=True)
        (it.root / name).touch(FILE)
    it.at("share/man/man1").mkdir(parents=True)
    for path in it.root.rglob("*/"):
        path.chmod(0o750)
    before = tree(it.root)
    it.at("bin/exifnorm").symlink_to("foreign")
    it.make("install", "VERSION=0.9.9")
    assert "usr/lib/libexifnorm.so.0.9.9" in tree(it.root) and it.at("bin/foreign").read_bytes() == b""
    run(it.python, "-c", "import exifnorm", folder=folder, PYTHONPATH=str(it.module_folder), PYTHONDONTWRITEBYTECODE="")
    with open(it.at("bin/exifnorm"), "rb") as used:
        it.make("install")
        assert used.read(4) == b"\x7fELF", "a program that runs stays whole"
    assert {name: mode for name, mode in tree(it.root).items() if "exifnorm/__pycache__" not in name} == {
        name: mode for name, mode in {**it.expected(), **before}.items() if "exifnorm/__pycache__" not in name
    }
    it.make("uninstall")
    assert tree(it.root) == before
    said = run("make", "uninstall", f"DESTDIR={it.root}", "PREFIX=/usr", status=2)
    assert f"exifnorm: uninstall: nothing is installed there: there is no list {it.root}/usr/share/exifnorm/installed\n" in said


def test_an_interrupted_installation_can_be_removed(folder: Path) -> None:
    """One that can't put a file where a folder is."""
    for name in ("stage/usr/lib/a.py", "stage/usr/lib/old/b", "root/usr/lib/old/b/foreign"):
        (folder / name).parent.mkdir(parents=True, exist_ok=True)
        (folder / name).write_text(name)
    words = ["sh", TOP / "packaging/manifest.sh"]
    assert "old/b" in run(*words, "install", "stage", "root", "/usr/share/it/installed", folder=folder, status=2)
    run(*words, "uninstall", "root", "/usr/share/it/installed", folder=folder)
    assert [it for it in tree(folder / "root") if it[-1] != "/"] == ["usr/lib/old/b/foreign"]
    assert "packaging/manifest.sh install" in run(*words, "remove", "root", folder=folder, status=1)


# ---- the library, from other programs


def test_a_program_is_built_by_the_line_of_the_manual_page_and_statically(usr: Tree, folder: Path) -> None:
    line = re.search(r"^\.B (cc .*)$", text_of("docs", "exifnorm.3"), re.MULTILINE)[1].replace("\\-", "-")
    shutil.copy(EXAMPLES / "compare.c", folder / "program.c")
    places = {"PKG_CONFIG_LIBDIR": str(usr.at("lib/pkgconfig")), "PKG_CONFIG_SYSROOT_DIR": str(usr.root)}
    run("sh", "-c", line, folder=folder, **places)
    assert run("./a.out", folder=folder, LD_LIBRARY_PATH=str(usr.at("lib"))) == "same\n"
    run("sh", "-c", "cc -static program.c $(pkg-config --static --cflags --libs exifnorm) -o static", folder=folder, **places)
    assert run("./static", folder=folder) == "same\n" and "NEEDED" not in run("readelf", "-dW", "static", folder=folder)
    moved = run(
        "pkg-config",
        "--define-variable=prefix=/moved",
        "--cflags",
        "--libs-only-L",
        "exifnorm",
        PKG_CONFIG_LIBDIR=str(usr.at("lib/pkgconfig")),
    )
    assert moved.split() == ["-I/moved/include", "-L/moved/lib"]


def test_example_is_built_by_find_package(usr: Tree, folder: Path) -> None:
    """Only versions that this one is compatible with are found."""
    shutil.copy(EXAMPLES / "compare.c", folder)
    wanted = {VERSION: 1, f"{VERSION} EXACT": 1, "1.0": 1, "0.9": 0, "2.0": 0, "1.999": 0}
    finds = [f'unset(exifnorm_DIR CACHE)\nfind_package(exifnorm {it} QUIET)\nmessage(STATUS "{it}: ${{exifnorm_FOUND}}")' for it in wanted]
    lines = ["cmake_minimum_required(VERSION 3.13)", "project(compare LANGUAGES C)", *finds, f"find_package(exifnorm {VERSION} REQUIRED)"]
    lines += ["add_executable(compare compare.c)", "target_link_libraries(compare exifnorm::exifnorm)", ""]
    (folder / "CMakeLists.txt").write_text("\n".join(lines))
    said = run("cmake", "-S", ".", "-B", "build", f"-DCMAKE_PREFIX_PATH={usr.at()}", folder=folder)
    assert re.findall(r"^-- (.*: [01])$", said, re.MULTILINE) == [f"{it}: {found}" for it, found in wanted.items()]
    run("cmake", "--build", "build", folder=folder)
    assert run("build/compare", folder=folder) == "same\n"


# ---- the version


def each_version() -> Iterator[tuple[str, str]]:
    yield "python/pyproject.toml", r'^version = "(.*)"$'
    yield "python/exifnorm/__init__.py", r'^__version__ = "(.*)"$'
    yield "CHANGELOG.md", r"\A# Changes\n(?:[^#].*\n|\n)*## (\S+)$"
    yield "debian/changelog", r"\Aexifnorm \((.*)-1\)"
    yield "crates/px_c/include/exifnorm.h", r'^#define EXIFNORM_VERSION "(.*)"$'


@pytest.mark.parametrize("name, pattern", each_version())
def test_each_file_with_the_version_has_that_of_the_crates(name: str, pattern: str) -> None:
    assert re.findall(pattern, text_of(*name.split("/")), re.MULTILINE) == [VERSION]


def test_the_symbols_are_the_calls_of_the_header() -> None:
    found = re.findall(r"^ (\S+)@EXIFNORM_1 (\S+)$", text_of("debian", "libexifnorm1.symbols"), re.MULTILINE)
    assert sorted(name for name, _ in found) == ["EXIFNORM_1", *CALLS]


def test_the_copyright_file_names_the_foreign_crates() -> None:
    used = {it for line in text_of("crates.txt").splitlines() for it in line.partition("#")[0].partition(":")[2].split()}
    named = text_of("debian", "copyright").partition("\n\n")[0]
    assert [it for it in used if not it.startswith("px_") and it not in named] == []
