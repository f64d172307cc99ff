"""Trees that `make install` writes."""

from __future__ import annotations

import os
import re
import stat
from dataclasses import dataclass, field
from pathlib import Path

import pytest
from commands import TOP, run, text_of

EXAMPLES = TOP / "tests" / "library" / "examples"
DEBIAN_PYTHON = "/usr/bin/python3"
VERSION = re.search(r'VERSION: &str = "(.*)";', (TOP / "crates/px_engine/src/version.rt").read_text(encoding="utf-8"))[1]
PROGRAM, FILE, FOLDER = 0o755, 0o644, 0o755
# How make is called over a built tree. It doesn't look whether the proofs are up to date, which takes a second; it links what has to be.
MAKE = ("make", "--old-file=program", "--old-file=out/proved/libpx_c.a")
HEADER = text_of("crates", "px_c", "include", "exifnorm.h")
CALLS = sorted(re.findall(r"^uint32_t (exifnorm_\w+)\(", HEADER, re.MULTILINE))


def kind_of(path: Path) -> int | str:
    """The mode of a file or a folder, or where a link leads."""
    return os.readlink(path) if path.is_symlink() else stat.S_IMODE(path.stat().st_mode)


def tree(folder: Path) -> dict[str, int | str]:
    """The content of a folder: the mode of each file and of each folder, whose name ends with a slash, and the target of each link."""
    found = {}
    for path in folder.rglob("*"):
        is_folder = path.is_dir() and not path.is_symlink()
        found[f"{path.relative_to(folder)}{'/' if is_folder else ''}"] = kind_of(path)
    return found


def with_folders(files: dict[str, int | str]) -> dict[str, int | str]:
    """The files, and each folder that they are in.

    >>> with_folders({"a/b/c": 0o644})
    {'a/': 493, 'a/b/': 493, 'a/b/c': 420}
    """
    folders = {f"{it}/": FOLDER for name in files for it in Path(name).parents if str(it) != "."}
    return dict(sorted({**files, **folders}.items()))


def has_headers(python: str) -> bool:
    """Whether the headers of a Python are there, with which the extension module is built."""
    return os.path.exists(run(python, "-c", "import sysconfig; print(sysconfig.get_paths()['include'], end='/Python.h')"))


def need_headers(python: str) -> None:
    """Skips a test of the extension module where it can't be built."""
    if not has_headers(python):
        pytest.skip(f"{python} has no Python.h: Debian's package python3-dev is not installed")


def modules() -> list[str]:
    """The files of the Python packages in the sources that are installed."""
    kept = (it for package in ("exifnorm", "exifnorm_pictures") for it in (TOP / "python" / package).rglob("*") if it.is_file())
    return sorted(str(it.relative_to(TOP / "python")) for it in kept if it.parent.name != "__pycache__" and it.suffix not in (".c", ".h"))


def packages_path(python: str, prefix: str) -> str:
    """The folder below a prefix in which a Python looks for packages: the one of its module `site`, or else the usual one."""
    code = """
import site, sys
print(*site.getsitepackages(), "%s/lib/python%d.%d/site-packages" % (sys.argv[1], *sys.version_info[:2]), sep="\\n")"""
    places = run(python, "-c", code, prefix).split("\n")
    return next(it for it in places if it.startswith(f"{prefix}/lib"))


@dataclass
class Tree:
    """An installation for one prefix and one Python, below a folder."""

    root: Path
    prefix: str
    python: str
    words: list[str] = field(default_factory=list)

    def make(self, target: str, *words: str, mask: int = 0o022) -> str:
        """Runs make with the variables of this installation."""
        # a folder of its own, and its name has no space: make can't quote it
        stage = f"stage={self.root if self.root != Path('/') else self.prefix}.stage".replace(" ", "-")
        given = [f"DESTDIR={self.root}", f"PREFIX={self.prefix}", f"PYTHON={self.python}", stage]
        return run(*MAKE, target, *given, *self.words, *words, mask=mask)

    @property
    def packages(self) -> str:
        """The folder of the Python packages, without the root."""
        return packages_path(self.python, self.prefix)

    def at(self, *names: str) -> Path:
        """A file below the prefix."""
        return Path(f"{self.root}{self.prefix}", *names)

    @property
    def module_folder(self) -> Path:
        return Path(f"{self.root}{self.packages}")

    @property
    def extension(self) -> list[str]:
        """The extension module, without the root's slash, if Python.h is there."""
        is_left_out = any(it.startswith("PYTHONINCLUDE=") for it in self.words) or not has_headers(self.python)
        return [] if is_left_out else [f"{self.packages[1:]}/exifnorm/_native.abi3.so"]

    def expected(self) -> dict[str, int | str]:
        """The list of all installed files."""
        prefix, packages = self.prefix[1:], self.packages[1:]
        dist_info = f"{packages}/exifnorm-{VERSION}.dist-info"
        up = os.path.relpath(f"/{prefix}/lib", f"/{packages}/exifnorm")
        files: dict[str, int | str] = {
            f"{prefix}/bin/exifnorm": PROGRAM,
            f"{prefix}/bin/exifnorm-pictures": PROGRAM,
            f"{prefix}/include/exifnorm.h": FILE,
            f"{prefix}/include/exifnorm_fields.h": FILE,
            f"{prefix}/include/exifnorm_names.h": FILE,
            f"{prefix}/lib/cmake/exifnorm/exifnorm-config-version.cmake": FILE,
            f"{prefix}/lib/cmake/exifnorm/exifnorm-config.cmake": FILE,
            f"{prefix}/lib/libexifnorm.a": FILE,
            f"{prefix}/lib/libexifnorm.so": "libexifnorm.so.1",
            f"{prefix}/lib/libexifnorm.so.1": f"libexifnorm.so.{VERSION}",
            f"{prefix}/lib/libexifnorm.so.{VERSION}": FILE,
            f"{prefix}/lib/pkgconfig/exifnorm.pc": FILE,
            f"{prefix}/share/bash-completion/completions/exifnorm": FILE,
            f"{prefix}/share/bash-completion/completions/exifnorm-pictures": FILE,
            f"{prefix}/share/doc/exifnorm/BLOCKS.md": FILE,
            f"{prefix}/share/doc/exifnorm/CATALOGUE.md": FILE,
            f"{prefix}/share/doc/exifnorm/COMPARED.md": FILE,
            f"{prefix}/share/doc/exifnorm/CHANGELOG.md": FILE,
            f"{prefix}/share/doc/exifnorm/DECISIONS.md": FILE,
            f"{prefix}/share/doc/exifnorm/FORMAT.md": FILE,
            f"{prefix}/share/doc/exifnorm/JSON.md": FILE,
            f"{prefix}/share/doc/exifnorm/LARGE-ARCHIVES.md": FILE,
            f"{prefix}/share/doc/exifnorm/PYTHON.md": FILE,
            f"{prefix}/share/doc/exifnorm/LICENSE-APACHE": FILE,
            f"{prefix}/share/doc/exifnorm/LICENSE-MIT": FILE,
            f"{prefix}/share/doc/exifnorm/RECIPES.md": FILE,
            f"{prefix}/share/doc/exifnorm/REFUSALS.md": FILE,
            f"{prefix}/share/doc/exifnorm/TUTORIAL.md": FILE,
            **{f"{prefix}/share/doc/exifnorm/{it.name}": FILE for it in TOP.glob("docs/*") if it.suffix in (".png", ".svg")},
            **{f"{prefix}/share/doc/exifnorm/{it.relative_to(TOP)}": FILE for it in TOP.glob("samples/*/*/*")},
            f"{prefix}/share/exifnorm/installed": FILE,
            f"{prefix}/share/fish/vendor_completions.d/exifnorm-pictures.fish": FILE,
            f"{prefix}/share/fish/vendor_completions.d/exifnorm.fish": FILE,
            f"{prefix}/share/man/man1/exifnorm-pictures.1": FILE,
            f"{prefix}/share/man/man1/exifnorm.1": FILE,
            f"{prefix}/share/man/man3/exifnorm-fields.3": FILE,
            f"{prefix}/share/man/man3/exifnorm.3": FILE,
            f"{prefix}/share/zsh/site-functions/_exifnorm": FILE,
            f"{prefix}/share/zsh/site-functions/_exifnorm-pictures": FILE,
            f"{packages}/exifnorm/libexifnorm.so.1": f"{up}/libexifnorm.so.1",
            f"{dist_info}/INSTALLER": FILE,
            f"{dist_info}/LICENSE-APACHE": FILE,
            f"{dist_info}/LICENSE-MIT": FILE,
            f"{dist_info}/METADATA": FILE,
            f"{dist_info}/entry_points.txt": FILE,
        }
        files.update({it: FILE for it in (*(f"{packages}/{it}" for it in modules()), *self.extension)})
        return with_folders(files)
