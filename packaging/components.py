#!/usr/bin/env python3
"""Lists the crates that the program and the libraries are linked from, as an SPDX document, and copies their licences.

  packaging/components.py VERSION SECONDS KIT LIST LICENCES
  packaging/components.py VERSION SECONDS KIT LIST --release

SECONDS is the time of the document since 1970. KIT is the folder of the Rattle toolchain, LIST the SPDX file (JSON), and LICENCES the
folder for the licences, which gets a folder for each crate that has some. With --release no licence is copied, and the list is that of a
whole release: it also has the C library in the programs without libraries, and what the module for WebAssembly and the C source were made
with.
"""

from __future__ import annotations

import json
import re
import shutil
import subprocess
import sys
from dataclasses import dataclass
from datetime import datetime, timezone
from pathlib import Path
from typing import Any, Iterator

TOP = Path(__file__).resolve().parent.parent
sys.path.insert(0, str(TOP / "build"))

from crates import Crates, below

BUILT = ("px_cli", "px_c")  # the crates of the program and of the library
OWN = "MIT OR Apache-2.0"
UNKNOWN = "NOASSERTION"
MIT_BEGINS = "Permission is hereby granted, free of charge"


@dataclass
class Crate:
    """A crate of the toolchain: the version of the Rust crate that it is a port of, its licence and the files with it."""

    name: str
    version: str
    licence: str
    files: list[Path]


def kit_crates(kit: Path, names: set[str]) -> set[str]:
    """Crates of the toolchain, and its standard library, with those that are below them."""
    direct = {*names, "std"}
    return {*direct, *(it.name for name in direct for it in (kit / "rlibs" / f"{name}.rlib" / "below").glob("*"))}


def licence_of(files: list[Path]) -> str:
    """The licence of files with these names and words, as SPDX writes it."""
    names = {it.name for it in files}
    if {"LICENSE-APACHE", "LICENSE-MIT"} <= names:
        return "Apache-2.0 OR MIT"
    if names in ({"LICENSE"}, {"LICENSE-MIT"}) and MIT_BEGINS in " ".join(files[0].read_text(encoding="utf-8").split()):
        return "MIT"
    return UNKNOWN


def crate_of(kit: Path, name: str) -> Crate:
    """The toolchain's description of a crate."""
    folder = kit / "rattle" / name
    page = folder / "README.md"
    said = page.read_text(encoding="utf-8") if page.exists() else ""
    spelt = "-?".join(name)  # md5 is a port of md-5
    version = re.search(rf"Rust crate `{spelt}` (\d+\.\d+\.\d+)", said)
    files = sorted(folder.glob("LICENSE*"))
    return Crate(name, version[1] if version else UNKNOWN, licence_of(files), files)


def package(name: str, version: str, licence: str) -> dict[str, Any]:
    """An SPDX package."""
    return {
        "SPDXID": f"SPDXRef-{name.replace('_', '-')}",
        "name": name,
        "versionInfo": version,
        "downloadLocation": UNKNOWN,
        "filesAnalyzed": False,
        "licenseConcluded": licence,
        "licenseDeclared": licence,
        "copyrightText": UNKNOWN,
    }


def said(*words: str) -> str:
    """What a command prints."""
    return subprocess.run(words, stdin=subprocess.DEVNULL, stdout=subprocess.PIPE, check=True, encoding="utf-8").stdout


def c_versions(compiler: str) -> tuple[str, str]:
    """The versions of glibc and of GCC whose parts a compiler links into a program."""
    defined = said(compiler, "-E", "-dM", "-include", "features.h", "-x", "c", "/dev/null")
    numbers = dict(re.findall(r"(?m)^#define __GLIBC(_MINOR)?__ (\d+)$", defined))
    return f"{numbers['']}.{numbers['_MINOR']}", said(compiler, "-dumpversion").strip()


def c_packages() -> list[dict[str, Any]]:
    """What the compiler for C links into the programs without libraries."""
    glibc, gcc = c_versions("cc")
    return [package("glibc", glibc, "LGPL-2.1-or-later"), package("libgcc", gcc, "GPL-3.0-or-later WITH GCC-exception-3.1")]


def tools() -> list[dict[str, Any]]:
    """What made the module for WebAssembly, and the C source. Nothing of their own is in these."""
    versions = (re.findall(r"[\d.]+", said(tool, "--version"))[-1] for tool in ("wasm-opt", "wasm2c"))
    return [package(name, version, "Apache-2.0") for name, version in zip(("binaryen", "wabt"), versions)]


def relations(first: str, linked: list[dict[str, Any]], used: list[dict[str, Any]]) -> Iterator[dict[str, str]]:
    """The document describes the first package, which is linked with some and was made with others."""
    yield {"spdxElementId": "SPDXRef-DOCUMENT", "relationshipType": "DESCRIBES", "relatedSpdxElement": first}
    for part in linked:
        yield {"spdxElementId": first, "relationshipType": "STATIC_LINK", "relatedSpdxElement": part["SPDXID"]}
    for part in used:
        yield {"spdxElementId": part["SPDXID"], "relationshipType": "BUILD_TOOL_OF", "relatedSpdxElement": first}


def document(version: str, seconds: int, linked: list[dict[str, Any]], used: list[dict[str, Any]]) -> dict[str, Any]:
    """The SPDX document."""
    first = package("exifnorm", version, OWN)
    created = datetime.fromtimestamp(seconds, timezone.utc).strftime("%Y-%m-%dT%H:%M:%SZ")
    return {
        "spdxVersion": "SPDX-2.3",
        "dataLicense": "CC0-1.0",
        "SPDXID": "SPDXRef-DOCUMENT",
        "name": f"exifnorm-{version}",
        "documentNamespace": f"https://spdx.org/spdxdocs/exifnorm-{version}-{seconds}",
        "creationInfo": {"created": created, "creators": ["Tool: exifnorm packaging/components.py"]},
        "packages": [first, *linked, *used],
        "relationships": list(relations(first["SPDXID"], linked, used)),
    }


def main(words: list[str]) -> None:
    if len(words) != 5:
        sys.exit(__doc__)
    version, seconds, kit, is_release = words[0], int(words[1]), Path(words[2]), words[4] == "--release"
    table = Crates.read(TOP).uses
    names = kit_crates(kit, {used for built in BUILT for it in (built, *below(built, table)) for used in table[it] if used not in table})
    crates = [crate_of(kit, it) for it in sorted(names)]
    linked = [package(it.name, it.version, it.licence) for it in crates] + (c_packages() if is_release else [])
    text = json.dumps(document(version, seconds, linked, tools() if is_release else []), indent=1)
    Path(words[3]).write_text(f"{text}\n", encoding="utf-8")
    for crate in crates if not is_release else []:
        for file in crate.files:
            folder = Path(words[4], crate.name)
            folder.mkdir(parents=True, exist_ok=True)
            shutil.copyfile(file, folder / file.name)


if __name__ == "__main__":
    main(sys.argv[1:])
