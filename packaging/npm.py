#!/usr/bin/env python3
"""Makes the JavaScript package, which `npm install FILE` installs.

  packaging/npm.py WASM VERSION SECONDS TARGET

WASM is exifnorm.wasm, SECONDS the time of the files since 1970, and TARGET the archive (.tgz). The same arguments make the same bytes.
"""

from __future__ import annotations

import gzip
import io
import re
import sys
import tarfile
from pathlib import Path
from typing import Iterator

TOP = Path(__file__).resolve().parent.parent
sys.path[:0] = [str(TOP / "build"), str(TOP / "packaging")]

import guard
import words as words_of
from scripts import READING, joined

FOLDER = TOP / "javascript"
COMMAND = "cli.js"  # which npm makes a command of
LICENCES = ("LICENSE-APACHE", "LICENSE-MIT")


def exported() -> str:
    """The names that the package exports, but for `ready`."""
    text = (FOLDER / "exifnorm.js").read_text(encoding="utf-8")
    return ", ".join(re.findall(r"(?m)^export \{ (.*?) \} from", text))


def required() -> str:
    """The source of exifnorm.cjs, for `require`: the modules as one script, which reads the same exifnorm.wasm."""
    script = joined(words_of.script(), [*READING, "javascript/picture.js", "javascript/calls.js"])
    wasm = 'require("node:fs").readFileSync(`${__dirname}/exifnorm.wasm`)'
    names = exported()
    last = f"begin(new Engine(new WebAssembly.Module({wasm})));\nmodule.exports = {{ {names}, ready: Promise.resolve() }};\n"
    return f"{script}\n{last}"


def about(text: str, version: str) -> str:
    """package.json with the version, and with the address of debian/control, if the owner of the repository has filled it in."""
    (address,) = re.findall(r"(?m)^Homepage: (\S+)$", (TOP / "debian" / "control").read_text(encoding="utf-8"))
    known = text.replace("@HOMEPAGE@", address) if not address.endswith(".invalid/") else re.sub(r".*@HOMEPAGE@.*\n", "", text)
    return known.replace("@VERSION@", version)


def files(wasm: bytes, version: str) -> Iterator[tuple[str, bytes]]:
    """The names and contents of the package's files."""
    mark = guard.MARK if guard.MARK.encode() in wasm else ""
    for path in sorted(FOLDER.iterdir()):
        data = path.read_bytes()
        yield path.name, about(data.decode(), version + mark).encode() if path.name == "package.json" else data
    for name in LICENCES:
        yield name, (TOP / name).read_bytes()
    yield "exifnorm.wasm", wasm
    yield "exifnorm.d.cts", (FOLDER / "exifnorm.d.ts").read_bytes()
    yield "tables.js", f"/** The tables of exifnorm_pictures. @module */\n{words_of.script()}\nexport default tables;\n".encode()
    yield "exifnorm.cjs", required().encode()


def archive(wasm: bytes, version: str, seconds: int) -> bytes:
    """The archive, with everything below the folder `package`, as npm expects it."""
    octets = io.BytesIO()
    with tarfile.open(fileobj=octets, mode="w") as tar:
        for name, data in files(wasm, version):
            entry = tarfile.TarInfo(f"package/{name}")
            entry.size, entry.mtime = len(data), seconds
            entry.mode = 0o755 if name == COMMAND else 0o644
            tar.addfile(entry, io.BytesIO(data))
    return gzip.compress(octets.getvalue(), mtime=seconds)


def main(words: list[str]) -> None:
    if len(words) != 4:
        sys.exit(__doc__)
    wasm, version, seconds, target = Path(words[0]).read_bytes(), words[1], int(words[2]), Path(words[3])
    target.parent.mkdir(parents=True, exist_ok=True)
    target.write_bytes(archive(wasm, version, seconds))


if __name__ == "__main__":
    main(sys.argv[1:])
