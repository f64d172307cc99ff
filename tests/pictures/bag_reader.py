"""A reader of bags by RFC 8493, which shares nothing with exifnorm-pictures.

A bag is complete if its manifests and its payload have the same files, and valid if each file has the digests of all manifests too.
"""

import hashlib
import os
import re
from pathlib import Path
from typing import Dict, Iterator, List, Set

ALGORITHMS = ("md5", "sha1", "sha256", "sha512")  # 2.4
LINE_ENDS = re.compile(rb"\r\n|\r|\n")  # of each text file of a bag
ENCODED = {b"%0A": b"\n", b"%0D": b"\r", b"%25": b"%"}  # 2.1.3: these characters of a path and no others


def faults_of_bag(bag: Path) -> List[str]:
    """What is wrong with a bag; nothing, if it is valid."""
    faults = list(_of_declaration(bag))
    manifests = [bag / f"manifest-{it}.txt" for it in ALGORITHMS if (bag / f"manifest-{it}.txt").exists()]
    if not (bag / "data").is_dir() or not manifests:
        return [*faults, "no payload, or no manifest of it"]
    top = os.fsencode(bag)
    payload = {os.path.relpath(os.path.join(folder, name), top) for folder, _, names in os.walk(top + b"/data") for name in names}
    for manifest in manifests:
        faults += _of_manifest(top, manifest, payload)
    return faults


def _of_declaration(bag: Path) -> Iterator[str]:
    """2.1.1: bagit.txt has two lines, in UTF-8 without a byte-order mark."""
    path = bag / "bagit.txt"
    text = path.read_bytes() if path.exists() else b""
    if not re.fullmatch(rb"BagIt-Version: \d+\.\d+(\r\n|\r|\n)Tag-File-Character-Encoding: \S+(\r\n|\r|\n)?", text):
        yield f"bagit.txt has {text!r}"


def _of_manifest(top: bytes, manifest: Path, payload: Set[bytes]) -> Iterator[str]:
    """2.1.3, and 3: a digest and a path in each line, each file of the payload once, and nothing else."""
    algorithm = manifest.stem.partition("-")[2]
    listed: Dict[bytes, str] = {}
    *lines, rest = LINE_ENDS.split(manifest.read_bytes())
    for line in lines + [rest] * bool(rest):
        match = re.fullmatch(rb"([0-9a-fA-F]+)[ \t]+(.+)", line)
        if not match:
            yield f"{manifest.name}: no digest and path: {line!r}"
            continue
        line.decode("utf-8")
        path = re.sub(rb"%(0A|0D|25)", lambda code: ENCODED[code[0].upper()], match[2], flags=re.IGNORECASE)
        if b".." in path.split(b"/") or not path.startswith(b"data/") or path in listed:
            yield f"{manifest.name}: {path!r} is outside of the payload, or is listed twice"
        listed[path] = match[1].decode().lower()
    yield from (f"{manifest.name}: {path!r} isn't there" for path in sorted(listed.keys() - payload))
    yield from (f"{manifest.name}: {path!r} isn't listed" for path in sorted(payload - listed.keys()))
    for path in sorted(listed.keys() & payload):
        with open(os.path.join(top, path), "rb") as file:
            if hashlib.new(algorithm, file.read()).hexdigest() != listed[path]:
                yield f"{manifest.name}: {path!r} has another digest"
