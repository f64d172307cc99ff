#!/usr/bin/env python3
"""Counts the instructions of reading packets of XMP, by the library and by a parser of XML in Python, and prints a table.

  bench/packets/run.py LIBRARY [PACKET ..]

LIBRARY is a folder such as out/lib. Each PACKET is a file with a packet; without any, one of the tests is read. Packets without a normal form
are left out. Valgrind counts; instructions hardly depend on the machine. In Python the reader is that of exifnorm-pictures for rare forms,
which reads elements by expat. A digest of its statements is what two packets are compared by, as the library's are by their forms.
"""

import argparse
import os
import re
import subprocess
import sys
import tempfile
from pathlib import Path
from typing import List

TOP = Path(__file__).resolve().parent.parent.parent
sys.path[:0] = [str(TOP / "tests" / "pictures"), str(TOP / "tests" / "blocks"), str(TOP / "python")]
sys.dont_write_bytecode = True

import exifnorm
from packets import PACKET as USUAL

# What a packet goes through in Python.
STEPS = {
    "the library, and statements in Python": "reading.of_form(reading.form_of(packet, sort=False))",
    "expat, statements and their digest, in Python": "digest_of_statements(reader.statements(packet))",
    "expat and statements": "reader.statements(packet)",
    "expat, as xml.etree.ElementTree": "ElementTree.fromstring(packet.strip(b'\\0 \\t\\r\\n'))",
}
READ = """
import gc, sys
from xml.etree import ElementTree
from exifnorm_pictures.xmp import reader, reading
from exifnorm_pictures.xmp.tree import digest_of_statements
packets = [open(path, "rb").read() for path in sys.argv[2:]]
gc.disable()
for _ in range(int(sys.argv[1])):
    for packet in packets:
        {}
"""


def instructions(folder: str, *words: str) -> int:
    """Those of a command, or of one of its functions if its words begin with the option for that."""
    called = ["valgrind", "--tool=callgrind", f"--callgrind-out-file={folder}/out", *words]
    ran = subprocess.run(called, stdin=subprocess.DEVNULL, capture_output=True, text=True, check=True)
    return int(re.findall(r"Collected : (\d+)", ran.stderr)[-1])


def in_library(folder: str, library: Path, paths: List[str]) -> int:
    program = f"{folder}/forms"
    source = str(TOP / "bench" / "packets" / "forms.c")
    subprocess.run(["cc", "-std=c99", "-O2", "-o", program, source, f"-I{library}", str(library / "libexifnorm.a")], check=True)
    return instructions(folder, "--toggle-collect=exifnorm_xmp_normalise", program, *paths)


def in_python(folder: str, step: str, paths: List[str]) -> int:
    """What a second round over the packets adds to the first."""
    once, twice = (instructions(folder, sys.executable, "-c", READ.format(step), rounds, *paths) for rounds in ("1", "2"))
    return twice - once


def has_form(path: str) -> bool:
    try:
        exifnorm.xmp_normal(Path(path).read_bytes())
    except exifnorm.XmpRefused:
        return False
    return True


def main() -> None:
    words = argparse.ArgumentParser(description=__doc__.splitlines()[0])
    words.add_argument("library", type=Path)
    words.add_argument("packets", nargs="*", metavar="PACKET")
    asked = words.parse_args()
    os.environ["EXIFNORM_LIBRARY"] = str((asked.library / "libexifnorm.so.1").resolve())
    os.environ["PYTHONPATH"] = str(TOP / "python")
    with tempfile.TemporaryDirectory() as folder:
        paths = asked.packets
        if not paths:
            paths = [f"{folder}/packet"]
            Path(paths[0]).write_bytes(USUAL.encode())
        paths = [it for it in paths if has_form(it)]
        if not paths:
            sys.exit("none of these packets has a normal form")
        count, octets = len(paths), sum(map(os.path.getsize, paths))
        own = in_library(folder, asked.library, paths)
        print(f"Packets with a form: {count}, of {octets / count:,.0f} bytes on average\n")
        print("| Read by | Instructions of a packet | The library's over these |\n|---|---|---|")
        print(f"| the library, to its normal form | {own / count:,.0f} | |")
        for name, step in STEPS.items():
            other = in_python(folder, step, paths)
            print(f"| {name} | {other / count:,.0f} | {own / other:.3f} |")


if __name__ == "__main__":
    main()
