#!/usr/bin/env python3
"""Counts what `show` of a packet of XMP that was made to cost much asks the allocator for, and prints a table.

  bench/packets/memory.py PROGRAM [PACKET ..]

PROGRAM is one such as out/exifnorm. Each PACKET is a file with a packet; without any, packets of about
180,000 to 480,000 bytes are made. The figures don't depend on the machine.
"""

import argparse
import os
import subprocess
import sys
import tempfile
from pathlib import Path
from string import ascii_letters
from typing import Dict

TOP = Path(__file__).resolve().parent.parent.parent
sys.path[:0] = [str(TOP / "tests"), str(TOP / "tests" / "program"), str(TOP / "tests" / "blocks")]
sys.dont_write_bytecode = True

from cases import Case
from watching import watched

LENGTH = 480_000
RDF = "http://www.w3.org/1999/02/22-rdf-syntax-ns#"


def packet(inside: str, path: str = "", words: str = "") -> bytes:
    """A packet with properties whose namespace is that of the letter d, and further attributes of its root."""
    spaces = f"xmlns:r='{RDF}' xmlns:d='http://{path}/'"
    return f"<r:RDF {spaces}{words}><r:Description>{inside}</r:Description></r:RDF>".encode()


def numbered(form: str) -> str:
    """Pieces with numbers, the greatest first, as many as there is room for."""
    count = LENGTH // len(form.format(100_000))
    return "".join(form.format(100_000 + it) for it in range(count, 0, -1))


def nested(inside: str, depth: int) -> str:
    """Bags of two structures in one another: each is sorted by what it has."""
    begin, end = "<r:Bag><r:li r:parseType='Resource'><d:b>", "</d:b><d:a/></r:li></r:Bag>"
    return f"<d:a>{begin * depth}<r:Bag><r:li r:parseType='Resource'>{inside}</r:li></r:Bag>{end * depth}</d:a>"


def tree(depth: int, count: int) -> str:
    """So many structures in each of so many, and 52 properties in each of the innermost: a row is copied into the one around it."""
    if depth == 0:
        return "".join(f"<d:{name}/>" for name in ascii_letters)
    inside = tree(depth - 1, count)
    return "".join(f"<d:{name} r:parseType='Resource'>{inside}</d:{name}>" for name in ascii_letters[:count])


# A text in a form has the namespace of its property twice and its language. No longer ones are read
LONG = ("d" * 248, f" xml:lang='{'abcdefgh-' * 11}a'")
PACKETS: Dict[str, bytes] = {
    "properties in no order": packet(numbered("<d:a{0}/>")),
    "a bag in no order": packet(f"<d:a><r:Bag>{numbered('<r:li>{0}</r:li>')}</r:Bag></d:a>"),
    "a namespace of 240 bytes": packet(numbered("<d:a{0}/>"), "d" * 240),
    "the same in 31 bags": packet(nested(numbered("<d:a{0}/>"), 31), "d" * 240),
    "two structures in each of two": packet(tree(9, 2), *LONG),
    "eight structures in each of eight": packet(tree(3, 8), *LONG),
}


def main() -> None:
    words = argparse.ArgumentParser(description=__doc__.splitlines()[0])
    words.add_argument("program", type=os.path.abspath)
    words.add_argument("packets", nargs="*", metavar="PACKET")
    given = words.parse_args()
    packets = {name: Path(name).read_bytes() for name in given.packets} or PACKETS
    with tempfile.TemporaryDirectory() as folder:
        shim = f"{folder}/watch.so"
        source = str(TOP / "tests" / "program" / "watch_calls.c")
        subprocess.run(["cc", "-shared", "-fPIC", "-O2", "-o", shim, source, "-ldl"], check=True)
        print("| Packet | Bytes | Asked for a byte, all requests together | In use at once for a byte |")
        print("|---|---|---|---|")
        for name, octets in packets.items():
            _, counts = watched(given.program, shim, Case("", words=["show", "a"], files={"a": octets}))
            print(
                f"| {name} | {len(octets):,} | {counts.asked / len(octets):,.0f} | {counts.held / len(octets):,.0f} |",
                flush=True,
            )


if __name__ == "__main__":
    main()
