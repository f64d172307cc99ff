#!/usr/bin/env python3
"""The processor time of `verify` over large files that are as they were, over that of sha256sum and of OpenSSL, in turns.

  bench/pictures/verify.py [--files N] [--rounds N]

The files are JPEGs of 25 MB, of which the data of the scan are random. sha256sum of Debian has no instructions of the processor for SHA,
and Python's hashlib is OpenSSL, which has; the second table is without them.
"""

import argparse
import os
import random
import resource
import subprocess
import sys
import tempfile
from pathlib import Path
from typing import Dict, List

TOP = Path(__file__).resolve().parent.parent.parent
HEAD = bytes.fromhex("ffd8 ffdb0043 00") + bytes([1] * 64) + bytes.fromhex("ffc0000b080010001001011100 ffda0008010100003f00")
WITHOUT = {"OPENSSL_ia32cap": ":~0x20000000"}  # no SHA instructions on x86-64


def seconds(words: List[str], more: Dict[str, str]) -> float:
    """The processor time of a command."""
    before = resource.getrusage(resource.RUSAGE_CHILDREN)
    subprocess.run(words, stdout=subprocess.DEVNULL, check=True, env={**os.environ, "PYTHONPATH": str(TOP / "python"), **more})
    after = resource.getrusage(resource.RUSAGE_CHILDREN)
    return after.ru_utime + after.ru_stime - before.ru_utime - before.ru_stime


def main() -> None:
    """Measures and prints. EXIFNORM_LIBRARY names the library."""
    words = argparse.ArgumentParser(description=__doc__, formatter_class=argparse.RawDescriptionHelpFormatter)
    words.add_argument("--files", type=int, default=40)
    words.add_argument("--rounds", type=int, default=3)
    asked = words.parse_args()
    with tempfile.TemporaryDirectory() as folder:
        names = [os.path.join(folder, f"{number}.jpg") for number in range(asked.files)]
        for number, name in enumerate(names):
            scan = random.Random(number).randbytes(25_000_000).replace(b"\xff", b"\xfe")
            Path(name).write_bytes(HEAD + scan + b"\xff\xd9")
        command = [sys.executable, "-m", "exifnorm_pictures"]
        catalogue = os.path.join(folder, "catalogue")
        seconds([*command, "index", *names, "--catalogue", catalogue, "--pixels", "--quiet"], {})
        commands = {
            "verify": [*command, "verify", catalogue, *names, "--jobs", "1"],
            "sha256sum": ["sha256sum", *names],
            "openssl dgst -sha256": ["openssl", "dgst", "-sha256", *names],
        }
        for title, more in (("with SHA instructions", {}), ("without", WITHOUT)):
            used: Dict[str, List[float]] = {name: [] for name in commands}
            for _ in range(asked.rounds):
                for name, command_words in commands.items():
                    used[name].append(seconds(command_words, more))
            least = {name: min(times) for name, times in used.items()}
            print(f"{title}: " + ", ".join(f"{name} {time:.2f} s" for name, time in least.items()))
            print(
                f"  verify / sha256sum {least['verify'] / least['sha256sum']:.2f}, / openssl {least['verify'] / least['openssl dgst -sha256']:.2f}"
            )


if __name__ == "__main__":
    main()
