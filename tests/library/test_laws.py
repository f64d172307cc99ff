"""Laws of the library's results that hold for any block, over hundreds of thousands of blocks that fuzz.c makes by chance.

FUZZ_BLOCKS and FUZZ_SEED of the environment are the number of blocks and the seed that determines them (docs/FUZZING.md).
"""

import os
import re
import subprocess
from dataclasses import dataclass, field

import pytest

from commands import run, text_of
from compiling import HEADERS, HERE
from fuzz import write_corpus
from reading import CAUSES

BLOCKS, SEED = int(os.environ.get("FUZZ_BLOCKS", 400_000)), int(os.environ.get("FUZZ_SEED", 1))
PARTS = 4  # processes that share the blocks
IN_C = ["fuzz.c", *(f"fuzz/{it}.c" for it in "laws made heads blocks pictures packets area memory changes".split())]
CC = ["cc", "-std=c99", "-Wall", "-Wextra", "-Werror", "-O2", "-I", HEADERS, "-I", HERE]

LAWS = dict(re.findall(r'^ +LAW\((\w+), "(.*)"\)', text_of("tests", "library", "fuzz", "laws.h"), re.M))


@dataclass
class Report:
    """What the laws saw."""

    status: int
    text: str
    broken: set = field(default_factory=set)  # the names of the laws
    looked: dict = field(default_factory=dict)  # how often each law was looked at, by its text
    causes: dict = field(default_factory=dict)  # how often each cause was met
    blocks: int = 0
    accepted: int = 0
    records: int = 0


def read_report(status, text):
    report = Report(status, text)
    report.broken = {name for name, law in LAWS.items() if f"BROKEN {law}: " in text}
    report.looked = {law: int(count) for count, law in re.findall(r"^law (\d+) \d+ (.*)$", text, re.M)}
    report.causes = {int(cause): int(count) for cause, count in re.findall(r"^cause (\d+) (\d+)$", text, re.M)}
    found = re.search(r"^blocks (\d+) accepted (\d+) records (\d+)$", text, re.M)
    if found:
        report.blocks, report.accepted, report.records = map(int, found.groups())
    return report


class Fuzz:
    """The compiled laws, and the known blocks."""

    def __init__(self, shared, folder):
        self.corpus, self.program = folder / "corpus", folder / "fuzz"
        self.environment = {"LD_LIBRARY_PATH": str(shared.parent), "LANG": "C"}
        write_corpus(self.corpus)
        run(*CC, "-rdynamic", "-o", self.program, *(HERE / it for it in IN_C), shared)

    def report(self, seed, blocks):
        words = [
            "sh",
            "-c",
            'ulimit -s 512 && exec "$@"',
            "sh",
            self.program,
            self.corpus,
            str(seed),
            str(blocks),
        ]  # as exifnorm.h promises
        ran = subprocess.run(words, env=self.environment, capture_output=True, text=True, check=False)
        return read_report(ran.returncode, ran.stdout + ran.stderr)


@pytest.fixture(scope="session")
def fuzz(shared, session_folder):
    folder = session_folder / "fuzz of the library"
    folder.mkdir()
    return Fuzz(shared, folder)


@pytest.mark.timeout(0)  # FUZZ_BLOCKS may ask for hours
@pytest.mark.parametrize("part", range(PARTS))
def test_laws_hold(fuzz, part):
    """For all blocks. Each law is looked at often, and each cause of a refusal is met, but the one that takes 16 MB."""
    blocks = BLOCKS // PARTS
    report = fuzz.report(SEED + part, blocks)
    assert not report.broken and report.status == 0, report.text[-3000:]
    assert report.blocks >= blocks
    assert [law for law in LAWS.values() if report.looked[law] < blocks // 2000] == [], "they were hardly looked at"
    met = {cause for cause, count in report.causes.items() if count}
    assert met == {*range(2, len(CAUSES) + 1)}
    assert report.accepted >= blocks // 5
    assert report.records >= blocks // 100 and report.accepted - report.records >= blocks // 20
