"""Cases whose expected results are not written down: they come from a meaning, or from the independent reader of blocks."""

from typing import Iterator

from cases import Case, Keeps
from kinds import Kind
from meanings import LIMIT, SHORT, UNDEFINED, Exif, Layout, Record, Value, laid
from reading import CAUSES, Fault, said

COMMANDS = ("", "check", "show", "captions")  # "" is the filter


def case_of(file: bytes, command: str = "") -> Case:
    """The expected result of a command, or of the filter, for any file, by the rules of the format."""
    how = {"words": [command, "a"], "files": {"a": file}} if command else {"input": file}
    try:
        meaning = said(file)
    except Fault as why:
        return Case("", status=2, output=f"refused: {why}\n".encode(), **how)
    if not command:
        return Case("", output=meaning.normal(), **how)
    text = {"check": f"ok {meaning.kind}\n", "show": meaning.listing(), "captions": meaning.captions()}[command]
    return Case("", output=text.encode(), **how)


def cases_of_kind(kind: Kind) -> Iterator[Case]:
    """The expected result of every command for a kind of block, with what a reader keeps of each file."""
    keeps = kept_of(kind.meaning)
    for case in each_command(kind):
        case.keeps = [keeps, kept_of(said(case.files["c"])) if "c" in case.files else keeps]
        yield case


def each_command(kind: Kind) -> Iterator[Case]:
    """Standard input is a file, so every run has as many reads."""
    meaning, (first, *_, last) = kind.meaning, [*kind.blocks, kind.blocks[-1]]
    normal, files = meaning.normal(), {"a": first, "b": last}
    form = {"status": 2, "output": b"refused: NormalTooLong\n"} if len(normal) > LIMIT else {"output": normal}
    yield Case("the filter", files={"a": first}, input_from="a", **form)
    yield Case("the filter, another layout", files={"b": last}, input_from="b", **form)
    yield Case("the filter, the normal form", files={"n": normal}, input_from="n", output=normal)
    yield Case("normalise", words=["normalise", "a", "OUT"], files=files, output=b"", left={"OUT": normal, "a": first})
    yield Case("check", words=["check", "a"], files=files, output=f"ok {meaning.kind}\n".encode())
    yield Case("show", words=["show", "b"], files=files, output=meaning.listing().encode())
    yield Case("captions", words=["captions", "b"], files=files, output=meaning.captions().encode())
    yield Case("compare", words=["compare", "a", "b"], files=files, output=b"same\n")
    yield Case(
        "compare with another", words=["compare", "b", "c"], files={"b": last, "c": other(kind, normal)}, status=1, output=b"different\n"
    )


def other(kind: Kind, normal: bytes) -> bytes:
    """A block whose meaning is not the one with this normal form."""
    block = kind.other()
    return block if block != normal else b"\x1c\x02\x05\0\0"


def kept_of(meaning) -> Keeps:
    """What a reader keeps of a meaning. It allocates for the number of entries, of which up to six are no fields."""
    record = meaning if isinstance(meaning, Record) else meaning.record
    datasets = len(record.datasets) if record else 0
    if meaning is record:
        return Keeps(datasets=datasets)
    directories = meaning.directories()
    return Keeps(sum(len(fields) for _, fields in directories) + 6 * len(directories), datasets, is_exif=True)


def cases_of_causes() -> Iterator[Case]:
    """The block of each cause is refused for it, at the offset of the fault."""
    for cause, (block, place) in CAUSES.items():
        yield Case(
            f"the block of {cause}", words=["check", "a"], files={"a": block}, status=2, output=f"refused: {cause} at {place}\n".encode()
        )


def cases_of_long_values() -> Iterator[Case]:
    """A value of 16 MB is written in pieces of 16 KiB if its bytes are swapped, and whole if they are not."""
    for name, value, most in (
        ("SHORTs in the other byte order", Value(SHORT, [it % 65_521 for it in range(8_000_000)]), 1_100),
        ("bytes", Value(UNDEFINED, bytes(16_000_000)), 4),
    ):
        meaning = Exif({0x9999: value})
        files, form = {"a": laid(meaning, Layout("<"))}, meaning.normal()
        how = {"files": files, "keeps": [kept_of(meaning)], "most_writes": most}
        yield Case(f"16 MB of {name}, by the filter", input_from="a", output=form, **how)
        yield Case(f"16 MB of {name}, by normalise", words=["normalise", "a", "OUT"], output=b"", left={"OUT": form}, **how)
