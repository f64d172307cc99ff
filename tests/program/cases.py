"""Reads the files of cases. cases/README.md describes their form."""

import json
from dataclasses import dataclass, field
from pathlib import Path
from typing import Callable, Dict, Iterator, List, Set, Union

from blocks import Blocks, Misspelled

HERE = Path(__file__).resolve().parent
OLD = b"old"  # the content of OUT before a run


@dataclass
class Case:
    """One run of the program, and the expected result."""

    name: str
    words: list = field(default_factory=list)
    files: dict = field(default_factory=dict)
    folders: list = field(default_factory=list)
    input: bytes = b""
    input_from: str = ""
    in_pieces: int = 0
    endless: bytes = b""
    output_to: str = ""
    status: int = 0
    output: object = None  # the expected bytes, if they are fixed
    lines: object = None  # the expected number of lines, if only that is fixed
    has: list = field(default_factory=list)  # texts that the output must contain
    left: dict = field(default_factory=dict)  # files and their content afterwards
    absent: list = field(default_factory=list)  # files that must not be there afterwards
    refuses_allocations: bool = False
    keeps: object = None  # what a reader keeps of each of its files (`Keeps`), if that is known
    most_writes: int = 0  # the most writes of its run, if they are fewer than those of a full output buffer

    @property
    def out(self):
        """The name of the file for a normal form."""
        names = [it for it in self.words[1:] if it != "--"]
        return names[1] if self.words[:1] == ["normalise"] and len(names) == 2 else "OUT"

    def expects_more_than_a_status(self):
        """Whether more than the status is expected. If a device takes the output, status 4 already shows what was written."""
        expects = self.output is not None or self.lines is not None or self.has or self.left or self.absent
        return bool(expects) or (self.status == 4 and self.output_to != "")


@dataclass
class Keeps:
    """What a reader keeps of a block: so many fields and DataSets and, of an Exif block, a bit for each byte."""

    fields: int = 0
    datasets: int = 0
    is_exif: bool = False


@dataclass
class Sweep:
    """Many blocks made from one; each is judged by the rules of the format."""

    name: str
    blocks: list
    normal: object = None  # the one normal form of them all, where each must be accepted
    accepted: object = None  # how many of them have a meaning, if that is given


def fixed(line):
    return f"{line}\n".encode()


def normal_forms(blocks, entry):
    block = blocks.bytes_of(entry["block"])
    normal = blocks.bytes_of(entry["normal"]) if "normal" in entry else block
    yield Case(f"{entry['name']}, through standard input", input=block, output=normal)
    yield Case(
        f"{entry['name']}, by normalise",
        words=["normalise", "a", "OUT"],
        files={"a": block, "OUT": OLD},
        output=b"",
        left={"a": block, "OUT": normal},
    )


def refusals(blocks, entry):
    block = blocks.bytes_of(entry["block"])
    expected = {"status": 2, "output": fixed(f"refused: {entry['refused']}")}
    yield Case(f"{entry['name']}, through standard input", input=block, **expected)
    yield Case(f"{entry['name']}, by check", words=["check", "a"], files={"a": block}, **expected)


def comparisons(blocks, entry):
    files = {"a": blocks.bytes_of(entry["first"]), "b": blocks.bytes_of(entry["second"])}
    expected = {"status": 0 if entry["same"] else 1, "output": fixed("same" if entry["same"] else "different")}
    yield Case(f"{entry['name']}, by compare", words=["compare", "a", "b"], files=files, **expected)
    yield Case(f"{entry['name']}, by compare the other way round", words=["compare", "b", "a"], files=files, **expected)


def texts(blocks, entry):
    block = blocks.bytes_of(entry["block"])
    for command in ("check", "show", "captions"):
        if command in entry:
            text = entry[command]
            case = Case(f"{entry['name']}, by {command}", words=[command, "a"], files={"a": block})
            if isinstance(text, int):
                case.lines = text
            else:
                case.output = b"".join(map(fixed, text if isinstance(text, list) else [text]))
            yield case


def runs(blocks, entry):
    """A run in words: its arguments, files and streams, and the expected result."""
    output = None
    if "output" in entry:
        output = blocks.bytes_of(entry["output"])
    elif "line" in entry or "text" in entry:
        output = b"".join(map(fixed, entry.get("text", [entry.get("line")])))
    yield Case(
        entry["name"],
        words=entry.get("words", []),
        files={name: blocks.bytes_of(it) for name, it in entry.get("files", {}).items()},
        folders=entry.get("folders", []),
        input=blocks.bytes_of(entry.get("input", "")),
        input_from=entry.get("input from", ""),
        in_pieces=entry.get("in pieces", 0),
        endless=blocks.bytes_of(entry.get("endless", "")),
        output_to=entry.get("output to", ""),
        status=entry.get("status", 0),
        output=output,
        lines=entry.get("lines"),
        has=[it.encode() for it in entry.get("has", [])],
        left={name: blocks.bytes_of(it) for name, it in entry.get("left", {}).items()},
        absent=entry.get("absent", []),
    )


def sweeps(blocks, entry):
    block = blocks.bytes_of(entry["block"])
    normal = blocks.bytes_of(entry["normal"]) if "normal" in entry else None
    if entry["each"] == "cut":
        made = [block[:n] for n in range(len(block))]
    elif entry["each"] == "bit":
        made = [bytes([*block[:at], block[at] ^ 1 << bit, *block[at + 1 :]]) for at in range(len(block)) for bit in range(8)]
    else:
        at, width = entry["at"], entry["width"]
        numbers = {"offset": [*range(len(block) + 1), 0xFFFFFFFF], "byte": range(256)}[entry["each"]]
        made = [block[:at] + n.to_bytes(width, "big") + block[at + width :] for n in numbers]
    yield Sweep(entry["name"], made, normal, entry.get("accepted"))


@dataclass
class Table:
    """How the entries of a table are read: the function that makes cases of one, their required members, and their optional members."""

    cases_of: Callable[[Blocks, dict], Iterator[Union[Case, Sweep]]]
    needs: Set[str]
    takes: Set[str] = field(default_factory=set)

    def read(self, path: Path, blocks: Blocks, entry: dict) -> List[Union[Case, Sweep]]:
        """The cases of one entry. There must be one."""
        unknown = set(entry) - self.needs - self.takes - {"name"}
        missing = (self.needs | {"name"}) - set(entry)
        if unknown or missing:
            raise Misspelled(f"{path}: in {entry.get('name', entry)!r} unknown words {sorted(unknown)}, missing words {sorted(missing)}")
        cases = list(self.cases_of(blocks, entry))
        for case in cases:
            if not (case.expects_more_than_a_status() if isinstance(case, Case) else case.blocks):
                raise Misspelled(f"{path}: nothing but a status is expected in {case.name!r}")
        if not cases:
            raise Misspelled(f"{path}: nothing is expected in {entry['name']!r}")
        return cases


STREAMS = {"words", "files", "folders", "input", "input from", "in pieces", "endless", "output to"}
TABLES = {
    "normal forms": Table(normal_forms, {"block"}, {"normal"}),
    "refusals": Table(refusals, {"block", "refused"}),
    "comparisons": Table(comparisons, {"first", "second", "same"}),
    "texts": Table(texts, {"block"}, {"check", "show", "captions"}),
    "runs": Table(runs, set(), STREAMS | {"status", "output", "line", "text", "lines", "has", "left", "absent"}),
    "sweeps": Table(sweeps, {"block", "each"}, {"at", "width", "normal", "accepted"}),
}


def read_file(path: Path, shared: Dict[str, object]) -> Iterator[Union[Case, Sweep]]:
    """The cases of one file."""
    tables = json.loads(path.read_text(encoding="utf-8"))
    blocks = Blocks({**shared, **tables.pop("blocks", {})})
    tables.pop("about", None)
    refuses_all = tables.pop("refuse allocations", False)
    for name, entries in tables.items():
        if name not in TABLES or not entries:
            raise Misspelled(f"{path}: the table {name!r} is unknown or empty")
        for entry in entries:
            refuses = entry.pop("refuse allocations", refuses_all)
            for case in TABLES[name].read(path, blocks, entry):
                if isinstance(case, Case):
                    case.refuses_allocations = refuses
                yield case


def read_all(folder: Path = HERE) -> List[Union[Case, Sweep]]:
    """The cases of all files of the folder cases/."""
    paths = sorted(Path(folder, "cases").glob("*.json"))
    shared = json.loads(Path(folder, "cases", "blocks.json").read_text(encoding="utf-8"))["blocks"]
    cases = [case for path in paths if path.stem != "blocks" for case in read_file(path, shared)]
    names = [case.name for case in cases]
    if len({*names}) < len(names):
        raise Misspelled(f"two cases have the name {next(it for it in names if names.count(it) > 1)!r}")
    return cases
