"""Programs as people write them with a library for metadata, each in at most 15 lines, run over the samples.

    python3 bench/python/programs.py

It prints what each of them makes, and how many lines it has. One whose other library isn't installed is named. The programs in C, for CMake and
for git are those of docs/BLOCKS.md, exifnorm.3 and docs/RECIPES.md.
"""

from __future__ import annotations

import ast
import asyncio
import concurrent.futures
import copy
import hashlib
import inspect
import io
import json
import os
import pickle
import random
import sqlite3
import subprocess
import sys
import tempfile
import zipfile
from collections import defaultdict
from fractions import Fraction
from pathlib import Path
from typing import IO, Any, Callable, Dict, Iterable, List, Optional, Tuple

import exifnorm

TOP = Path(__file__).resolve().parents[2]
BEFORE, AFTER = (TOP / "samples" / it for it in ("before", "after"))
PATHS = sorted(it for it in BEFORE.rglob("*.*") if it.suffix != ".xmp")
BOWL, VASE, PHONE = (BEFORE / it for it in ("ceramics/2003-12-bowl.jpg", "ceramics/1998-7-vase.jpg", "arrivals/IMG_20240502.jpg"))
MOST_LINES = 15


def summary(path: Path) -> List[str]:
    """Prints title, creator, keywords, when and where."""
    picture = exifnorm.read(path)
    lines = [f"{label}: {'; '.join(picture.texts(label))}" for label in ("title", "caption", "creator", "keywords", "copyright")]
    return [*lines, f"taken: {picture.taken}", f"position: {picture.position}"]


def differences(before: Path, after: Path) -> List[str]:
    """What differs between two pictures."""
    return [str(it) for it in exifnorm.compare(before, after).differences]


def complaints(body: bytes, name: str) -> List[str]:
    """Checks an upload: no other program is started, and it costs at most five seconds."""
    with exifnorm.Reader(programs=False, seconds=5, most=50_000_000) as reader:
        try:
            picture = reader.read_bytes(body, name=name)
        except exifnorm.NoPicture:
            return ["This is no picture."]
        except exifnorm.NotReadable as error:
            return [error.detail]
    missing = [f"There is no {label}." for label in ("title", "creator") if not picture.texts(label)]
    return [*map(str, picture.refusals), *missing]


async def four_at_a_time(paths: Iterable[Path]) -> List[object]:
    """Reads in asyncio."""
    gate = asyncio.Semaphore(4)

    async def one(path: Path) -> exifnorm.Picture:
        async with gate:
            return await asyncio.to_thread(exifnorm.read, path)

    return [it.type for it in await asyncio.gather(*map(one, paths))]


def duplicates(paths: Iterable[Path]) -> List[List[str]]:
    """Pictures whose metadata mean the same."""
    groups: Dict[str, List[str]] = defaultdict(list)
    for path, found in exifnorm.read_all(paths, jobs=1):
        if isinstance(found, exifnorm.Picture) and found.meaning:
            groups[found.meaning].append(Path(os.fsdecode(path)).name)
    return [it for it in groups.values() if len(it) > 1]


def bag(folder: Path, paths: Iterable[Path]) -> List[str]:
    """Makes a bag (BagIt) whose description has the titles, and verifies it by the command."""
    (folder / "data").mkdir(parents=True)
    (folder / "bagit.txt").write_text("BagIt-Version: 1.0\nTag-File-Character-Encoding: UTF-8\n")
    for path in paths:
        data = path.read_bytes()
        (folder / "data" / path.name).write_bytes(data)
        with open(folder / "manifest-sha256.txt", "a") as manifest, open(folder / "bag-info.txt", "a") as about:
            print(f"{hashlib.sha256(data).hexdigest()}  data/{path.name}", file=manifest)
            print(f"External-Description: {path.name}: {'; '.join(exifnorm.read(path).texts('title'))}", file=about)
    words = [TOP / "exifnorm-pictures", "verify", "--bag", folder]
    return subprocess.run(words, stdout=subprocess.PIPE, text=True, check=True).stdout.splitlines()[-1:]


def coprocess(paths: Iterable[Path]) -> List[str]:
    """Asks a command that stays open, as a program in any language can."""
    words = [str(TOP / "exifnorm-pictures"), "show", "--json", "--files-from", "-"]
    with subprocess.Popen(words, stdin=subprocess.PIPE, stdout=subprocess.PIPE, text=True) as command:
        assert command.stdin and command.stdout
        found = []
        for path in paths:
            print(path, file=command.stdin, flush=True)
            found.append(json.loads(command.stdout.readline())["type"])
        command.stdin.close()
    return found


def degrees(path: Path) -> Optional[str]:
    """Where a picture was taken, for a map."""
    place = exifnorm.read(path).position
    return place and f"https://www.openstreetmap.org/?mlat={place.latitude:.6f}&mlon={place.longitude:.6f}"


def moment(path: Path) -> Optional[float]:
    """When it was taken, in seconds since 1970; None if its time zone isn't known."""
    taken = exifnorm.read(path).taken
    return taken.timestamp() if taken and taken.tzinfo else None


def thumbnail(path: Path) -> Tuple[int, str]:
    """The small picture inside."""
    data = exifnorm.read(path).get("IFD1:ThumbnailImage", b"", type=bytes)
    return len(data), hashlib.sha256(data).hexdigest()[:8]


def regions(packet: bytes) -> List[Tuple[str, float, float]]:
    """Who is where in the picture: a structure of XMP."""
    faces = exifnorm.read_bytes(packet, name="a.xmp").get("XMP-mwg-rs:Regions", {}, type=dict)
    return [(it["mwg-rs:Name"], it["mwg-rs:Area"]["stArea:x"], it["mwg-rs:Area"]["stArea:y"]) for it in faces["mwg-rs:RegionList"]]


def maker_note(path: Path) -> str:
    """Whether two MakerNotes are the same."""
    note = exifnorm.read(path).get("MakerNote", b"", type=bytes)
    return hashlib.sha256(note).hexdigest()[:8] if note else "none"


def uploaded(file: IO[bytes], name: str) -> Dict[str, object]:
    """What FastAPI's `async def upload(picture: UploadFile)` returns, by `await asyncio.to_thread(uploaded, picture.file, picture.filename)`."""
    with exifnorm.Reader(programs=False, seconds=5, most=20_000_000) as reader:
        picture = reader.read(file, name=name)
    return {"model": picture.get("Model", type=str), "keywords": picture.texts("keywords"), "at": file.tell()}


def clean(file: IO[bytes], name: str) -> List[str]:
    """`clean_picture` of a form of Django, whose file is read again after it: no position may be published."""
    with exifnorm.Reader(programs=False) as reader:
        picture = reader.read(file, name=name)
    errors = ["The picture shows where it was taken."] * (picture.position is not None)
    return errors + [f"{it} isn't wholly read." for it in picture.not_read]


def progress(paths: List[Path]) -> str:
    """Reads many pictures, and counts what becomes of them."""
    counts: Dict[str, int] = defaultdict(int)
    for number, (_, found) in enumerate(exifnorm.read_all(paths, jobs=2), 1):
        counts[type(found).__name__] += 1
        print(f"\r{number} of {len(paths)}", end="", file=sys.stderr)
    return str(dict(counts))


def frame(paths: Iterable[Path]) -> object:
    """A table of numbers."""
    import pandas

    rows = [{"name": path.name, "f": exifnorm.read(path).get("FNumber", type=Fraction)} for path in paths]
    return pandas.DataFrame(rows).astype({"f": float}).describe()


def table(paths: Iterable[Path]) -> List[object]:
    """A database of all fields, in which text has no NUL."""
    base = sqlite3.connect(":memory:")
    base.execute("CREATE TABLE fields (picture, name, text, value)")
    for path in paths:
        rows = [(path.name, it.name, it.text, json.dumps(it.json)) for it in exifnorm.read(path).fields]
        base.executemany("INSERT INTO fields VALUES (?, ?, ?, ?)", rows)
    return base.execute("SELECT name, count(*) FROM fields GROUP BY name ORDER BY 2 DESC, 1 LIMIT 3").fetchall()


def any_bytes(examples: int) -> str:
    """Tests with hypothesis: whatever the bytes are, only what is documented is raised."""
    from hypothesis import given, settings, strategies

    @settings(max_examples=examples, deadline=None, database=None, derandomize=True)
    @given(strategies.binary(max_size=300))
    def reads(tail: bytes) -> None:
        try:
            with exifnorm.Reader(programs=False) as reader:
                dict(reader.read_bytes(VASE.read_bytes()[:200] + tail))
        except (exifnorm.NoPicture, exifnorm.NotReadable):
            pass

    reads()
    return f"{examples} examples"


class Counted(io.BytesIO):
    """An object of S3 that is read by ranges: it counts them."""

    ranges = 0

    def read(self, size: Optional[int] = -1) -> bytes:
        self.ranges += 1
        return super().read(size)


def archived(archive: zipfile.ZipFile) -> List[object]:
    """Pictures in a ZIP archive, and one of which few ranges are read."""
    found: List[object] = []
    for name in archive.namelist():
        with archive.open(name) as member:
            found.append(exifnorm.read(member, name=name).get("Model", type=str))
    remote = Counted(VASE.read_bytes())
    exifnorm.read(remote)
    return [*found, f"{remote.ranges} ranges at most 9: {remote.ranges <= 9}"]


class House:
    """A picture with words of a house's own."""

    def __init__(self, path: Path) -> None:
        self.picture = exifnorm.read(path)

    @property
    def inventory_number(self) -> str:
        return next(iter(self.picture.texts("job identifier")), self.picture.name.rpartition("/")[2].rpartition(".")[0])


def in_threads(paths: List[Path]) -> bool:
    """Threads, processes, pickle and copies have the same."""
    alone = [exifnorm.read(path) for path in paths]
    with concurrent.futures.ThreadPoolExecutor(4) as pool:
        threads = list(pool.map(exifnorm.read, paths))
    pickled = [pickle.loads(pickle.dumps(it)) for it in alone]
    processes = [found for _, found in exifnorm.read_all(paths, jobs=2)]
    others = (threads, pickled, copy.deepcopy(alone), processes)
    return all([dict(it) for it in some] == [dict(it) for it in alone] for some in others)


def typed(path: Path) -> Tuple[Optional[int], str]:
    """What mypy --strict knows of values."""
    picture = exifnorm.read(path)
    speed: Optional[int] = picture.get("ISO", type=int)
    model: str = picture.get("Model", "unknown", type=str)
    return speed, model


def corrupt(path: Path, copies: int) -> Dict[str, int]:
    """Reads damaged copies."""
    counts: Dict[str, int] = defaultdict(int)
    random_, data = random.Random(1), path.read_bytes()
    for _ in range(copies):
        damaged = bytearray(data[: random_.randrange(len(data))])
        damaged[random_.randrange(2, 40) % len(damaged)] ^= 0xFF
        try:
            picture = exifnorm.Reader(programs=False).read_bytes(damaged, name=path.name)
            counts["whole" if picture.is_whole and not picture.damage else "damaged"] += 1
        except (exifnorm.NoPicture, exifnorm.NotReadable) as error:
            counts[type(error).__name__] += 1
    return dict(counts)


def within(before: Path, after: Path, share: float) -> List[str]:
    """Fields that differ by more than a share of their value."""
    one, other = exifnorm.read(before), exifnorm.read(after)

    def are_near(name: str) -> bool:
        first, second = one.get(name), other.get(name)
        if isinstance(first, (int, float, Fraction)) and isinstance(second, (int, float, Fraction)):
            return abs(first - second) <= share * abs(first)
        return first == second

    return sorted(name for name in {*one, *other} if not are_near(name))


def runs(folder: Path) -> Dict[Callable[..., Any], Callable[[], object]]:
    """Each program with its arguments."""
    whole = io.BytesIO()
    with zipfile.ZipFile(whole, "w") as archive:
        archive.write(BOWL, "bowl.jpg")
    area = "<mwg-rs:Area rdf:parseType='Resource'><stArea:x>0.5</stArea:x><stArea:y>0.25</stArea:y></mwg-rs:Area>"
    face = f"<rdf:li rdf:parseType='Resource'><mwg-rs:Name>Anna</mwg-rs:Name>{area}</rdf:li>"
    regions_ = f"<mwg-rs:Regions rdf:parseType='Resource'><mwg-rs:RegionList><rdf:Bag>{face}</rdf:Bag></mwg-rs:RegionList></mwg-rs:Regions>"
    names = "xmlns:mwg-rs='http://www.metadataworkinggroup.com/schemas/regions/' xmlns:stArea='http://ns.adobe.com/xmp/sType/Area#'"
    rdf = (
        f"<rdf:RDF xmlns:rdf='http://www.w3.org/1999/02/22-rdf-syntax-ns#'><rdf:Description {names}>{regions_}</rdf:Description></rdf:RDF>"
    )
    packet = f"<x:xmpmeta xmlns:x='adobe:ns:meta/'>{rdf}</x:xmpmeta>".encode()
    return {
        summary: lambda: summary(VASE),
        differences: lambda: differences(BOWL, AFTER / "ceramics/2003-12-bowl.jpg"),
        complaints: lambda: complaints(PHONE.read_bytes(), "a.jpg") + complaints(b"hello", "b.jpg"),
        four_at_a_time: lambda: asyncio.run(four_at_a_time(PATHS)),
        duplicates: lambda: duplicates([*PATHS, VASE]),
        bag: lambda: bag(folder / "bag", [BOWL, VASE]),
        coprocess: lambda: coprocess([BOWL, BEFORE / "prints/1931-4-plan.png"]),
        degrees: lambda: [degrees(it) for it in PATHS],
        moment: lambda: [moment(it) for it in PATHS],
        thumbnail: lambda: thumbnail(BOWL),
        regions: lambda: regions(packet),
        maker_note: lambda: [maker_note(it) for it in PATHS],
        uploaded: lambda: uploaded(io.BytesIO(BOWL.read_bytes()), "a.jpg"),
        clean: lambda: clean(io.BytesIO(BOWL.read_bytes()), "a.jpg"),
        progress: lambda: progress([*PATHS, BEFORE / "none.jpg"]),
        frame: lambda: frame([BOWL, VASE]),
        table: lambda: table([BOWL, VASE]),
        any_bytes: lambda: any_bytes(100),
        archived: lambda: archived(zipfile.ZipFile(whole)),
        House: lambda: House(BOWL).inventory_number,
        in_threads: lambda: in_threads(PATHS),
        typed: lambda: typed(BOWL),
        corrupt: lambda: corrupt(VASE, 100),
        within: lambda: within(BOWL, AFTER / "ceramics/2003-12-bowl.jpg", 0.01),
    }


def lines_of(program: Callable[..., Any]) -> int:
    """The lines of a program, without its documentation and empty ones."""
    text = inspect.getsource(program)
    node = ast.parse(text).body[0]
    assert isinstance(node, (ast.FunctionDef, ast.AsyncFunctionDef, ast.ClassDef))
    return sum(1 for line in text.splitlines()[node.body[0].end_lineno :] if line.strip())


def main() -> None:
    """Prints a line for each program. The status is 1 if one is too long."""
    with tempfile.TemporaryDirectory() as folder:
        for program, run in runs(Path(folder)).items():
            try:
                made = run()
            except ImportError as error:
                made = str(error)
            print(f"{program.__name__} ({lines_of(program)} lines): {made}")
            assert lines_of(program) <= MOST_LINES


if __name__ == "__main__":
    main()
