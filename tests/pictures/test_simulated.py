"""An archive to which things happen night after night, and a model of what happened: `nightly`, `changed`, `verify` and `compare` say what is
true of it, and all say the same. Each act takes pictures that no other act of its night has."""

import json
import os
import random
import shutil
from collections import Counter
from typing import NamedTuple

import pytest
from made_files import app1, exif, jpeg, segment, title
from studio import SMALL_JPEG, put

NIGHTS = 15  # of each seed
ACTS = 4  # of a night
CREDENTIALS = segment(0xEB, b"JP\0\1\0\0\0\1" + bytes(4) + b"jumb" + bytes(4) + b"jumdc2pa")
OTHER_PARTS, OTHER_PICTURE = "other parts, the same metadata", "other picture, the same metadata"


class File(NamedTuple):
    """What a file has. Equal ones have the same bytes."""

    picture: int
    caption: int
    has_credentials: bool = False
    is_cut: bool = False
    sidecar: int = 0  # the caption of one

    @property
    def octets(self):
        base = SMALL_JPEG.replace(b"\xff\xdb\0\x43\0", b"\xff\xdb\0\x43\0"[:-1] + b"\0", 1)
        at = base.index(b"\xff\xdb") + 6
        base = base[:at] + bytes([1 + self.picture]) + base[at + 1 :]
        octets = jpeg(app1(exif(b"%03d" % self.caption)), *[CREDENTIALS] * self.has_credentials, base=base)
        return octets[:-20] if self.is_cut else octets


class Archive:
    """The archive, its model, and where the file of each name went in a night."""

    def __init__(self, top, chance, has_sidecars):
        self.top, self.chance, self.has_sidecars = top, chance, has_sidecars
        self.files, self.fates, self.free, self.links, self.numbers = {}, {}, [], {}, iter(range(10**6))
        for _ in range(7):
            self.create()

    def begin(self):
        """A night in which nothing has happened yet."""
        self.before = dict(self.files)
        self.inodes = {name: os.stat(self.path(name)).st_ino for name in self.files}
        self.fates = {name: name for name in self.files}
        self.free = self.chance.sample(sorted(self.files), len(self.files))

    def act(self):
        getattr(self, self.chance.choice([it for it in dir(self) if it.startswith("do_")]))()

    # What acts are made of

    def path(self, name):
        return os.path.join(self.top, name)

    def take(self, is_whole=True):
        """A picture that no act of this night has had."""
        name = next((it for it in self.free if not (is_whole and self.files[it].is_cut)), None)
        if name is not None:
            self.free.remove(name)
        return name

    def name(self, folder=None):
        return f"{folder or self.chance.choice('abc')}/{next(self.numbers):03d}.jpg"

    def write(self, name, file):
        """Writes a file anew, or into the one that is there; with its times at times."""
        path = self.path(name)
        times = os.stat(path) if os.path.exists(path) and self.chance.random() < 0.5 else None
        os.makedirs(os.path.dirname(path), exist_ok=True)
        if os.path.exists(path) and os.stat(path).st_nlink == 1 and self.chance.random() < 0.5:
            with open(path, "r+b") as there:
                there.write(file.octets)
                there.truncate()
        else:
            put(self.top, {f"{name}.new": file.octets})
            os.replace(self.path(f"{name}.new"), path)
        if times:
            os.utime(path, ns=(times.st_atime_ns, times.st_mtime_ns))
        if file.sidecar:
            put(self.top, {f"{name}.xmp": title(f"{file.sidecar:03d}")})
        self.files[name] = file

    def rename(self, old, new):
        os.makedirs(os.path.dirname(self.path(new)), exist_ok=True)
        for ending in ("", ".xmp"):
            if os.path.exists(self.path(old + ending)):
                os.rename(self.path(old + ending), self.path(new + ending))
        self.files[new] = self.files.pop(old)

    def remove(self, name):
        for ending in ("", ".xmp"):
            if os.path.exists(self.path(name + ending)):
                os.unlink(self.path(name + ending))
        del self.files[name]
        self.fates[name] = None

    def put_in_turn(self, names, others):
        """Renames some files at once."""
        for name in names:
            self.rename(name, f"{name}.moved")
        for name, other in zip(names, others):
            self.rename(f"{name}.moved", other)
            self.fates[name] = other

    # The acts

    def create(self):
        number = next(self.numbers)
        self.write(self.name(), File(number % 100, number, sidecar=number % 2 * number if self.has_sidecars else 0))

    do_create = create

    def change(self, **more):
        if name := self.take():
            self.write(name, self.files[name]._replace(**more))

    def do_edit(self):
        self.change(caption=next(self.numbers) % 1000)

    def do_pixels(self):
        self.change(picture=next(self.numbers) % 100)

    def do_credentials(self):
        if name := self.take():
            self.write(name, self.files[name]._replace(has_credentials=not self.files[name].has_credentials))

    def do_cut(self):
        self.change(is_cut=True)

    def do_edit_a_sidecar(self):
        if self.has_sidecars and (name := self.take()) and self.files[name].sidecar:
            file = self.files[name] = self.files[name]._replace(sidecar=1 + next(self.numbers))
            put(self.top, {f"{name}.xmp": title(f"{file.sidecar:03d}")})

    def do_restore(self):
        if name := self.take(False):
            self.write(name, self.files[name]._replace(is_cut=False, caption=self.files[name].caption // 2))

    def do_write_again(self):
        if name := self.take(False):
            self.write(name, self.files[name])

    def do_delete(self):
        if name := self.take(False):
            self.remove(name)

    def do_empty_a_folder(self):
        folder = self.chance.choice("abc")
        if all(it in self.free for it in self.files if it[0] == folder):
            for name in [it for it in self.files if it[0] == folder]:
                self.remove(name)
                self.free.remove(name)

    def do_move(self):
        if name := self.take(False):
            self.put_in_turn([name], [self.name()])

    def do_move_and_edit(self):
        if name := self.take():
            self.put_in_turn([name], [self.name()])
            self.write(self.fates[name], self.files[self.fates[name]]._replace(caption=next(self.numbers) % 1000))

    def do_swap_or_renumber(self):
        count = self.chance.choice((2, 3))
        names = [it for it in (self.take() for _ in range(count)) if it]
        if count == len(names) == len({self.files[it] for it in names}):
            self.put_in_turn(names, [*names[1:], names[0] if count == 2 else self.name()])

    def do_copy(self):
        if name := self.take(False):
            to = self.name()
            os.makedirs(os.path.dirname(self.path(to)), exist_ok=True)
            self.chance.choice([shutil.copy, shutil.copy2, os.link])(self.path(name), self.path(to))
            self.files[to] = self.files[name]._replace(sidecar=0)

    def do_rename_a_folder(self):
        folder = self.chance.choice("abc")
        names = [it for it in self.files if it[0] == folder]
        if names and all(it in self.free for it in names):
            place = f"d{next(self.numbers)}"
            os.rename(self.path(folder), self.path(place))
            for name in names:
                self.fates[name] = place + name[1:]
                self.files[self.fates[name]] = self.files.pop(name)
                self.free.remove(name)

    # What is true

    def expected(self, name, pixels):
        """The results that are true of a picture that was there before, each with its new name."""
        old, fate = self.before[name], self.fates[name]
        if fate == name:
            return {(result_of(old, self.files[name], pixels), None)}
        fates = [self.fates[it] for it, inode in self.inodes.items() if inode == self.inodes[name] and self.fates[it] != it]
        return set().union(*(self.left_for(fate, name, old, pixels) for fate in fates))  # hard links are names of one file

    def left_for(self, fate, name, old, pixels):
        """The same of a file that left its name, and is at `fate` now."""
        twins = {it for it, file in self.files.items() if it not in self.before and file == old}
        moved = {("moved", it) for it in twins}
        if fate is None:
            return {("missing after", None)} | moved
        if self.files[fate] != old:
            return {("missing after", None)} | ({("moved and edited", fate)} if pixels else set()) | moved
        return {("renumbered", fate)} if name in self.files or fate in self.before else {("moved", fate)} | moved


def result_of(old, new, pixels):
    """What is true of the two states of a file under one name."""
    is_other = old.caption != new.caption or old.sidecar != new.sidecar
    if new.is_cut != old.is_cut:
        return (
            ("damaged and different" if is_other else "damaged")
            if new.is_cut
            else "damaged and different"
            if is_other
            else "damaged before"
        )
    if is_other:
        return "different"
    if pixels and old.picture != new.picture:
        return OTHER_PICTURE
    return OTHER_PARTS if old.has_credentials != new.has_credentials else "same"


NEWS = {
    "gone": ("missing after",),
    "new": ("missing before",),
    "moved": ("moved", "moved and edited"),
    "renumbered": ("renumbered",),
    "other parts": (OTHER_PARTS,),
}
# What verify may call a file of which changed has this result; without a state it is as it was
STATES = {
    "same": (None, "as they were", "written again"),
    "different": ("captioned", "other picture", "DAMAGED"),
    OTHER_PARTS: ("other parts", "DAMAGED"),
    OTHER_PICTURE: ("other picture", "DAMAGED"),
    "damaged": ("cut off",),
    "damaged and different": ("cut off", "other picture", "other file", "DAMAGED"),
    "damaged before": (None, "as they were", "other picture", "other file", "DAMAGED", "written again"),
    "missing after": ("missing", "moved", "renumbered"),
    "moved": ("moved", "missing"),
    "moved and edited": ("moved", "missing"),
    "renumbered": ("moved", "renumbered"),
}


@pytest.mark.parametrize("seed", range(4))
def test_nights(seed, folder, called):
    chance = random.Random(seed)
    words = [[], ["--pixels"], ["--pixels", "--sidecars"]][seed % 3]
    archive = Archive(str(folder / "in"), chance, "--sidecars" in words)
    pixels = "--pixels" in words
    called("nightly", "in", "--catalogue", "c", *words)
    for number in range(NIGHTS):
        called("index", "in", "--catalogue", f"before-{number}", "--quiet", *words)
        shutil.rmtree(folder / "old", ignore_errors=True)
        shutil.copytree(folder / "in", folder / "old")
        archive.begin()
        for _ in range(ACTS):
            archive.act()
        status, printed, _ = called("nightly", "in", "--catalogue", "c", "--json", *words)
        news = Counter()
        for it in map(json.loads, printed.splitlines()):
            news[it["news"] if it["record"] == "news" else ""] += it.get("count", 0)
        news["moved"] += news.pop("folder moved", 0)
        records = [
            it for it in map(json.loads, called("changed", f"before-{number}", "c", "--json", "--all", "--no-programs")[1].splitlines())
        ]
        found = {it["path"]: it for it in records if it["record"] == "picture" and it["result"] != "missing before"}
        came = [it["path"] for it in records if it.get("result") == "missing before"]
        results = {name: (it["result"], it["moved_to"] and it["moved_to"]["path"]) for name, it in found.items()}
        wrong = {name: (results.get(name), archive.expected(name, pixels)) for name in archive.before}
        assert not {name: it for name, it in wrong.items() if it[0] not in it[1]}, (number, archive.fates)
        places = [name if result != "missing after" and place is None else place for name, (result, place) in results.items()]
        assert sorted([*came, *filter(None, places)]) == sorted(archive.files), "each file is one of before or new"
        counts = Counter(result for result, _ in results.values())
        counts["missing before"] = len(came)
        assert {it: news[it] for it in NEWS} == {it: sum(counts[one] for one in known) for it, known in NEWS.items()}, (number, printed)
        assert (status == 0) == (set(+counts) <= {"same"}), (number, status, counts)
        if pixels and number % 3 == 0:
            check_verify(called, f"before-{number}", results, "--sidecars" in words)
            check_compare(called, results, "--sidecars" in words)


def check_verify(called, catalogue, results, has_sidecars):
    """verify says of each file what changed says."""
    _, printed, _ = called("verify", catalogue, "--json")
    files = {it["path"].partition("/in/")[2]: it["state"] for it in map(json.loads, printed.splitlines()) if it["record"] == "picture"}
    wrong = {name: (result, files.get(name)) for name, (result, _) in results.items() if files.get(name) not in STATES[result]}
    assert not (wrong if not has_sidecars else {name: it for name, it in wrong.items() if it[0] != "different"})


def check_compare(called, results, has_sidecars):
    """compare says of the two states of a file what changed says; what is proved is true of it, too."""
    for name, (result, place) in list(results.items())[:3]:
        if result == "missing after" or has_sidecars:
            continue
        status, printed, _ = called("compare", f"old/{name}", f"in/{place or name}", "--json", "--no-programs")
        answer = json.loads(printed)
        expected = {"moved": "same", "renumbered": "same", "moved and edited": "different"}.get(result, result)
        assert status != 4 and answer["result"] == expected, (name, answer)
        if answer["proved"] in ("same", "different"):
            assert (answer["proved"] == "same") == (answer["kinds"]["exif"] in ("same", "absent"))
