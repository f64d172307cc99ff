"""`list`: the pictures that fit a question, and the texts of a label with their number. The texts are known by how each picture was made."""

import csv
import fnmatch
import io
import json
import random
import re
import shlex
import struct
import unicodedata

import pytest
from made_files import app13, jpeg, png, png_xmp, resource, xmp
from made_more_files import gif
from studio import needs, put, tool
from exifnorm_pictures.catalogue import asking
from exifnorm_pictures.catalogue.asking import Answer
from exifnorm_pictures.catalogue.kept_texts import kept_text
from exifnorm_pictures.catalogue.store import Catalogue, put_rows, put_text
from exifnorm_pictures.fields.questions import question_of
from exifnorm_pictures.model.records import PictureRecord

DATASETS = {"title": 5, "keywords": 25, "creator": 80, "credit": 110, "caption": 120, "city": 90, "date created": 55}
WORDS = (
    "clay",
    "Clay",
    "clay pot",
    "Otto Weiß",
    "otto  weiss",
    "Zürich",
    "Zu\u0308rich",
    "1998.10",
    "7",
    "12",
    "a*b",
    "[x]",
    "and",
    "50% (new)",
    "x" * 60,
)
DATES = ("19500321", "19491231", "19500000", "20010102")


def record(texts):
    """An IPTC record in UTF-8: pairs of a label and a text."""
    sets = [(1, 90, b"\x1b%G"), *((2, DATASETS[label], text.encode()) for label, text in texts)]
    return b"".join(struct.pack(">BBBH", 0x1C, number, dataset, len(octets)) + octets for number, dataset, octets in sets)


def picture(texts, *more):
    return jpeg(app13(resource(0x0404, record(texts))), *more)


def shown(label, text):
    """A date as a person writes it; other texts as they are."""
    return re.sub(r"(....)(..)(..)", r"\1-\2-\3", text) if label == "date created" else text


@pytest.fixture
def asked(called):
    """The names that `list` prints for some options, and its status and last object."""

    def ask(*words):
        status, printed, _ = called("list", "c", "--json", *words)
        *listed, last = map(json.loads, printed.splitlines())
        assert len(last.pop("may_fit")) == last["not_known"]
        return [it["path"].rpartition("/")[2] for it in listed], status, last

    return ask


# An independent reading of questions: trees of tuples, their text, and whether the texts of a picture fit


def folded(text):
    return " ".join(unicodedata.normalize("NFC", unicodedata.normalize("NFD", text).casefold()).split())


def drawn(rng, depth=0):
    kind = rng.choice(("with", "=", "=", "!=", "has", "like", "<", ">", "not", "and", "or") if depth < 3 else ("with", "=", "has"))
    if kind in ("and", "or"):
        return (kind, *(drawn(rng, depth + 1) for _ in range(rng.choice((2, 2, 3)))))
    if kind == "not":
        return (kind, drawn(rng, depth + 1))
    label = rng.choice(list(DATASETS))
    if kind == "with":
        return (kind, label)
    if kind in "<>":
        return (
            (kind, "date created", rng.choice(("1950", "1950-03", "1950-03-21", "2001-01-02")))
            if rng.random() < 0.6
            else (kind, "title", "8")
        )
    word = rng.choice([*WORDS, "otto", "CLAY"]) if label != "date created" else "1950"
    return (kind, label if kind in ("=", "!=") or label != "date created" else "title", f"*{word[:3]}*" if kind == "like" else word)


def text_of(question):
    kind, *parts = question
    if kind in ("and", "or"):
        return "(" + f" {kind} ".join(map(text_of, parts)) + ")"
    if kind == "not":
        return f"not {text_of(parts[0])}"
    return f"with {parts[0]}" if kind == "with" else f'{parts[0]} {kind} "{parts[1]}"'


def day(text):
    """The first and the last day of a date that is known to the year, the month or the day."""
    return text + "0000-01-01"[len(text) :] if len(text) == 4 else text + "-00"[: 10 - len(text)], text + "\uffff"


def fits(question, texts):
    kind, *parts = question
    if kind == "and":
        return all(fits(part, texts) for part in parts)
    if kind == "or":
        return any(fits(part, texts) for part in parts)
    if kind == "not":
        return not fits(parts[0], texts)
    if kind == "!=":
        return not fits(("=", *parts), texts)
    ours = [folded(shown(label, text)) for label, text in texts if label == parts[0]]
    if kind == "with":
        return bool(ours)
    value = folded(parts[1])
    if parts[0] == "date created":
        # each date here is a whole day: it lies in the given year, month or day, or before or after all of it
        first = {
            "=": lambda own: own.startswith(value),
            "<": lambda own: own[: len(value)] < value,
            ">": lambda own: own[: len(value)] > value,
        }
        return any(map(first[kind], ours))
    if kind in "<>":
        numbers = [float(own) for own in ours if re.fullmatch(r"[+-]?[0-9]+(\.[0-9]+)?", own)]
        return any(number < 8 if kind == "<" else number > 8 for number in numbers)
    tests = {
        "=": lambda own: own == value,
        "has": lambda own: value in own,
        "like": lambda own: fnmatch.fnmatchcase(own, value.replace("[", "[[]")),
    }
    return any(map(tests[kind], ours))


@pytest.mark.parametrize("seed", range(4))
def test_questions(called, asked, seed, monkeypatch, indexed):
    """Each drawn question lists exactly the pictures whose texts fit it, from a catalogue as from the folder, and by each way to find them."""
    monkeypatch.setattr(asking, "_FEW", (0, 3, 10_000, 10_000)[seed])  # texts that differ, up to which each is tested once
    monkeypatch.setattr(asking, "_SHARE", (0, 2, 20, 10_000)[seed])  # of all pictures, from which on their paths are gone through
    rng = random.Random(seed)
    known = {}
    for number in range(30):
        labels = rng.sample(list(DATASETS), rng.randrange(len(DATASETS)))
        texts = []
        for label in labels:
            count = rng.choice((1, 2, 3)) if label == "keywords" else 1
            texts += [(label, rng.choice(DATES if label == "date created" else WORDS)) for _ in range(count)]
        known[f"{number:02}.jpg"] = texts
    indexed({name: picture(texts) for name, texts in known.items()})
    for _ in range(60):
        question = drawn(rng)
        listed, status, summary = asked("--where", text_of(question))
        assert (listed, status) == ([name for name, texts in known.items() if fits(question, texts)], 0), text_of(question)
        assert (summary["pictures"], summary["listed"], summary["not_known"]) == (30, len(listed), 0)
    of_folder = called("list", "p", "--json", "--where", text_of(question))[1].splitlines()
    assert [json.loads(it)["path"].rpartition("/")[2] for it in of_folder[:-1]] == listed


# Pictures that were not wholly read


_PHOTOSHOP = "xmlns:photoshop='http://ns.adobe.com/photoshop/1.0/'"


def test_texts_that_are_not_kept(asked, indexed):
    """A text that is too long for the catalogue may have the word that is asked for."""
    indexed(
        {
            "long.png": png(png_xmp(xmp(f"<photoshop:Source>{'x' * 70_000} clay</photoshop:Source>", outer=_PHOTOSHOP))),
            "short.jpg": picture([]),
        }
    )
    assert asked("--where", "source has clay")[1:] == (2, {**asked()[2], "listed": 0, "not_known": 1})
    assert asked("--without", "source")[0] == ["short.jpg"]


@needs("exiftool")
def test_fields_of_each_standard(folder, called, asked):
    """A label is the field of Exif, of IPTC and of XMP; serial, owner and position are found as ExifTool has written them."""
    put(folder / "p", {f"{name}.jpg": jpeg() for name in "abcde"})
    for name, *words in (
        ("a", "-IFD0:Artist=Anna Wirth"),
        ("b", "-XMP-dc:Creator=Anna Wirth", "-XMP-exif:GPSLatitude=33.5 S", "-XMP-exif:GPSLongitude=7.25 E"),
        ("c", "-GPSLatitude=51.5", "-GPSLatitudeRef=N", "-GPSLongitude=0.12", "-GPSLongitudeRef=W", "-ExifIFD:SerialNumber=K-77"),
        ("d", "-IPTC:By-line=anna  wirth", "-XMP-aux:OwnerName=Otto"),
        ("e", "-XMP-photoshop:DateCreated=1950"),
    ):
        tool(folder, "exiftool", "-q", "-overwrite_original", *words, f"p/{name}.jpg")
    called("index", "p", "--catalogue", "c", "--quiet")
    assert asked("--where", "creator = anna wirth")[0] == ["a.jpg", "b.jpg", "d.jpg"]
    found = [asked("--where", f"date created {it}")[0] for it in ("= 1950", "< 1951", "> 1949", "< 1950-03", "> 1950-03", "= 1950-03")]
    assert found == [["e.jpg"]] * 3 + [[]] * 3  # a year is neither before nor after a month of it
    assert asked("--with", "position")[0] == ["b.jpg", "c.jpg"]
    assert asked("--where", "serial = k-77 or owner = OTTO")[0] == ["c.jpg", "d.jpg"]
    printed = called("list", "c", "--csv", "--with", "position", "--columns", "position")[1]
    assert [row[1:] for row in csv.reader(io.StringIO(printed))] == [
        ["latitude", "longitude", "not known"],
        ["-33.5", "7.25", ""],
        ["51.5", "-0.12", ""],
    ]
    features = json.loads(called("list", "c", "--geojson", "--columns", "creator")[1])["features"]
    assert [it["geometry"]["coordinates"] for it in features] == [[7.25, -33.5], [-0.12, 51.5]]
    assert [it["properties"]["creator"] for it in features] == ["Anna Wirth", ""]
    assert json.loads(called("list", "c", "--geojson", "--where", "title = none")[1]) == {"type": "FeatureCollection", "features": []}


# Counts


def test_counts_of_a_label(called, indexed):
    names = ["Otto Weiß"] * 3 + ["otto weiss", "Müller, Anna", "Anna Müller", "Muller Anna"]
    indexed({f"{number}.jpg": picture([("creator", name)]) for number, name in enumerate(names)} | {"none.jpg": picture([])})
    *texts, last = map(json.loads, called("list", "c", "--count", "creator", "--json")[1].splitlines())
    assert [(it["text"], it["pictures"], it["like"]) for it in texts] == [
        ("Otto Weiß", 3, None),
        ("otto weiss", 1, "Otto Weiß"),
        ("Muller Anna", 1, None),
        ("Müller, Anna", 1, "Muller Anna"),
        ("Anna Müller", 1, None),
    ]
    assert (last["pictures"], last["with"], last["not_known"]) == (8, 7, 0)
    assert called("list", "c", "--count", "creator", "--where", "creator like otto*")[1].count("\n") == 3


# Wrong questions


@pytest.mark.parametrize(
    "words, marked",
    [
        (["--where", "creatr = Otto"], "creator"),
        (["--where", "title = A and"], "label"),
        (["--where", "title"], "="),
        (["--where", "(title = A"], ")"),
        (["--where", 'title = "A'], "quotes"),
        (["--where", "title = 'A"], "quotes"),
        (["--where", "title = 'A' and creator = 'Otto's son'"], "quotes"),
        (["--where", "date created < spring"], "date"),
        (["--where", "title == A"], "comparisons"),
        (["--where", "title <> A"], "comparisons"),
        (["--where", "title = 10*"], "like"),
        (["--where", "not title has *"], "like"),
        (["--where", ""], "empty"),
        (["--where", "(" * 200], "brackets"),
        (["--with", "nothing"], "labels are"),
        (["--columns", "title,creatr"], "creator"),
        (["--since", "yesterday"], "day"),
    ],
)
def test_wrong_questions_are_explained(called, words, marked, indexed):
    indexed({"a.jpg": picture([])})
    status, printed, messages = called("list", "c", *words)
    assert (status, printed) == (3, "") and marked in messages and "Traceback" not in messages


def test_the_place_of_a_mistake_is_marked(called, indexed):
    indexed({"a.jpg": picture([])})
    for question, wrong in (
        ("title = A and creatr = B", "creatr"),
        ("title ~ A", "~"),
        ("date created around 1950", "around"),
        ("title 'A'", "'A'"),
    ):
        *_, text, mark = called("list", "c", "--where", question)[2].splitlines()
        assert text[mark.index("^") : mark.rindex("^") + 1] == wrong, question


# Costs


def steps_of(name, question, count):
    """SQLite's steps for a question about so many pictures, each with a creator of its own and one of 50 keywords. It fits one of them."""
    with Catalogue(name, make=True) as catalogue:
        run = catalogue.begin_run("2026-01-01T00:00:00Z")
        empty = {"exif": "", "iptc": "", "xmp": "", "not_read": "", "other_not_read": ""}
        pictures = [PictureRecord(path=b"/p/%06d" % number, root=b"/p", **empty) for number in range(count)]
        with catalogue.transaction():
            put_rows(catalogue.base, run, 1, pictures)
            texts = (
                (number, at, *kept_text(*text))
                for number in range(1, count + 1)
                for at, text in enumerate((("creator", f"Name {number}"), ("title", "Vase"), ("keywords", f"clay {number % 50}")))
            )
            catalogue.base.executemany(put_text("texts"), [*texts, (77, 3, *kept_text("keywords", "Kiln 7"))])
            catalogue.set_prepared(count)
    with Catalogue(name) as catalogue:
        counted = 0

        def count_steps():
            nonlocal counted
            counted += 1

        catalogue.base.set_progress_handler(count_steps, 1)
        answer = Answer(catalogue, question_of(question))
        assert len(list(answer.pictures())) == 1 and answer.count() == count and answer.not_known() == 0
        return counted


@pytest.mark.parametrize(
    "question", ["creator = 'name 77'", "keywords has kiln", "keywords like 'kiln*'", "keywords = 'kiln 7' and title = vase"]
)
def test_a_question_visits_few_rows(question, folder, called):
    """A text is looked up, however many pictures have others: SQLite's steps at ten times as many pictures. Only what fits costs its rows."""
    few, many = (steps_of(str(folder / f"c{count}"), question, count) for count in (1_000, 10_000))
    rows = 9_000 * question.count("vase")
    assert many < 2 * few + 10 * rows, (few, many)


def test_the_texts_of_many_pictures_are_asked_for_at_once(folder):
    steps_of(str(folder / "c"), "creator = 'name 77'", 2_500)
    with Catalogue(str(folder / "c")) as catalogue:
        answer = Answer(catalogue, None)
        statements = []
        catalogue.base.set_trace_callback(statements.append)
        texts = [texts for _, texts in answer.pictures(["creator", "keywords"])]
        catalogue.base.set_trace_callback(None)
    assert texts[0] == (("Name 1",), ("clay 1",)) and texts[-1] == (("Name 2500",), ("clay 0",)) and len(texts) == 2_500
    assert sum(statement.startswith("SELECT") for statement in statements) < 20


@pytest.mark.parametrize("question", ["without credit", "creator != anna", "not keywords has clay or title = x"])
def test_the_names_of_many_pictures_are_read_from_the_index_of_paths(question, indexed):
    """Their rows are long, and lie in another order. What is damaged, too, is found without a row for each."""
    indexed({"a.gif": gif(), "b.jpg": picture([("title", "B")])[:-2]})
    with Catalogue("c") as catalogue:
        statements = []
        answer = Answer(catalogue, question_of(question))
        catalogue.base.set_trace_callback(statements.append)
        names = [path for paths in answer.paths() for path in paths]
        catalogue.base.set_trace_callback(None)
        plan = [row[3] for statement in statements for row in catalogue.base.execute(f"EXPLAIN QUERY PLAN {statement}")]
        assert [it.path for it, _ in answer.pictures()] == names and len(names) == 2
    assert plan and all("COVERING INDEX" in step for step in plan), plan


@pytest.mark.parametrize("words", ("'creator = Anna'", "creator = Anna", "--where creator = Anna"))
def test_a_question_without_its_option(words, called, capsys):
    """One line says how it is written, and no usage is in its way."""
    with pytest.raises(SystemExit, match="3"):
        called("list", "c", *shlex.split(words))
    meant = "exifnorm-pictures list c --where 'creator = Anna'"
    assert capsys.readouterr().err == f"exifnorm-pictures: a question follows --where: {meant}\n"
