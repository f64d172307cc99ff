"""`check`: what breaks a museum's own rules. The texts are known by how each picture was made."""

import csv
import fnmatch
import io
import json
import random
import re
import unicodedata

import pytest
from made_files import app1, app1_xmp, data_set, jpeg, with_record, with_texts, xmp
from studio import put
from test_list import DATASETS, picture

TEXTS = (
    "clay",
    "Clay",
    "Otto Weiß",
    "Zu\u0308rich",
    "Z\u00fcrich",
    "\u1e69\u00f6 s\u0323\u0307o\u0308",
    "Riverside Museum",
    "1998.10",
    "2003.12 bowl",
    "a, b",
    "x" * 30,
    "# seven",
)
DATES = ("19500321", "20010102", "20500101")
FOLDERS = ("web", "scans", "scans/old", "2024/web")


def composed(text):
    return unicodedata.normalize("NFC", text)


def folded(text):
    return composed(composed(text).casefold())


def quoted(text):
    return f'"{text}"'


def drawn(rng):
    """A rule as it is written, and a function that tells which labels and texts of a picture break it."""
    label = rng.choice([label for label in DATASETS if label != "date created"])
    kind = rng.choice(("needs", "is", "=", "one of", "like", "never", "at most", "not after", "from"))
    if kind == "needs":
        labels = rng.sample(list(DATASETS), 2)
        return f"every picture needs {', '.join(labels)}", lambda texts: [(it, None) for it in labels if it not in dict(texts)]
    if kind == "not after":
        return "date created not after 2001-01-02", lambda texts: [
            it for it in texts if it[0] == "date created" and it[1] > "20010102"
        ] and [("date created", re.sub(r"(....)(..)(..)", r"\1-\2-\3", dict(texts)["date created"]))]
    values = rng.sample(TEXTS, 2)
    pattern = rng.choice(("####.##*", "*lay", "?lay", "Otto*", "Z?rich", "Zu\u0308*"))
    tests = {
        "is": (quoted(values[0]), lambda text: composed(text) == composed(values[0])),
        "=": (quoted(values[0]), lambda text: folded(text) == folded(values[0])),
        "one of": (", ".join(map(quoted, values)), lambda text: composed(text) in map(composed, values)),
        "from": ("words.txt", lambda text: text in ("clay", "Otto Weiß")),
        "like": (quoted(pattern), lambda text: fnmatch.fnmatchcase(composed(text), composed(pattern).replace("#", "[0-9]"))),
        "never": ("", lambda text: False),
        "at most": ("6 characters", lambda text: len(composed(text)) <= 6),
    }
    words, is_allowed = tests[kind]
    return f"{label} {kind} {words}", lambda texts: [it for it in dict.fromkeys(texts) if it[0] == label and not is_allowed(it[1])]


def place(rng):
    """The end of a rule, and whether a picture of a folder is meant."""
    inside, outside = rng.choice((None, None, "web/", "scans/", "scans/old", "2*/web")), rng.choice((None, None, "old", "web"))
    fits = {"web/": ("web", "2024/web"), "web": ("web", "2024/web"), "scans/": ("scans", "scans/old"), "scans/old": ("scans/old",)}
    fits.update({"2*/web": ("2024/web",), "old": ("scans/old",)})
    text = (f" in {inside}" if inside else "") + (f" except {outside}" if outside else "")
    return text, lambda folder: (not inside or folder in fits[inside]) and not (outside and folder in fits[outside])


@pytest.mark.parametrize("seed", range(4))
def test_rules(folder, called, seed):
    """Drawn rules are broken by exactly the pictures and texts that break them; by rule, by picture and in a table alike."""
    rng = random.Random(seed)
    known = {}
    for number in range(24):
        labels = rng.sample(list(DATASETS), rng.randrange(len(DATASETS)))
        texts = [
            (label, rng.choice(DATES if label == "date created" else TEXTS))
            for label in labels
            for _ in range(2 if label == "keywords" else 1)
        ]
        known[f"{rng.choice(FOLDERS)}/{number:02}.jpg"] = texts
    put(folder / "p", {name: picture(texts) for name, texts in known.items()})
    (folder / "words.txt").write_text("# allowed\nclay\n\nOtto Weiß\n", "utf-8")
    called("index", "p", "--catalogue", "c", "--quiet")
    rules = [(*drawn(rng), *place(rng)) for _ in range(30)]
    (folder / "rules").write_text("".join(f"{text}{end}   # a comment\n\n" for text, _, end, _ in rules), "utf-8")
    due = {
        (name, 2 * number + 1, label, text)
        for number, (_, broken, _, is_meant) in enumerate(rules)
        for name, texts in known.items()
        if is_meant(name.rpartition("/")[0])
        for label, text in broken(texts)
    }
    status, printed, _ = called("check", "--rules", "rules", "c", "--json")
    *objects, summary = map(json.loads, printed.splitlines())
    listed = [(it["path"].partition("/p/")[2], it["line"], it["label"], it["text"]) for it in objects]
    assert set(listed) == due and len(listed) == len(due) and status == 1
    assert (summary["rules"], summary["pictures"], summary["not_known"]) == (30, 24, 0)
    assert summary["broken_rules"] == len({line for _, line, _, _ in due})
    assert summary["broken_pictures"] == len({name for name, *_ in due})
    by_picture = map(json.loads, called("check", "--rules", "rules", "c", "--json", "--by-picture")[1].splitlines()[:-1])
    assert sorted(it["path"] + str(it["line"]) for it in by_picture) == sorted(it["path"] + str(it["line"]) for it in objects)
    rows = list(csv.reader(io.StringIO(called("check", "--rules", "rules", "c", "--csv")[1])))[1:]
    assert [int(row[1]) for row in rows] == [it["line"] for it in objects]


@pytest.mark.parametrize("seed", range(3))
def test_a_folder_a_catalogue_and_questions_agree(folder, called, seed):
    """What breaks a rule in a folder does so in its catalogue, and fits the question that asks for it; also of pictures not wholly read."""
    rng = random.Random(100 + seed)
    refused = app1(b"II*\0\xff\xff\0\0")
    for number in range(20):
        labels = rng.sample(list(DATASETS), rng.randrange(len(DATASETS)))
        texts = [(label, rng.choice(DATES if label == "date created" else TEXTS)) for label in labels]
        put(folder / "p", {f"{rng.choice(FOLDERS)}/{number:02}.jpg": picture(texts, *[refused] * (rng.random() < 0.2))})
    year = xmp("", "photoshop:DateCreated='2001'", "xmlns:photoshop='http://ns.adobe.com/photoshop/1.0/'")
    put(folder / "p", {"year.jpg": jpeg(app1_xmp(year))})
    asked = [(f"every picture needs {label}", f"without {label}") for label in DATASETS]
    asked += [(f"{label} never", f"with {label}") for label in DATASETS]
    tests = ("is clay", "= clay", "= 'Zu\u0308rich'", "one of 'Otto Weiß', \"Z\u00fcrich\", 1998.10", "from words.txt")
    asked += [(f"{name} {test}", f"with {name} and not {name} {test}") for name in ("title", "keywords", "2:25") for test in tests]
    (folder / "words.txt").write_text("# allowed\nclay\n\nOtto Weiß\n", "utf-8")
    asked += [("date created not after 2001", "date created > 2001"), ("date created not before 2001-01", "date created < 2001-01")]
    (folder / "rules").write_text("".join(f"{rule}\n" for rule, _ in asked), "utf-8")
    called("index", "p", "--catalogue", "c", "--quiet")
    of_catalogue, of_folder = (called("check", "--rules", "rules", name, "--json") for name in ("c", "p"))
    assert of_catalogue[:2] == of_folder[:2]
    *broken, summary = map(json.loads, of_catalogue[1].splitlines())
    for line, (rule, question) in enumerate(asked, 1):
        for source in ("c", "p") if line % 6 == 0 else ("c",):
            status, printed, _ = called("list", source, "--where", question, "--json")
            *listed, end = map(json.loads, printed.splitlines())
            due, fit = {it["path"] for it in broken if it["line"] == line}, {it["path"] for it in listed}
            # a rule is about every text, and a question about some text, which may be in the block that wasn't read
            may = {it["path"] for it in end["may_fit"]} if " and not " in question else set()
            assert fit <= due <= fit | may, (rule, source)
            assert status <= of_catalogue[0], rule
    assert of_catalogue[0] == (2 if summary["not_known"] else 1)
    assert not [
        it for it in broken if it["path"].endswith("year.jpg") and " not " in it["rule"]
    ]  # it is neither before nor after its month


def test_each_value_of_a_list_counts(folder, called):
    """A rule about a field is broken by one value beside an allowed one; all of a list, as `show` prints it, is no value of a rule."""
    words = xmp("<dc:subject><rdf:Bag><rdf:li>clay</rdf:li><rdf:li>glass</rdf:li></rdf:Bag></dc:subject>")
    put(folder / "p", {"a.jpg": jpeg(app1_xmp(words))})
    tests = ("is clay", "= Clay", "one of clay, Glass", "one of glass, clay", "= 'clay; glass'")
    (folder / "rules").write_text("".join(f"XMP-dc:subject {test}\n" for test in tests))
    *broken, _ = map(json.loads, called("check", "--rules", "rules", "p", "--json")[1].splitlines())
    assert [(it["line"], it["text"]) for it in broken] == [(1, "glass"), (2, "glass"), (3, "glass"), (5, "clay"), (5, "glass")]
    assert [called("list", "p", "-0", "--where", f"XMP-dc:subject {it}")[1].count("\0") for it in tests] == [1, 1, 1, 1, 1]


def test_each_folder_without_pictures_is_named(folder, called):
    """Also one beside another folder of the rule, which has some."""
    for name in ("web", "press"):
        put(folder / "p" / name, {"a.jpg": picture([])})
    (folder / "rules").write_text("serial never in web/, pres/, press/\nserial never in wep/, preß/\nserial never in web/\n")
    lines = called("check", "--rules", "rules", "p")[1].splitlines()
    assert [line.partition(" below ")[0] for line in lines[:-1]] == [
        "line 1: no picture lies in pres/",
        "line 2: no picture lies in wep/ or preß/",
    ]


def test_each_mistake_is_named(folder, called):
    """All mistakes of a file are told at once, each with its line and a mark below it."""
    put(folder / "p", {"a.jpg": jpeg()})
    wrong = (
        "every picture need title",
        "creatr is A",
        "title",
        "title is",
        "caption at most many characters",
        "city not after 1950",
        'title is "A',
        "title never in",
        "keywords from nothing.txt",
        "credit needs title",
        "every pictures need title",
        "date not after today",
        'copyright must "Museum"',
        "Artst is Anna",
        "title like ####",
        "position and serial never",
        "title is 'A",
    )
    (folder / "rules").write_text("every picture needs title\n" + "\n".join(wrong))
    status, printed, messages = called("check", "--rules", "rules", "p")
    assert (status, printed) == (3, "")
    for number, line in enumerate(wrong, 2):
        assert f"line {number}: " in messages and f"\n  {line}\n" in messages
    meant = {3: "creator", 12: "every picture needs", 13: "date created", 14: " is ", 15: "Artist", 16: "comment", 17: "comma"}
    for number, proposal in meant.items():
        assert proposal in messages.split(f"line {number}: ")[1].splitlines()[0], number
    assert messages.count("begins a comment") == 1


@pytest.mark.parametrize(
    "octets",
    (b"", b"# only a comment\n", b"\xff\xfe", b"title is A\n" * 2000, b"title is A\n" + b"#\n" * 5_000_000),
    ids=lambda it: str(len(it)),
)
def test_files_that_are_no_rules(folder, called, octets):
    put(folder / "p", {"a.jpg": jpeg()})
    (folder / "rules").write_bytes(octets)
    status, printed, messages = called("check", "--rules", "rules", "p")
    assert (status, printed) == (3, "") and len(messages.splitlines()) == 1


AGREEMENT = {
    "labels agree": {"creator", "title"},
    "creator agree": {"creator"},
    "title, caption agree": {"title"},
    "labels agree except creator": {"title"},
    "labels agree in web/": set(),
}
AGREEING = (
    with_texts(artist=b"Anna"),
    with_record(data_set(80, b"Anna"), data_set(5, b"Bowl")),
    app1_xmp(xmp("<dc:title>Bowl</dc:title>")),
)


@pytest.mark.parametrize("rule", AGREEMENT)
def test_a_rule_of_agreement_is_broken_in_each_command(rule, folder, called):
    """By the same pictures in `check`, alone and beside another rule, in the letter of a night, and in a report."""
    exif, iptc, packet = AGREEING
    whole = {name: jpeg(*AGREEING) for name in ("p/creator.jpg", "p/title.jpg", "p/none.jpg")}
    put(folder, {**whole, "rules": rule.encode(), "two": f"{rule}\nserial never".encode()})
    called("nightly", "p", "--catalogue", "c", "--rules", "two")
    put(folder, {"p/creator.jpg": jpeg(with_texts(artist=b"Otto"), iptc, packet)})
    put(folder, {"p/title.jpg": jpeg(exif, iptc, app1_xmp(xmp("<dc:title>Vase</dc:title>")))})
    expected = {f"{label}.jpg" for label in AGREEMENT[rule]}

    def found(*words):
        return [json.loads(line) for line in called(*words, "--json")[1].splitlines()]

    news = [one for one in found("nightly", "p", "--catalogue", "c", "--rules", "two") if one.get("news") == "rule broken"]
    assert {it["path"] for one in news for it in one["pictures"]} == expected
    assert {one["about"] for one in news} == ({f"line 1: {rule}"} if expected else set())
    for rules in ("rules", "two"):
        status = called("check", "c", "--rules", rules)[0]
        assert status == (1 if expected else 0), rules
    listed = [it for it in found("check", "c", "--rules", "two") if it["record"] == "picture"]
    assert {it["path"].rpartition("/")[2] for it in listed} == expected
    put(folder, {"list": b"p/title.jpg\n"})
    called("report", "c", "--rules", "two", "--files-from", "list", "--html", "page.html")
    count = len(expected & {"title.jpg"})
    assert f"broken, by {count} of 1 picture." in (folder / "page.html").read_text(encoding="utf-8")
