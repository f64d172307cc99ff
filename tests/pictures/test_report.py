"""The report, as a reader of HTML and a browser on a phone have it."""

import json
import os
import re
import sys
from html import unescape
from html.parser import HTMLParser
from pathlib import Path
from typing import Any, Callable

import pytest
from made_blocks import BLOCKS, MAKE, MODEL, block, with_exif
from made_files import app1, app1_xmp, data_set, jpeg, with_record, with_texts, xmp
from studio import SMALL_JPEG
from test_captions import CREATOR, LONG_NAME

from exifnorm_pictures.report import contents

GROUPS, REFUSED, CHANGED = {"One\0": 5, "Two\0": 3, "Ten\0": 2}, 4, 6


def picture(maker, model=b"Xyz\0"):
    return with_exif(SMALL_JPEG, block([MAKE[:-4] + maker, MODEL[:-4] + model]))


class Text(HTMLParser):
    """The texts of a page by their element, or its class, and by section; its links; whether each element is closed."""

    VOID = {"meta", "img", "rect", "br", "input"}

    def __init__(self, page):
        super().__init__()
        self.open, self.found, self.wrong, self.links, self.sections, self.within = [], {}, [], [], {}, ""
        self.feed(page)
        self.close()

    def handle_starttag(self, tag, attributes):
        if tag not in self.VOID:
            self.open.append((tag, dict(attributes).get("class") or tag))
        if tag == "section":
            self.within = dict(attributes).get("id", "")
        for name, value in attributes:
            if name.startswith("on") or (name in ("src", "href") and not value.startswith(("data:", "file:///", "#", "./", "../"))):
                self.wrong.append((tag, name, value))
            if name == "href":
                self.links.append(value)

    def handle_endtag(self, tag):
        if tag in self.VOID:
            return
        if not self.open or self.open.pop()[0] != tag:
            self.wrong.append((tag, "closed"))
        if tag == "section":
            self.within = ""

    def handle_data(self, data):
        for _, name in self.open:
            self.found.setdefault(name, []).append(data)
        if not {"script", "style"} & {tag for tag, _ in self.open}:  # which nobody reads
            self.sections.setdefault(self.within, []).append(data)

    def texts(self, name):
        return [it.strip() for it in self.found.get(name, []) if it.strip()]


# ---- What a report lists, and in which order, as users of the command see it.


def test_without_jinja2(folder: Path, called: Callable[..., Any], monkeypatch: pytest.MonkeyPatch) -> None:
    """The message says what is missing, and no page is written."""
    (folder / "p").mkdir()
    (folder / "p" / "a.jpg").write_bytes(SMALL_JPEG)
    called("index", "p", "--catalogue", "c", "--quiet")
    monkeypatch.setitem(sys.modules, "jinja2", None)
    status, _, messages = called("report", "c", "--html", "page.html")
    assert status == 4 and "python3-jinja2" in messages and not (folder / "page.html").exists()


def test_captions_are_compared_whole_and_listed_short(called, folder, monkeypatch) -> None:
    """Two files with one picture, whose captions differ only behind what the page shows of them."""
    monkeypatch.setattr(contents, "LONGEST", 10)
    (folder / "p").mkdir()
    for place in ("market", "harbour"):
        texts = f"<dc:description><rdf:Alt><rdf:li xml:lang='x-default'>A view of the {place}</rdf:li></rdf:Alt></dc:description>"
        (folder / "p" / f"{place}.jpg").write_bytes(jpeg(app1_xmp(xmp(texts))))
    called("index", "p", "--catalogue", "c", "--quiet", "--pixels", "--jobs", "1")
    assert called("report", "c", "--html", "page.html", "--no-look")[0] == 0
    page = (folder / "page.html").read_text(encoding="utf-8").partition('<section id="captioned"')[2].partition("</section>")[0]
    assert page.count(">A view of  ..<") == 2 and "view of the" not in page


# ---- The report's section on contradictions: the pictures that `conflicts` lists, by the texts of the catalogue.

LONG = "Ein Gefäß aus Köln, zerbrochen und geklebt. " * 20


TITLE = "Gefäß, zerbrochen und wieder geklebt, Köln"  # of so many bytes in Latin-1 a catalogue keeps a digest


def in_words(text):
    return f"<rdf:Alt><rdf:li xml:lang='x-default'>{text}</rdf:li></rdf:Alt>"


def captioned(text, packet):
    described = f"<dc:description>{in_words(packet)}</dc:description>"
    return jpeg(with_record(data_set(120, text.encode("latin-1"))), app1_xmp(xmp(described)))


PICTURES = {
    "different": jpeg(with_texts(artist=b"Anna"), with_record(data_set(80, b"Otto"), data_set(116, b"Museum"))),
    "two": jpeg(with_texts(artist=b"A", copyright=b"B"), with_record(data_set(80, b"Otto"), data_set(116, b"Museum"))),
    "cut": jpeg(with_record(data_set(80, LONG_NAME[:32].encode())), CREATOR),
    "long": captioned(LONG, LONG + "Neu."),
    "long and equal": captioned(LONG, LONG),
    "one standard": jpeg(with_texts(artist=b"Anna")),
    "refused": jpeg(app1(BLOCKS["UnknownKind"]), with_record(data_set(80, b"Otto"))),
    "latin": jpeg(with_record(data_set(5, TITLE.encode("latin-1"))), app1_xmp(xmp(f"<dc:title>{in_words(TITLE)}</dc:title>"))),
}


@pytest.fixture
def reported(folder, called):
    """Runs commands in a folder with the pictures: what they print, and the section of the page."""
    (folder / "p").mkdir()
    for name, octets in PICTURES.items():
        (folder / "p" / f"{name}.jpg").write_bytes(octets)

    def run(*words):
        return called(*words)[1]

    def call(*words):
        run("report", "c", "--html", "page.html", *words)
        page = Path("page.html").read_text(encoding="utf-8")
        return unescape(re.sub("<[^>]*>", " ", page.partition(">Contradictions</h2>")[2].partition("</section>")[0]))

    run("index", "p", "--catalogue", "c", "--quiet")
    call.run = run
    return call


def test_the_pictures_are_those_of_conflicts(reported):
    found = [json.loads(it) for it in reported.run("check", "p", "--json").splitlines()]
    expected = {os.path.basename(it["path"]): [one["label"] for one in it["conflicts"] if one["kind"] == "different"] for it in found[:-1]}
    expected = {name: labels for name, labels in expected.items() if labels}
    assert expected == {"different.jpg": ["creator"], "two.jpg": ["creator", "copyright"], "long.jpg": ["caption"]}
    section = reported()
    assert [name for name in (f"{it}.jpg" for it in PICTURES) if f" {name} " in section] == ["different.jpg", "two.jpg", "long.jpg"]
    assert "Anna" in section and "Otto" in section and section.count(LONG.strip()) == 2 and "Neu." in section, "long texts are whole"
    assert "Of 7 pictures" in section and "3 contradict themselves" in section
    assert "1 picture not wholly compared" in section, "the refused one"
    assert "1 more picture with differences of form alone" in section


def test_files_are_not_needed(reported):
    """The catalogue has the texts, long ones too, in any character set."""
    expected = reported("--no-look")
    for name in PICTURES:
        Path(f"p/{name}.jpg").unlink()
    assert reported() == reported("--no-look") == expected


def test_some_pictures(reported, folder):
    (folder / "list").write_text("p/cut.jpg\np/one standard.jpg\n", encoding="utf-8")
    section = reported("--files-from", "list")
    assert "None in 1 picture with metadata in more than one" in section
