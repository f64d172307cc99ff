"""The report in Chromium, as people have it who see little, use no mouse, have a phone, the dark, or paper."""

from __future__ import annotations

import base64
import json
import os
import shutil
import subprocess
import sys
from pathlib import Path
from typing import Any, Dict, Iterator, List, Tuple

import pytest
from browser import CONTRAST, Browser
from made_blocks import BLOCKS, with_exif
from made_files import app1, app1_xmp, data_set, exif, jpeg, with_record, xmp
from studio import SMALL_JPEG

TOP = Path(__file__).resolve().parents[2]
LONG = "Ein Gefäß aus Köln, zerbrochen und wieder geklebt, "
STEERS = "document.title='steered'"
HOSTILE_NAME = f"same/<img src=x onerror={STEERS}>\"'.jpg"
HOSTILE_TEXT = f"</script><script>{STEERS}</script>]);{STEERS};\u2028//"


def captioned(number: int, text: str) -> bytes:
    title = f"<dc:title><rdf:Alt><rdf:li xml:lang='x-default'>Title {number}</rdf:li></rdf:Alt></dc:title>"
    creator = b"Anna" if number == 3 and "new" in text else b"Otto"
    record = with_record(data_set(5, f"1998.{number}".encode()), data_set(80, creator), data_set(120, text.encode("latin-1")))
    return jpeg(app1(exif(b"abc")), record, app1_xmp(xmp(title)))


def before(number: int) -> str:
    return f"{LONG * (number % 4)}number {number} of old"


def after(number: int) -> str:
    return f"{LONG * (number % 4)}number {number} of new{number * number}"


@pytest.fixture(scope="module")
def report(tmp_path_factory: pytest.TempPathFactory, library: Path) -> Path:
    """The folder with page.html and the folder pages, about pictures of which each has something for a list, and 24 changed captions. One
    more has a name and a caption that would run a script, if they were any page's own."""
    folder = tmp_path_factory.mktemp("report")
    environment = {**os.environ, "PYTHONPATH": str(TOP / "python"), "EXIFNORM_LIBRARY": str(library / "libexifnorm.so.1")}

    def run(*words: str) -> None:
        command = [sys.executable, "-m", "exifnorm_pictures", *words]
        ran = subprocess.run(command, cwd=folder, env=environment, capture_output=True, check=False)
        assert ran.returncode in (0, 2), ran.stderr.decode()

    def put(name: str, octets: bytes) -> None:
        (folder / "p" / name).parent.mkdir(parents=True, exist_ok=True)
        (folder / "p" / name).write_bytes(octets)

    for number in range(24):
        put(f"captions/{number}.jpg", captioned(number, before(number)))
    put(f"{'a_very_long_name_without_any_space_' * 5}.jpg", with_exif(SMALL_JPEG, BLOCKS["Overlap"]))
    put(HOSTILE_NAME, captioned(99, "plain"))
    put("same/one.jpg", SMALL_JPEG)
    put("same/trailer.jpg", jpeg(app1(exif(b"abc"))) + b"TRAILER")
    put("same/text.txt", b"text")
    (folder / "rules").write_text("every picture needs credit\n")
    run("index", "p", "--catalogue", "old", "--quiet")
    for number in range(24):
        put(f"captions/{number}.jpg", captioned(number, after(number)))
    title = HOSTILE_TEXT.replace("<", "&lt;")
    put(HOSTILE_NAME, jpeg(app1_xmp(xmp(f"<dc:title><rdf:Alt><rdf:li xml:lang='x-default'>{title}</rdf:li></rdf:Alt></dc:title>"))))
    run("index", "p", "--catalogue", "c", "--quiet")
    for page in ("page.html", "pages/"):
        run("report", "c", "--since", "old", "--rules", "rules", "--html", page)
    for number in range(21):  # so that each list has a page of its own
        for name, octets in {
            "overlap.jpg": with_exif(SMALL_JPEG, BLOCKS["Overlap"]),
            "trailer.jpg": jpeg(app1(exif(b"abc"))) + b"TRAILER",
        }.items():
            put(f"many/{number}{name}", octets)
        put(f"many/{number}.txt", b"text")
    run("index", "p", "--catalogue", "many.catalogue", "--quiet")
    run("report", "many.catalogue", "--since", "old", "--rules", "rules", "--html", "many/")
    return folder


@pytest.fixture(scope="module")
def started(report: Path) -> Iterator[Browser]:
    browser = Browser(report)
    yield browser
    browser.end()


@pytest.fixture
def browser(started: Browser) -> Browser:
    """In a wide window: other tests may have made it as narrow as a telephone, where heads of tables are hidden."""
    started.show()
    return started


def opened(browser: Browser, report: Path, **words: Any) -> Browser:
    browser.show(**words)
    browser.open(f"file://{report}/page.html")
    return browser


UNFOLD = "document.querySelectorAll('details').forEach((it) => { it.open = true; })"


@pytest.mark.parametrize("dark", [False, True])
@pytest.mark.parametrize("page, least", [("page.html", 200), ("many/*-1.html", 10)])
def test_each_text_has_contrast(page: str, least: int, dark: bool, browser: Browser, report: Path) -> None:
    for file in sorted(report.glob(page)):
        browser.show(dark=dark)
        browser.open(f"file://{file}")
        browser.ask(UNFOLD)
        texts, faint = browser.ask(CONTRAST)
        assert texts > least and faint == [], file.name


def tree(browser: Browser) -> List[Dict[str, Any]]:
    browser.call("Accessibility.enable")
    return [it for it in browser.call("Accessibility.getFullAXTree")["nodes"] if not it.get("ignored")]


def named(nodes: List[Dict[str, Any]], *roles: str) -> List[Tuple[str, str]]:
    return [(it["role"]["value"], it.get("name", {}).get("value", "")) for it in nodes if it["role"]["value"] in roles]


LISTS = ("changed", "contradictions", "broken", "same", "refused", "unread", "problems", "folders")


@pytest.mark.parametrize("page", ["page.html", "pages/index.html", "pages/*-1.html", "many/*-1.html"])
def test_what_a_screen_reader_has(page: str, browser: Browser, report: Path) -> None:
    files = sorted(report.glob(page))
    assert page != "many/*-1.html" or {it.name for it in files} == {f"{key}-1.html" for key in LISTS}
    for file in files:
        browser.open(f"file://{file}")
        has_landmarks_and_names(browser)


def has_landmarks_and_names(browser: Browser) -> None:
    nodes = tree(browser)
    assert {role for role, _ in named(nodes, "banner", "navigation", "main", "contentinfo")} == {
        "banner",
        "navigation",
        "main",
        "contentinfo",
    }
    fields = named(nodes, "link", "heading", "navigation", "region", "image", "img", "table", "searchbox", "combobox")
    assert [it for it in fields if not it[1].strip()] == [], "they have no name"
    pages = named([it for it in nodes if it["role"]["value"] == "navigation"], "navigation")
    assert len(set(pages)) == len(pages), "two landmarks of one name"
    links = browser.ask("[...document.querySelectorAll('.pages a')].map((it) => it.getAttribute('aria-label'))")
    assert len(set(links)) == len(links), "links of one name to several pages"
    assert browser.ask("document.documentElement.lang") == "en"
    levels = browser.ask("[...document.querySelectorAll('h1, h2, h3, h4')].map((it) => Number(it.tagName[1]))")
    assert levels.count(1) == 1 and levels[0] == 1
    assert [pair for pair in zip(levels, levels[1:]) if pair[1] > pair[0] + 1] == [], "a level of headings is left out"
    headers = "[...document.querySelectorAll('table')].flatMap((it) => [...it.querySelectorAll('th')]).filter((it) => !it.scope).length"
    assert browser.ask(headers) == 0, "cells that head nothing"


def test_contents_lead_to_each_section(browser: Browser, report: Path) -> None:
    opened(browser, report)
    links = browser.ask("[...document.querySelectorAll('nav a')].map((it) => it.getAttribute('href').slice(1))")
    assert links == browser.ask("[...document.querySelectorAll('section')].map((it) => it.id)")


@pytest.mark.parametrize("page, steps", [("page.html", 40), ("many/unread-1.html", 24), ("many/problems-1.html", 3)])
def test_everything_is_reached_by_the_keyboard_in_the_order_of_the_page(page: str, steps: int, browser: Browser, report: Path) -> None:
    browser.open(f"file://{report}/{page}")
    browser.ask(UNFOLD)
    reached = "[...document.querySelectorAll('a:not([tabindex]), input, select, summary')].filter((it) => it.checkVisibility())"
    wanted = browser.ask(f"{reached}.map((it, at) => (it.dataset.at = at)).length")
    seen = []
    for _ in range(steps):
        browser.press("Tab", 9)
        seen.append(browser.ask("Number(document.activeElement.dataset.at ?? -1)"))
    assert wanted > steps and seen == list(range(steps))
    ring = "(() => { const it = getComputedStyle(document.activeElement); return [it.outlineStyle, parseFloat(it.outlineWidth)]; })()"
    style, width = browser.ask(ring)
    assert style != "none" and width >= 2, "nobody sees where the keyboard is"


@pytest.mark.parametrize("width", [320, 390, 1280])
@pytest.mark.parametrize("page", ["page.html", "many/*-1.html"])
def test_nothing_is_cut_off(page: str, width: int, browser: Browser, report: Path) -> None:
    """No sideways scrolling (WCAG 2.1, 1.4.10), and no text beyond its box."""
    for file in sorted(report.glob(page)):
        browser.show(width=width)
        browser.open(f"file://{file}")
        has_all_in_its_width(browser, width)


def has_all_in_its_width(browser: Browser, width: int) -> None:
    assert browser.ask("document.documentElement.scrollWidth <= document.documentElement.clientWidth")
    beyond = """[...document.querySelectorAll('th, td, a, p, li, h2, h3, caption')].filter((it) => it.scrollWidth > it.clientWidth + 1 &&
      getComputedStyle(it).display !== 'inline').map((it) => it.outerHTML.slice(0, 100))"""
    assert browser.ask(beyond) == []
    narrow = (
        "[...document.querySelectorAll('.fields td, .fields th, .texts td')].filter((it) => it.offsetParent && it.offsetWidth < 250).length"
    )
    assert width == 1280 or browser.ask(narrow) == 0, "values in narrow columns"


def test_it_asks_for_nothing_and_keeps_its_policy(browser: Browser, report: Path) -> None:
    opened(browser, report)
    browser.requests.clear()
    browser.log.clear()
    opened(browser, report)
    assert [it for it in browser.requests if not it.startswith("data:")] == [f"file://{report}/page.html"] and browser.log == []
    blocked = browser.ask("fetch('page.html').then(() => 'fetched', () => 'blocked')")
    assert blocked == "blocked"
    style = "(() => { document.body.setAttribute('style', 'display: none'); return getComputedStyle(document.body).display; })()"
    assert browser.ask(style) != "none", "a style that is none of the page's is used"


# The search box

PAGES = ["page.html", "pages/index.html"]
SHOWN = """[...document.querySelectorAll("main:not([hidden]) #changed article:not([hidden]) h3, #found:not([hidden]) > li")]
  .map((it) => it.querySelector("a").textContent)"""


def searched(browser: Browser, words: str, kind: str = "changed") -> List[str]:
    """The changed pictures that are left, or found in the pages of a folder, when somebody has typed and chosen something."""
    values = f"form.elements.words.value = {json.dumps(words)}; form.elements.kind.value = {json.dumps(kind)};"
    browser.ask(f"(() => {{ const form = document.getElementById('search'); {values} form.dispatchEvent(new Event('input')); }})()")
    browser.wait("/^[0-9]/.test(document.querySelector('#search output').textContent)")
    return sorted(browser.ask(SHOWN))


@pytest.mark.parametrize("page", PAGES)
def test_a_search_finds_what_has_the_words(page: str, browser: Browser, report: Path) -> None:
    """Words of values before and after in any order, of names of fields, labels and pictures; and kinds of change."""
    browser.open(f"file://{report}/{page}")
    names = [f"captions/{number}.jpg" for number in range(24)]
    for number in range(0, 24, 5):
        word = f"new{number * number}"
        expected = sorted(it for at, it in enumerate(names) if word in after(at) and "number" in before(at))
        assert searched(browser, f" {word.upper()}  Number") == expected, word
    assert searched(browser, "gefass koln") == sorted(it for at, it in enumerate(names) if at % 4), "accents don't matter"
    assert searched(browser, "caption") == searched(browser, "Caption-Abstract") == sorted(names + [HOSTILE_NAME])
    assert searched(browser, "title") == [HOSTILE_NAME], "no IPTC title has changed"
    assert searched(browser, "creator") == ["captions/3.jpg", HOSTILE_NAME], "the label of By-line"
    assert searched(browser, "captions/7.jpg") == ["captions/7.jpg"]
    assert searched(browser, "", "changed/different") == sorted(names + [HOSTILE_NAME])
    assert searched(browser, "1 new25 nowhere") == searched(browser, "number", "unread") == []


@pytest.mark.parametrize("page", PAGES)
def test_what_is_found_is_in_sight(page: str, browser: Browser, report: Path) -> None:
    """Also for somebody who searches at the foot of a page."""
    browser.open(f"file://{report}/{page}")
    browser.ask("scrollTo(0, document.body.scrollHeight)")
    assert len(searched(browser, "number")) > 20
    first = "[...document.querySelectorAll('main article, #found li')].find((it) => it.checkVisibility())"
    assert 0 < browser.ask(f"{first}.getBoundingClientRect().top") < 500


def test_each_hit_leads_to_its_place(browser: Browser, report: Path) -> None:
    browser.open(f"file://{report}/pages/index.html")
    assert len(searched(browser, "jpg", "")) > 50
    for link in browser.ask("[...document.querySelectorAll('#found a')].map((it) => it.getAttribute('href'))"):
        name, _, place = link.partition("#")
        assert f'id="{place}"' in (report / "pages" / (name or "index.html")).read_text(encoding="utf-8"), link
    searched(browser, "new49", "changed")
    address = browser.ask("location.href")
    browser.ask("document.querySelector('#found a').click()")
    browser.wait("location.pathname.endsWith('changed-1.html') && document.querySelector(':target')?.checkVisibility()")
    browser.open(address)  # where somebody comes back to
    browser.wait("document.querySelector('#found a') !== null")
    assert browser.ask(SHOWN) == ["captions/7.jpg"], "the search is gone"
    searched(browser, "trailer.jpg", "unread")
    browser.ask("document.querySelector('#found a').click()")
    browser.wait("document.querySelector(':target')?.checkVisibility()")
    assert "trailer.jpg" in browser.ask("document.querySelector(':target').textContent")


@pytest.mark.parametrize("page", PAGES)
def test_without_scripts_everything_is_there(page: str, browser: Browser, report: Path) -> None:
    browser.call("Emulation.setScriptExecutionDisabled", value=True)
    try:
        browser.open(f"file://{report}/{page}")
        assert browser.ask("[...document.querySelectorAll('[hidden]')].map((it) => it.id)") in (["search"], ["search", "found"])
        unfolded = "main, section, article:not(details *), li:not(#found *, details *), tr:not(details *), summary"
        assert browser.ask(f"[...document.querySelectorAll('{unfolded}')].every((it) => it.checkVisibility())")
    finally:
        browser.call("Emulation.setScriptExecutionDisabled", value=False)


OF_SYMBOLS = """[...document.querySelectorAll("svg.image use")].map(
  (it) => Number(document.querySelector(`${it.getAttribute("href")} image`).getAttribute("width")))"""


@pytest.mark.parametrize("pages", ["page.html", "pages/*.html"])
def test_small_pictures_are_shown(pages: str, browser: Browser, report: Path) -> None:
    """The policy allows those of the page or the folder, where they are opened as files."""
    browser.log.clear()
    shown = 0
    for page in sorted(report.glob(pages)):
        browser.open(f"file://{page}")
        widths = browser.ask("[...document.images].map((it) => it.naturalWidth)") + browser.ask(OF_SYMBOLS)
        assert 0 not in widths, f"{page.name} has pictures that nobody sees"
        shown += len(widths)
    assert shown > 1 and browser.log == []


@pytest.mark.parametrize("page", [*PAGES, "pages/changed-1.html"])
def test_names_and_texts_run_nothing(page: str, browser: Browser, report: Path) -> None:
    """Neither what is on the page nor what is found."""
    browser.log.clear()
    browser.open(f"file://{report}/{page}")
    assert "steered" in browser.ask("document.body.innerText") or page == "pages/index.html"
    if page in PAGES:
        assert searched(browser, "steered") == [HOSTILE_NAME]
    assert browser.ask("[document.title, document.scripts.length, document.querySelectorAll('img[src=x]').length]") == [
        browser.ask("document.title.replace('steered', '')"),
        2 if page == "pages/index.html" else 1,
        0,
    ]
    assert browser.log == []
    browser.ask(
        "document.body.append(Object.assign(document.createElement('p'), { innerHTML: '<img src=data: onerror=\"document.title=1\">' }))"
    )
    browser.wait(f"{'true' if browser.log else 'document.querySelector(`p > img`).complete'}")
    assert browser.ask("document.title") != "1", "the policy allows what is in the markup"


def printed(browser: Browser, report: Path) -> List[str]:
    """The texts of the pages on A4, as pdftotext reads them."""
    octets = base64.b64decode(browser.call("Page.printToPDF", preferCSSPageSize=True)["data"])
    (report / "page.pdf").write_bytes(octets)
    text = subprocess.run(["pdftotext", "-layout", report / "page.pdf", "-"], stdout=subprocess.PIPE, check=True).stdout.decode()
    return text.split("\f")[:-1]


HEADS = "h2, h3:not(:last-child), h4, caption, thead"


@pytest.mark.skipif(not shutil.which("pdftotext"), reason="pdftotext (package poppler-utils) is not installed")
def test_on_paper_each_value_is_there_and_no_heading_stands_alone(browser: Browser, report: Path) -> None:
    pages = printed(opened(browser, report, dark=True), report)
    letters = "".join("".join(pages).split())
    for number in range(24):
        for word in (f"new{number * number}", f"1998.{number}", f"Title{number}", f"captions/{number}.jpg"):
            assert word in letters, f"{word} isn't on paper"
    assert "exifnorm-picturesmend" in letters
    lines = [sum(map(bool, it.split("\n"))) for it in pages]
    assert len(pages) > 3 and min(lines[:-1]) > max(lines) // 4, f"pages with little on them: {lines}"
    browser.call("Emulation.setEmulatedMedia", media="print")
    broken = f"[...document.querySelectorAll('{HEADS}')].filter((it) => getComputedStyle(it).breakAfter !== 'avoid').length"
    assert browser.ask(broken) == 0, "a heading may stand without what it heads"
    browser.call("Emulation.setEmulatedMedia", media="")


def test_what_changed_isnt_told_by_colour_alone(browser: Browser, report: Path) -> None:
    opened(browser, report)
    lines = "['ins', 'del'].map((it) => getComputedStyle(document.querySelector(`td ${it}`)).textDecorationLine)"
    assert browser.ask(lines) == ["underline", "line-through"]
    bars = "[...document.querySelectorAll('tr svg')].every((it) => it.closest('tr').querySelector('.number').textContent.trim())"
    assert browser.ask(bars), "a bar without its number"
    assert browser.ask(
        "[...document.querySelectorAll('.ways a')].every((it) => it.getAttribute('aria-label'))"
    ), "a part of the bar without words"
    assert json.loads(browser.ask("JSON.stringify([...document.querySelectorAll('.tag')].filter((it) => !it.textContent.trim()))")) == []
