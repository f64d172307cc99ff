"""The page in Firefox: that it opens there, that pictures and folders get the answers of
exifnorm_pictures, and that nothing is asked for. What the page does otherwise is tested in
Chromium."""

import base64
import json

import pytest

import exifnorm
from compiling import need
from firefox import Firefox
from test_page import BOWL, BOWL_AFTER, REFUSED, SAMPLES, compare, heading, rows, text

NOT_ALLOWED = "default-src 'none'"  # what is logged of a request that a test tries

pytestmark = pytest.mark.xdist_group("firefox")


@pytest.fixture(scope="module")
def firefox(file, session_folder):
    need("firefox-esr")
    browser = Firefox(session_folder)
    browser.open(file.as_uri())
    browser.wait("document.body.dataset.ready")
    yield browser
    browser.end()
    assert not [it for it in browser.requests if not it.startswith(("file:///", "data:", "blob:null/"))]
    assert not [it for it in browser.log if NOT_ALLOWED not in it["text"]]


@pytest.fixture
def browser(firefox):
    """The page without a choice."""
    firefox.ask("document.getElementById('anew').click()")
    return firefox


def given(paths):
    """Files for the page, by their paths below a folder."""
    named = [[str(it.relative_to(SAMPLES)), base64.b64encode(it.read_bytes()).decode()] for it in paths]
    return f"""{json.dumps(named)}.map(([path, text]) => {{
        const octets = Uint8Array.from(atob(text), (it) => it.charCodeAt(0));
        const file = new File([octets], path.split("/").at(-1));
        return Object.defineProperty(file, "webkitRelativePath", {{ value: path }});
    }})"""


def test_two_pictures(browser):
    assert compare(browser, BOWL, BOWL_AFTER) == "Different"
    names = [it.name for it in exifnorm.compare(BOWL, BOWL_AFTER).differences]
    assert sorted(row[0] for row in rows(browser, "What differs")) == sorted(names) and len(names) == 2
    shown = "[...document.querySelectorAll('figure img')].filter((it) => it.naturalWidth).length"
    browser.wait(f"{shown} === 2")


def test_a_refused_picture(browser):
    assert compare(browser, REFUSED) == "Refused" and "EmptyDirectory at byte 442" in text(browser)


def test_dropped_pictures(browser):
    browser.ask(
        f"""(() => {{
        const data = new DataTransfer();
        for (const file of {given([BOWL, BOWL_AFTER])}) data.items.add(file);
        const event = new DragEvent("drop", {{ dataTransfer: data, bubbles: true }});
        document.getElementById("slot-0").dispatchEvent(event);
    }})()"""
    )
    assert heading(browser) == "Different"


def test_folders(browser):
    for side, name in enumerate(("before", "after")):
        files = given(path for path in sorted(SAMPLES.glob(f"{name}/**/*")) if path.is_file())
        target = f"{{ files: {files}, value: '' }}"
        browser.ask(f"document.getElementById('folder-{side}').onchange({{ target: {target} }})")
    browser.wait("document.querySelector('#summary h2')?.textContent.includes('different')")
    assert heading(browser) == "2 different, 1 moved"
    lines = "[...document.querySelectorAll('.list button')]"
    browser.ask(f"{lines}.find((node) => node.textContent.includes('bowl')).click()")
    browser.wait("!document.getElementById('result').hidden")
    assert len(rows(browser, "What differs")) == 2


def test_that_no_request_is_allowed(browser):
    tried = "fetch('http://127.0.0.1:9/').then(() => 'allowed', (error) => error.name)"
    assert browser.ask(tried) == "TypeError"
