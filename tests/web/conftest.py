"""Fixtures of the tests of the JavaScript module and of the page."""

import tarfile

import npm
import page
import pytest

from browser import Browser
from commands import run
from compiling import need


@pytest.fixture(scope="session")
def module(wasm, session_folder):
    """The folder of the JavaScript package."""
    folder = session_folder / "javascript"
    packed = session_folder / "exifnorm.tgz"
    packed.write_bytes(npm.archive((wasm / "exifnorm.wasm").read_bytes(), "1.0.0", 0))
    with tarfile.open(packed) as archive:
        archive.extractall(folder)
    return folder / "package"


@pytest.fixture(scope="session")
def file(wasm, session_folder):
    """The page."""
    path = session_folder / "exifnorm.html"
    path.write_text(page.page((wasm / "exifnorm.wasm").read_bytes()), encoding="utf-8")
    return path


@pytest.fixture(scope="session")
def node():
    """Runs node with some arguments."""
    need("node")
    return lambda *words, **how: run("node", *words, **how)


@pytest.fixture(scope="session")
def chromium(session_folder):
    need("chromium")
    browser = Browser(session_folder)
    yield browser
    browser.end()
