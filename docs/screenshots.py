#!/usr/bin/env python3
"""Takes the pictures of the report and of the page for the tutorial and the README, with Chromium. Needs Pillow.

The pictures show the report that the tutorial makes, and the page that compares pictures in a browser, with the samples of both days.
"""

from __future__ import annotations

import argparse
import hashlib
import re
import shutil
import subprocess
import sys
import tempfile
from pathlib import Path

from PIL import Image, ImageChops

DOCS = Path(__file__).resolve().parent
sys.path.insert(0, str(DOCS.parent / "tests" / "web"))

from browser import Browser

SAMPLES = DOCS.parent / "samples"
WIDTH, HEIGHT, COLOURS, MARGIN = 920, 2600, 96, 12
# the name of each picture, and the titles of the sections that it shows
PICTURES = {
    "report.png": ["What changed", "At a glance", "Changed or in doubt"],
    "report-changed.png": ["Changed or in doubt"],
    "report-same.png": ["Pictures with the same metadata"],
    "report-refused.png": ["Refused blocks and what helps"],
}


# What the pictures show: the samples, the page, and the parts of the package that write the report
SOURCES = (
    "samples/before/**/*",
    "samples/after/**/*",
    "docs/screenshots.py",
    "docs/exifnorm.html",
    "python/exifnorm_pictures/report/**/*.*",
    "python/exifnorm_pictures/comparison/changed/edit*.py",
    "python/exifnorm_pictures/comparison/same/group.py",
)
RECORD = DOCS / "screenshots.txt"


def sources() -> str:
    """A line for each of them, with a digest."""
    top = DOCS.parent
    found = sorted(it for pattern in SOURCES for it in top.glob(pattern) if it.is_file())
    kept = [it for it in found if "__pycache__" not in it.parts]
    lines = (f"{hashlib.sha256(it.read_bytes()).hexdigest()[:16]} {it.relative_to(top)}\n" for it in kept)
    return "".join(lines)


def check() -> None:
    """Ends with a message if a source has changed."""
    before, now = (set(it.splitlines()) for it in (RECORD.read_text(encoding="utf-8"), sources()))
    changed = sorted({it.partition(" ")[2] for it in before ^ now})
    if changed:
        sys.exit(f"older than {', '.join(changed)}: run docs/screenshots.py, and look at its pictures")


def report(command: str, folder: Path) -> str:
    """The page of the tutorial: pictures of one day, and what was changed on the next."""
    words = ["--catalogue", "museum.catalogue", "--quiet"]
    shutil.copytree(SAMPLES / "before", folder / "museum")
    subprocess.run([command, "index", "museum", "--pixels", *words], cwd=folder, check=True, stdout=subprocess.DEVNULL)
    shutil.rmtree(folder / "museum")
    shutil.copytree(SAMPLES / "after", folder / "museum")
    subprocess.run(
        [command, "index", "museum", *words, "--keep-old", "yesterday.catalogue"], cwd=folder, check=True, stdout=subprocess.DEVNULL
    )
    subprocess.run(
        [command, "report", "museum.catalogue", "--since", "yesterday.catalogue", "--html", "report.html"],
        cwd=folder,
        check=True,
    )
    return (folder / "report.html").read_text(encoding="utf-8").replace(str(folder), "/home/registrar")


def only(page: str, titles: list[str]) -> str:
    """The page with these sections alone."""

    def kept(found: re.Match[str]) -> str:
        return found[0] if any(_is_titled(found[0], it) for it in titles) else ""

    sections = re.compile(r"<section\b.*?</section>", re.S)
    if not all(_is_titled(page, it) for it in titles):
        sys.exit(f"the report has no section {titles}")
    return re.sub(r"<nav\b.*?</nav>", "", sections.sub(kept, page), flags=re.S)


def _is_titled(page: str, title: str) -> bool:
    return re.search(rf"<h2\b[^>]*>{re.escape(title)}</h2>", page) is not None


def take(page: str, folder: Path) -> Image.Image:
    """A picture of a page, without the empty space below it."""
    (folder / "shown.html").write_text(page, encoding="utf-8")
    size = [f"--window-size={WIDTH},{HEIGHT}", "--hide-scrollbars", "--force-device-scale-factor=1"]
    own = ["--headless", "--no-sandbox", "--disable-gpu", f"--user-data-dir={folder / 'chromium'}"]
    words = ["chromium", *own, *size, f"--screenshot={folder / 'shown.png'}", f"file://{folder / 'shown.html'}"]
    subprocess.run(words, check=True, stderr=subprocess.DEVNULL, timeout=120)
    return without_empty(Image.open(folder / "shown.png").convert("RGB"))


def without_empty(picture: Image.Image) -> Image.Image:
    """A picture without the empty space below what it shows."""
    empty = Image.new("RGB", picture.size, picture.getpixel((2, picture.height - 2)))
    box = ImageChops.difference(picture, empty).getbbox()
    return picture.crop((0, 0, WIDTH, min(picture.height, box[3] + MARGIN)))


def keep(picture: Image.Image, file: str) -> None:
    picture.quantize(COLOURS, method=Image.Quantize.MEDIANCUT, dither=Image.Dither.NONE).save(DOCS / file, "PNG", optimize=True)
    print(f"docs/{file}: {picture.width} x {picture.height}, {(DOCS / file).stat().st_size} bytes")


def take_page(page: Path, folder: Path) -> Image.Image:
    """A picture of the page that compares two folders, with the result of the first picture that differs."""
    browser = Browser(folder)
    try:
        browser.show(WIDTH, HEIGHT)
        browser.open(page.as_uri())
        browser.wait("document.body.dataset.ready")
        browser.drop("#slot-0", SAMPLES / "before", SAMPLES / "after")
        browser.wait("document.body.dataset.state === 'done'")
        browser.ask("document.querySelector('footer').hidden = true")
        browser.screenshot(folder / "page.png")
    finally:
        browser.end()
    return without_empty(Image.open(folder / "page.png").convert("RGB"))


def main() -> None:
    parser = argparse.ArgumentParser(description=__doc__)
    parser.add_argument(
        "command", nargs="?", type=Path, default=DOCS.parent / "exifnorm-pictures", help="exifnorm-pictures; by default this clone's"
    )
    parser.add_argument("page", nargs="?", type=Path, default=DOCS / "exifnorm.html", help="by default docs/exifnorm.html")
    parser.add_argument(
        "--check", action="store_true", help="take none: say, by docs/screenshots.txt, whether what they show has changed since"
    )
    arguments = parser.parse_args()
    if arguments.check:
        check()
        return
    with tempfile.TemporaryDirectory() as name:
        keep(take_page(arguments.page, Path(name)), "page.png")
        page = report(str(arguments.command.resolve()), Path(name))
        for file, titles in PICTURES.items():
            keep(take(only(page, titles), Path(name)), file)
    RECORD.write_text(sources(), encoding="utf-8")


if __name__ == "__main__":
    main()
