"""What commands print of the made museum when a limit is small: golden/museum/limits.txt has the lines that differ. And sizes of which no answer may
depend: how many rows are read, written or asked for at once."""

import difflib
import re
import shutil

import pytest
import test_museum
from museum import CATALOGUES, run
from studio import needs
from test_museum import LISTS, texts_of_page

pytestmark = pytest.mark.xdist_group("museum")

# Limits of what is printed, counted or looked at: the module, its constant, a value, and a call in which it matters
LIMITS = """
    cli.changed_tables.EDITS 1: changed edits/before/words edits/after/words --jobs 1 --quiet
    cli.changed_tables.LINES 3: changed edits/before/words edits/after/words --jobs 1 --quiet
    cli.changed_tables.LONGEST 12: changed edits/before/words edits/after/words --jobs 1 --quiet
    cli.commands.check.LONGEST 9: check full
    cli.commands.nightly.EDITS 3: nightly archive --catalogue before --jobs 1
    cli.commands.nightly.OF_KIND 2: nightly archive --catalogue before --jobs 1
    cli.commands.show._COLUMN 9: show archive/work/retitled.jpg
    cli.commands.verify.SHOWN 2: verify full.before archive --quiet
    cli.names.SHOWN 2: same full --files-from unknown
    cli.names._LONGEST 20: same full --only @fields
    cli.output.MOST_NAMED 2: list full --with position
    comparison.changed.edit_groups.LONGEST 12: changed edits/before/words edits/after/words --jobs 1 --quiet
    comparison.changed.edit_groups.MOST_PLACES 1: changed edits/before/words edits/after/words --jobs 1 --quiet
    comparison.changed.edit_groups.MOST_STEPS 2: changed edits/before/words edits/after/words --jobs 1 --quiet
    comparison.changed.edit_groups.NAMES 2: changed edits/before/words edits/after/words --jobs 1 --quiet
    comparison.changed.edit_groups.OWN 2: changed edits/before/words edits/after/words --jobs 1 --quiet
    comparison.changed.edits.AROUND 9: changed edits/before/words edits/after/words --jobs 1 --quiet
    comparison.changed.edits.MOST 1: changed edits/before/words edits/after/words --jobs 1 --quiet
    comparison.changed.edits.STEPS 1: changed edits/before/words edits/after/words --jobs 1 --quiet
    comparison.changed.summary.LONGEST_NAMES 20: changed edits/before/words edits/after/words --jobs 1 --quiet
    comparison.changed.summary.MOST_NAMES 1: changed edits/before/words edits/after/words --jobs 1 --quiet
    comparison.nightly.news.SHOWN 1: nightly archive --catalogue before --jobs 1
    extract.formats.tiff.DEEPEST 0: show archive/formats/camera.nef
    extract.sidecars.MOST 0: list archive/sidecars --with rating --sidecars --jobs 1 --quiet
    fields.listing.LONGEST_BYTES 2: show edits/values/pages.tif --exact
    fields.listing.LONGEST_NUMBERS 4: show edits/values/pages.tif --exact
    fields.listing.SHOWN_CHARACTERS 40: show archive/work/retitled.jpg archive/texts/structures.jpg
    fields.listing.SHOWN_FIELDS 4: compare one/work/retitled.jpg archive/work/retitled.jpg
    fields.listing.SHOWN_FIELDS 4: show archive/work/retitled.jpg archive/texts/structures.jpg
    fields.listing.SHOWN_FIELDS 4: show archive/work/retitled.jpg archive/texts/structures.jpg --csv
    fields.listing.SHOWN_FIELDS 4: show archive/work/retitled.jpg archive/texts/structures.jpg --json
    fields.questions.DEEPEST 1: list full --where 'not not title = "A vase"'
    fields.questions.LONGEST 20: list full --where 'title = "A vase" or creator like "Zo*"'
    fields.questions.LONGEST_PATTERN 2: list full --where 'title = "A vase" or creator like "Zo*"'
    fields.questions.MOST 1: list full --where 'title = "A vase" or creator like "Zo*"'
    fields.rules.LONGEST_LINE 30: check few --rules rules
    fields.rules.MOST_RULES 3: check few --rules rules
    fields.rules._MOST_MISTAKES 0: check --rules some plain
    fields.tokens._SHOWN 5: check --rules some plain
    fields.xmp_properties.LONGEST_STRUCTURE 9: show archive/texts/structures.jpg --exact
    judge.repairs.MOST 0: explain one/refused/Overlap.jpg one/refused/Loop.jpg --no-programs
    judge.repairs.SHORT 1: explain one/rare/shared-by-nine.jpg --no-programs
    report.book.MOST_OF_A_PAGE 3: report few --html page.html
    report.book.SHORT 1: report few --html pages/
    report.changes.GROUPS 2: report full --since full.before --html page.html
    report.changes.SHEET 1: report full --since full.before --html page.html
    report.contents.CHARACTERS 90: report few --html pages/
    report.contents.PAGE 2: report few --html pages/
    report.contents.PAGE 1: report few --html page.html
    report.lists.MOST_PARTS 2: report full --html page.html
    report.shrinking.LARGEST 200: report few --html page.html
    scan.moved.MOST 0: changed before plain
"""
# Calls on a terminal, after the number of its columns
TERMINAL = """
    30 changed edits/before/words edits/after/words --jobs 1 --quiet
    44 changed edits/before/words edits/after/words --jobs 1 --quiet --each
    44 compare one/work/retitled.jpg archive/work/retitled.jpg
    70 compare edits/before/words/caption-both.jpg edits/after/words/caption-both.jpg
    30 index archive/refused/Loop.jpg --catalogue new --jobs 1 --quiet
    70 same few
    30 show archive/texts/languages.jpg archive/texts/long.jpg
    70 show --captions archive/contradictions/creator.jpg
"""
# Sizes of what is read, written or asked for at once, and calls that must print the same whatever they are
SIZES = {
    "catalogue.asking._AT_ONCE": 2,
    "catalogue.asking._FEW": 1,
    "catalogue.kept_texts.AT_ONCE": 2,
    "catalogue.store._AT_ONCE": 2,
    "catalogue.store._FORGOTTEN": 2,
    "comparison.same.counted._BATCH": 2,
    "comparison.verified.CHUNK": 7,
    "comparison.verified.OTHERS": 2,
    "comparison.verified._AT_ONCE": 2,
    "extract.formats.streams.CHUNK": 7,
    "extract.formats.streams.PIECE": 7,
    "fields.packing._MIDDLE": 9,
    "fields.packing._SHORT": 9,
    "fields.packing._SHORTEST": 9,
    "files.folders._AT_ONCE": 2,
    "files.folders._PIECE": 7,
    "files.opening.PIECE": 7,
    "model.found.FEW": 0,
    "refusals.mend._PIECE": 7,
    "report.small_pictures._MOST_KNOWN": 1,
    "scan.index.AHEAD": 2,
    "scan.index.BATCH": 2,
    "scan.index.GARBAGE": 9,
    "scan.relocating._AT_ONCE": 2,
    "scan.walk._CHUNK": 7,
    "xmp.reading.SMALL": 0,
}
AT_ONCE = """
    catalogue export few few.sqlite --quiet
    catalogue export full some0.sqlite --files-from some0 -0 --quiet
    catalogue forget plain archive/desk archive/refused
    catalogue forget full --files-from some
    catalogue merge few plain --catalogue all
    catalogue relocate few one/desk moved
    changed full.before full
    check full
    index --files-from some --catalogue three --jobs 1
    index one/desk --catalogue few --keep-old nowhere/old --jobs 1 --quiet
    list full --count creator
    list full --where 'caption like "*zeil"'
    list full --where 'title = "A vase" or creator like "Zo*"' --columns title,creator --csv
    mend --files-from some mended --json
    mend --files-from doubled mended
    report few --html page.html
    same full --kind pixels --columns title,creator
    show archive/rare/* --exact
    verify --bag bag --quiet
    verify full --quiet
    verify full.before archive --quiet --json
"""


def rows_of(table):
    return [it.strip() for it in table.strip().splitlines()]


def page_lines(path):
    """The texts of a page, or of each page of a folder."""
    pages = sorted(path.rglob("*.html")) if path.is_dir() else [path] if path.exists() else []
    for page in pages:
        yield from (f"[{page.name}] {it}" for it in texts_of_page(page.read_text(encoding="utf-8")))


def printed(line, folder):
    """What a command prints, or writes to its page."""
    status, lines, messages = run(line, folder)
    pages = [it for name in ("page.html", "pages") for it in page_lines(folder / name)]
    return [it.replace(str(folder), "F") for it in (*lines, *messages, *pages, f"(status {status})")]


def made_anew(folder):
    """The catalogues as they were, and no page."""
    for name in CATALOGUES:
        shutil.copy(folder / f".{name}", folder / name)
    shutil.rmtree(folder / "pages", ignore_errors=True)
    (folder / "page.html").unlink(missing_ok=True)


@needs("exiftool", "PIL")
@pytest.mark.parametrize("limit", rows_of(LIMITS))
def test_what_a_limit_changes(limit, museum, golden, monkeypatch):
    """The lines that are printed without the limit alone (-), and with it (+)."""
    name, value, line = re.fullmatch(r"(\S+) (\d+): (.*)", limit).groups()
    for file, text in {**LISTS, "unknown": "one/a\none/b\none/c\n"}.items():
        (museum / file).parent.mkdir(exist_ok=True)
        (museum / file).write_text(text, encoding="utf-8")
    freely = printed(line, museum)
    made_anew(museum)
    monkeypatch.setattr(f"exifnorm_pictures.{name}", int(value))
    limited = printed(line, museum)
    lines = [it for it in difflib.unified_diff(freely, limited, n=0, lineterm="") if not it.startswith(("---", "+++", "@@"))]
    assert lines, "the limit changes nothing"
    golden.part("museum/limits.txt", "\n".join([limit, *lines, ""]), [f"{it}\n" for it in rows_of(LIMITS)])


@needs("exiftool", "exiv2", "PIL")
@pytest.mark.parametrize("line", rows_of(AT_ONCE))
def test_nothing_depends_on_what_is_done_at_once(line, museum, golden, monkeypatch):
    """What is printed is what the golden files of the commands have."""
    for name, value in SIZES.items():
        monkeypatch.setattr(f"exifnorm_pictures.{name}", value)
    ((command, chain),) = [(it, chain) for it in test_museum.CALLS for chain in test_museum.chains_of(it) if chain[0] == line]
    test_museum.test_what_a_command_prints(command, chain, museum, golden)


@needs("exiftool")
@pytest.mark.parametrize("row", rows_of(TERMINAL))
def test_what_a_terminal_shows(row, museum, golden, monkeypatch):
    """Long lines are folded between words, texts stand in columns, and what changed has colours."""
    columns, line = row.split(" ", 1)
    monkeypatch.setenv("COLUMNS", columns)
    monkeypatch.setenv("TERM", "xterm")
    status, lines, messages = run(line, museum, is_terminal=True)
    text = "\n".join([row, *lines, *messages, f"(status {status})", ""]).replace("\x1b", "ESC").replace(str(museum), "F")
    golden.part("museum/terminal.txt", text, [f"{it}\n" for it in rows_of(TERMINAL)])
