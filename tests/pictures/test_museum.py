"""Every command with every option over the made museum: what it prints is in golden/museum/COMMAND.txt, which a reviewer reads."""

import argparse
import collections
import contextlib
import html
import os
import re
import shlex
import shutil
import sqlite3

import pytest
from exifnorm_pictures.catalogue.store import VERSION
from exifnorm_pictures.cli import parser
from museum import done, run
from studio import needs, without_own_script
from test_report import Text

pytestmark = pytest.mark.xdist_group("museum")

RULES = """# the museum's
every picture needs creator, copyright
copyright is "Museum of Salt"
title like "Salt *" in desk/
position never in work/
keywords one of clay, bowl
caption at most 100 characters
date created not after 2025-12-31
creator is "Anna Moor" except texts/
"""
# The first bytes of a catalogue (SQLite's documentation, 1.3): its version, and which program's it is
HEADER = "SQLite format 3\0".ljust(60, "\0") + "\0\0\0{}\0\0\0\0{}" + 28 * "\0"
LISTS = {
    "earlier.catalogue": HEADER.format(chr(VERSION - 1), "EXNP"),
    "later.catalogue": HEADER.format(chr(VERSION + 1), "EXNP"),
    "other.catalogue": HEADER.format(chr(VERSION), "EXNQ"),
    "text.catalogue": HEADER.format(chr(VERSION), "EXNP").replace("3\0", "3 "),
    "text.sqlite": HEADER.format(chr(VERSION), "EXNT").replace("3\0", "3 "),
    "cut.catalogue": HEADER.format(chr(VERSION), "EXNP")[:70],
    "words.catalogue": "words",
    "empty.catalogue": "",
    "rules": RULES,
    "commented": "title is #5\nevery picture needs # title\n",
    "undamaged": "damage never\n",
    "but-creator": "labels agree except creator\n",
    "creators": "creator agree\n",
    "some": "archive/desk\narchive/work/pages.tif\n",
    "catalogues": "few\n",
    "doubled": "one/refused/Doubled.jpg\n",
    "fields": "# not these\nIFD0:Artist\nIPTC:Keywords\n",
    "twice/manifest-sha256.txt": f"{'0' * 64}  data/1.jpg\n{'1' * 64}  data/1.jpg\n",
    "outside/manifest-sha256.txt": f"{'0' * 64}  data/1.jpg\n{'1' * 64}  data/../1.jpg\n",
}
# Text files that commands write
WRITTEN = "undo.args sums sums.hashdeep sack/manifest state letter.html".split()

# What is called, one line each, in the folder that the fixture `museum` describes, each time as it was made; an indented line goes on with
# what the calls before it left. No line is there twice in a command.
CALLS = {
    "index": """
        index archive --catalogue new --jobs 1
            index archive --catalogue new --json --quiet
            index archive --catalogue new --again --exclude 'odd' --exclude '*.tif' --keep-old older --pixels --quiet
        index archive/sidecars archive/notes --catalogue two --sidecars --maker-notes --whole --limit 50 --debug --jobs 1
        index --files-from some --catalogue three --jobs 1
            index --files-from some0 -0 --catalogue three --json
        index nowhere --catalogue four
        index archive/states archive/notes --catalogue states --jobs 1 --quiet
            index archive/states archive/notes --catalogue states --whole --maker-notes --quiet
        index one/desk --catalogue few --keep-old nowhere/old --jobs 1 --quiet
        index one/desk --catalogue few --exclude none --exclude 'nothing*' --jobs 1 --quiet
        index one/desk --catalogue words.catalogue
        index one
        index archive/copies archive/refused --catalogue "my catalogue's" --jobs 1
        index one few
        index one --catalogue new --scheduler tcp://127.0.0.1:9
        index one --catalogue new -0
        index one/desk --catalogue earlier.catalogue
        index one/desk --catalogue cut.catalogue
        index archive/work archive/texts --shards parts --jobs 1 --quiet
            list parts --where 'title = "A vase"'
            same parts --kind iptc
            changed parts parts
        index archive/copies archive/desk --shards parts3 --jobs 1 --quiet
            index archive/copies archive/nowhere --shards parts3 --jobs 1 --quiet
            index archive/copies/first.jpg --shards parts3 --quiet
            index . --shards parts3 --quiet
            index archive --shards parts3 --quiet
            index archive/copies --shards parts3 --exclude 'first*' --jobs 1
        index archive --shards one --quiet
        index archive --shards few --quiet
        index archive/contradictions archive/sidecars --shards parts4 --jobs 1 --sidecars --pixels --quiet
            index archive/contradictions archive/sidecars archive/rare --shards parts4 --jobs 1
            list parts4 --with position --csv
    """,
    "catalogue merge": """
        catalogue merge few plain --catalogue all
            catalogue merge few plain --catalogue all2 --json --debug
            same all --no-look --kind iptc
        catalogue merge few full --catalogue all3
        index one/notes --catalogue other --sidecars --pixels --maker-notes --jobs 1 --quiet
            index archive/notes --catalogue another --sidecars --pixels --maker-notes --jobs 1 --quiet
            catalogue merge other another --catalogue all4
    """,
    "catalogue forget": """
        catalogue forget plain archive/desk archive/refused
            catalogue forget plain archive/work --json --debug
        catalogue forget full --files-from some
            catalogue forget full --files-from some0 -0 --json
        catalogue forget full nowhere
        catalogue forget one/nowhere one/other
        catalogue forget one few
    """,
    "catalogue relocate": """
        catalogue relocate few one/desk moved
            catalogue relocate few moved one/desk --json --debug
        catalogue relocate few nowhere one
        catalogue relocate few one/desk nowhere
        catalogue relocate one archive
    """,
    "verify": """
        verify full --quiet
        verify full.before archive --quiet --jobs 1
        verify full.before archive --quiet --json
        verify full.before archive --quiet --list damaged --state state
        verify full --quiet --evidence sums.bagit --form bagit --json
        index one/odd --catalogue odd --pixels --jobs 1 --quiet
            verify odd --quiet --evidence sums --debug --limit 50
            verify odd --quiet --evidence sums.hashdeep --form hashdeep
        verify few --quiet --evidence sums.hashdeep --form hashdeep
        index sack/data --catalogue bagged --pixels --jobs 1 --quiet
            verify bagged --quiet --evidence sack/manifest --form bagit
        verify --bag bag --quiet
        verify --bag twice --quiet
        verify --bag outside --quiet
        verify --bag one --quiet
        verify full --files-from some --quiet
        verify full --files-from some0 -0 --quiet
        verify plain --quiet
        verify one
        verify one few
    """,
    "same": """
        same plain
        same full --kind file
        same full --kind pixels --columns title,creator
        same full --kind pixels --differ title
        same full --kind exif --least-fields 3
        same full --kind iptc --csv
        same full --kind xmp --json
        same full --no-look --ignore IFD0:Artist --ignore @fields
        same full --only 'IFD0:*' --equal-numbers
        same full --only @fields --json --debug
        same full --files-from some
        same full --files-from some0 -0 --csv --columns title
        same full --xlsx same.xlsx
        index archive/formats --catalogue formats --pixels --jobs 1 --quiet
            same formats --kind pixels
        index edits/alike --catalogue alike --pixels --jobs 1 --quiet
            same alike --kind pixels
        same archive
        same
        same nowhere
        same ''
        same earlier.catalogue
        same later.catalogue
        same other.catalogue
        same cut.catalogue
        same text.catalogue
        same words.catalogue
        same empty.catalogue
        same full --files-from some0
    """,
    "changed": """
        changed before plain
        changed full.before full
        changed full.before full --each
        changed full.before full --exact --only '*:Artist'
        changed full.before full --all --ignore @fields --ignore 'XMP-*'
        changed full.before full --csv
        changed full.before full --only 'IPTC:*'
        changed full.before full --only IFD0:ModifyDate
        changed full.before full --ignore 'IPTC:*' --ignore 'XMP*'
        changed full.before full --json --no-programs
        changed full.before full --only caption --only title
        changed full.before full --only @fields
        changed before full
        changed one archive --jobs 1 --quiet
        changed one archive --jobs 2 --quiet --sidecars --pixels --whole --limit 50
        changed one archive --quiet --equal-numbers --debug --files-from some
        changed one archive --quiet --files-from some0 -0
        changed before plain --xlsx changed.xlsx
        changed full.before full --undo undo.args --only creator --only title --only caption
        changed one/desk archive/copies --match stem
        changed edits/before edits/after --jobs 1 --quiet
        changed edits/before edits/after --jobs 1 --quiet --each
        changed edits/before edits/after --jobs 1 --quiet --json
        changed edits/before edits/after --jobs 1 --quiet --csv --ignore 'IFD0:*'
        changed edits/before edits/after --jobs 1 --quiet --edit 2 --edit 3
        changed edits/before edits/after --jobs 1 --quiet --undo undo.args
        index archive/states --catalogue first --jobs 1 --quiet
            index archive/states --catalogue second --jobs 1 --quiet
            changed first second
        changed edits/row edits/numbered-anew --jobs 1 --quiet
        changed edits/row edits/numbered-anew --jobs 1 --quiet --each
        changed edits/masters edits/web --match stem --jobs 1 --quiet
        changed edits/masters edits/web --match stem --jobs 1 --quiet --csv
        changed edits/web edits/masters --match stem --jobs 1 --quiet --json
        changed edits/values edits/later --jobs 1 --quiet --each
        changed edits/values edits/later --jobs 1 --quiet --equal-numbers --only 'GPS*' --only ISO
        changed full.before full --edit 2
        changed full.before full --edit 99 --json
        changed --picture archive/work/retitled.jpg full.before full
        changed --picture archive/drawer/1.jpg full.before full
        changed --picture archive/work/published.jpg full.before full --json --debug
        changed --picture archive/nowhere.jpg full.before full
        changed one/desk/1.jpg one/desk/2.jpg
        changed full.before full --pixels
        changed full.before full --whole
        changed before plain --sidecars
        changed one plain --sidecars
    """,
    "compare": """
        compare one/work/retitled.jpg archive/work/retitled.jpg
        compare one/work/retitled.jpg archive/work/retitled.jpg --exact
        compare one/work/retitled.jpg archive/work/retitled.jpg --csv --limit 50
        compare one/work/retitled.jpg archive/work/retitled.jpg --json --whole
        compare one/work/retitled.jpg archive/work/retitled.jpg --only title
        compare one/work/retitled.jpg archive/work/retitled.jpg --only Exif.Image.Artist --only XMP:Title
        compare one/work/retitled.jpg archive/work/retitled.jpg --ignore 'IPTC:*' --ignore @fields
        compare one/work/retitled.jpg archive/work/retitled.jpg --only @fields --equal-numbers
        compare one/notes/note.jpg one/notes/moved.jpg
        compare one/notes/note.jpg one/notes/moved.jpg --no-programs
        compare one/notes/note.jpg one/notes/owner.jpg --debug
        compare one/notes/note.jpg one/notes/owner.jpg --json
        compare one/copies/order.jpg one/copies/other-order.jpg
        compare one/copies/first.jpg one/copies/other-picture.jpg
        compare one/work/gets-cut.jpg archive/work/gets-cut.jpg
        compare archive/work/gets-cut.jpg one/work/gets-cut.jpg
        compare one/refused/Overlap.jpg one/refused/Unsorted.jpg
        compare one/states/trailer.jpg archive/states/trailer.jpg
        compare one/contradictions/place.jpg one/contradictions/south.jpg
        compare edits/before/index.jpg edits/after/index.jpg
        compare edits/before/note.tif edits/after/note.tif
        compare one/work/retitled.jpg archive/work/retitled.jpg --xlsx compared.xlsx
        compare archive/work/touched.jpg archive/work/touched.jpg
        compare one/desk one/work
        compare full plain
        compare one/desk/1.jpg few
        compare one/desk/1.jpg one/nowhere.jpg
        compare one/copies/lost.jpg one/desk/1.jpg
        compare one/desk/1.jpg one/desk
    """,
    "list": """
        list few
        list plain --columns title,creator,keywords --where 'keywords has clay'
        list plain --without copyright
        list full --with position --columns position
        list full --with serial --without title
        list full --where 'title = "A vase" or creator like "Zo*"' --columns title,creator --csv
        list full --where 'Rating >= 4' --json
        list full --count creator
        list full --count title --json
        list full --geojson
        list full --with damage --columns damage
        list full --with position -0
        list full --since 2026-01-03
        list full --since 2026-01-04
        list archive --with position --sidecars --jobs 1 --quiet --whole --limit 50 --debug
        list full --where 'creatr = x'
        list full --where 'caption like "*zeil"'
        list few --where 'date created < today and not date created = today'
        list few --where 'date created has 2025-03'
        list plain --where 'without title and not without creator'
        list plain --columns Sharpnes
        list full --xlsx list.xlsx
        list
        index edits/values edits/later --catalogue pages --jobs 1 --sidecars --quiet
            list pages --where 'GPSLatitude > 50 or GPSLatitude < -30' --columns GPS:GPSLatitude,position
            list pages --where 'ExposureTime = 1/125 and not (ISO = 200 or FNumber > 999)' --columns ExposureTime,Orientation --csv
            list pages --where 'Orientation = upright or Flash like "fired*"' --columns IFD0:Orientation,Flash --json
            list pages --where 'Exif.Photo.LightSource = daylight or XMP:Rating <= -1' --columns XMP-xmp:Rating
            list pages --where 'DateTimeOriginal >= 2008-07 and date created < 2009' --columns 'date created'
            list pages --where 'date created = impossible or creator is Otto or keywords one of salt, Otto' --columns creator,keywords
            list pages --where 'GPSTimeStamp = 10:38:11 and dc:source has 6' --columns GPSTimeStamp
            list pages --where 'GPSTimeStamp = 10:38 and GPSTimeStamp >= "23:59 UTC"' --columns GPSTimeStamp
            list pages --where 'title like "Z?rich" and copyright != Otto or position = "51.5, 33.20"' --columns title,copyright
            list pages --where '((title = a or (title = b' --columns title
            list pages --where 'title == a'
            list pages --where 'title equals'
            list pages --where 'title = "a'
            list pages --where 'ISO = many'
            list pages --count LightSource
            list pages --geojson --columns creator
            check pages --all
    """,
    "check": """
        check --rules rules plain
        check few --rules rules --by-picture
        check --rules rules few --csv
        check --rules rules archive/work --json --jobs 1 --quiet
        check --rules rules archive/work --jobs 1 --quiet --sidecars --whole --limit 50 --debug
        check --rules rules plain --xlsx check.xlsx
        check --rules some plain
        check --rules commented few
        check --rules undamaged archive/states --jobs 1 --quiet
        check full
        check few
        check full --all
        check full --rules but-creator
        check full --rules creators --csv
        check archive/contradictions archive/texts --json --limit 50 --whole --debug
        check edits/spoiled --all --jobs 1 --quiet
        check edits/spoiled --json --jobs 1 --quiet
        check --files-from some
        check --files-from some0 -0 --all
        check full --xlsx conflicts.xlsx
        check --rules rules
        check one/desk few --whole
    """,
    "nightly": """
        nightly archive --catalogue night --rules rules --jobs 1
            nightly archive --rules rules --catalogue night --jobs 1
            nightly nowhere --catalogue night
        nightly archive --catalogue night2 --exclude odd --maker-notes --sidecars --pixels --whole --limit 50 --debug --json
        nightly archive --catalogue before --html letter.html --jobs 1 --json
        nightly archive --catalogue full.before --html letter/ --jobs 1 --nights 1
        nightly archive --catalogue full.before --html letter.html --rules rules --jobs 1
        nightly archive --catalogue full.before --jobs 1 --json
        nightly one new
        nightly nowhere
        nightly nowhere new
        nightly 'a b' few
    """,
    "show": """
        show archive/texts/*.jpg
        show archive/contradictions/place.jpg archive/sidecars/raw.nef --exact
        show archive/work/pages.tif archive/formats/heic.heic --csv --limit 50 --whole
        show archive/states/cut-in-its-head.jpg --csv
        show archive/work/retitled.jpg archive/texts/structures.jpg --json --debug
        show --files-from some
        show --files-from some0 -0 --csv
        show one/desk/1.jpg --files-from some0 -0
        show archive/states/*
        show few
        show archive/rare/* --exact
        show archive/work/retitled.jpg --xlsx shown.xlsx
        show --captions archive/texts/*.jpg archive/contradictions/*.jpg
        show --captions archive/states/* archive/odd/*
        show --captions archive/work/*.jpg --csv
        show --captions archive/contradictions/place.jpg archive/texts/languages.jpg --json --limit 50 --whole --debug
        show --captions plain --csv
        show --captions few
        show --captions one/desk few --whole
        show --captions --files-from catalogues --whole
        show --captions --files-from some0 -0
        show --captions --files-from some --csv
        show --captions archive/work/retitled.jpg --xlsx captions.xlsx
        show edits/values/pages.tif --exact
        show --captions edits/values/pages.tif
    """,
    "explain": """
        explain one/refused/Overlap.jpg one/refused/NoMarker.jpg one/refused/Loop.jpg
        explain archive/states/* --limit 50 --whole
        explain archive/states/packet-broken.png archive/refused/Overlap.jpg archive/states/cut-in-its-head.jpg --json --debug
        explain archive/states/cut-in-its-picture.jpg --json
        explain one/refused/* --no-programs
            explain one/refused/* archive/texts/languages.jpg --no-programs --json
        explain --files-from some
        explain --files-from some0 -0
        explain few
    """,
    "report": """
        report plain
        report full --since full.before --rules rules --html page.html --title 'The museum' --no-look --limit 50 --debug
        report full --since full.before --rules rules --html pages/ --link-to 'https://dam.example/{path}'
        report full --html page.html --ignore IFD0:Artist --ignore @fields
        report full --only @fields --equal-numbers --since full.before --html page.html --files-from some
        report full --files-from some0 -0 --html page.html --rules rules
        report few --html page.html
        index archive/refused --catalogue "my catalogue's" --jobs 1 --quiet
            report "my catalogue's" --html letter.html
        report --html page.html
        report few --html one
        report few --html some
        report few --html few
        report few --html link
        report few --html nowhere/page.html
        report few --html empty.catalogue
    """,
    "catalogue export": """
        catalogue export full tables.sqlite --quiet
        catalogue export few few.sqlite --quiet
            catalogue export few few.sqlite --json
            same few.sqlite
        catalogue export plain plain.sqlite --json --no-look --limit 50 --debug --quiet
        catalogue export full some.sqlite --files-from some --quiet
        catalogue export full some0.sqlite --files-from some0 -0 --quiet
        catalogue export tables
        catalogue export few tables.csv
        catalogue export few few
        catalogue export few link
        catalogue export few one
        catalogue export few some
        catalogue export few plain
        catalogue export few text.sqlite
        catalogue export few nowhere/tables
        catalogue export few tables.XLSX
        catalogue export few tables.json
        catalogue export few tables.csv.sqlite --quiet
    """,
    "mend": """
        mend archive/states/two-blocks.jpg mended.jpg
        mend full mended --lossless
        mend one/refused/Doubled.jpg mended.jpg3 --lossless --json --limit 50 --debug
        mend --files-from some mended --json
            mend --files-from some0 -0 mended
        mend one/refused mended4
        mend one/refused/Doubled.jpg mended.jpg
        mend archive/states/cut-in-its-picture.jpg mended5.jpg
        mend archive/states/cut-in-its-head.jpg mended6.jpg --json
        mend one mended7
        mend --files-from doubled mended
        index edits/values --catalogue values --jobs 1 --quiet
            mend values mended --json
            index mended --catalogue mended.catalogue --jobs 1
        mend edits/values/unsorted.webp mended.webp --no-programs
            show mended.webp --exact --no-programs
        explain edits/values/two.jpg --no-programs
    """,
}
# What a page runs, or loads from elsewhere, or leads to
OUTSIDE = re.compile(r"<script|<link|src=.(?!data:)|href=.(?!file:///|#|\.{1,2}/|data:image/)")
# Options that no call can have here, and why
ELSEWHERE = {"--scheduler": "needs a cluster: test_shard_tasks.py", "--help": "help.txt has it", "--no-programs": "test_options.py"}


def chains_of(command):
    """The calls of a command, each with those that go on with it."""
    chains = []
    for line in CALLS[command].strip("\n").splitlines():
        chains += [[]] if not line.startswith(" " * 12) else []
        chains[-1] += [line.strip()] if line.strip() else []
    return [it for it in chains if it]


def lines_of(command):
    return [line for chain in chains_of(command) for line in chain]


def written(folder, line):
    """The lines of the text files that a call writes."""
    for path in (folder / name for name in WRITTEN if name in line.split()):
        if path.exists():
            text = path.read_text(encoding="utf-8", errors="backslashreplace")
            yield from (f"({path.name}) {it}" for it in (texts_of_page(text) if path.suffix == ".html" else text.splitlines()))


def texts_of_page(text):
    """The texts of a page, in its order, but for the version of the library that is tested."""
    body = re.sub(r"(?s)<(script|style).*?</\1>", "", text)
    texts = (" ".join(html.unescape(it).split()) for it in re.split(r"<[^>]+>", body))
    return [it for it in texts if it and not it.startswith("Results of exifnorm")]


def transcript(line, folder):
    """A call with what it prints and its status."""
    status, printed, messages = run(line, folder)
    progress = re.compile(r"[\d,]+ of (at least )?[\d,]+ pictures")
    messages = [f"(stderr) {message}" for message in messages if "--quiet" in line or not progress.match(message)]
    lines = [f"$ exifnorm-pictures {line}", *printed, *messages, f"(status {status})", *written(folder, line), ""]
    text = "\n".join(lines).replace(str(folder), "F").replace(os.fsencode(folder).hex(), "F".encode().hex())
    text = re.sub(r', "unproved": \["[^"]*"\]', "", text)  # of a quick build
    return text.replace("\0", "\\0\n")


@needs("exiftool", "exiv2", "PIL")
@pytest.mark.parametrize("command, chain", [pytest.param(it, chain, id=chain[0]) for it in CALLS for chain in chains_of(it)])
def test_what_a_command_prints(command, chain, museum, golden):
    for name, text in LISTS.items():
        (museum / name).parent.mkdir(exist_ok=True)
        (museum / name).write_text(text, encoding="utf-8")
    (museum / "some0").write_text(LISTS["some"].replace("\n", "\0"), encoding="utf-8")
    shutil.copytree("one/desk", "moved", dirs_exist_ok=True)
    shutil.copytree("bag", "sack", dirs_exist_ok=True)
    os.symlink("few", "link")
    os.makedirs("mended", exist_ok=True)
    heads = [f"$ exifnorm-pictures {line}\n" for line in lines_of(command)]
    for line in chain:
        golden.part(f"museum/{command.replace(' ', '-')}.txt", transcript(line, museum), heads)


def cell(column, value):
    """A value; of a file's bytes, which zlib compresses otherwise on other machines, whether it is there."""
    return "" if value is None else "there" if column in ("size", "sha256", "coded_picture") else ascii(value).strip("'")


@needs("exiftool", "exiv2")
def test_all_rows_of_pictures_and_blocks(museum, golden):
    """What is known of each picture and block: its state, cause, place, repair and what was not read. Of fields and texts each row once."""
    run("catalogue export full rows --quiet", museum)
    with contextlib.closing(sqlite3.connect("rows")) as base:
        lines = []
        for table in ("pictures", "blocks"):
            rows = base.execute(f"SELECT * FROM {table}")
            names = [column[0] for column in rows.description]
            lines += [f"{table}: {', '.join(names)}"]
            lines += sorted("  " + ", ".join(map(cell, names, row)) for row in rows)
        indexes = base.execute("SELECT sql FROM sqlite_master WHERE type = 'index' ORDER BY sql")
        lines += ["indexes", *(f"  {sql}" for sql, in indexes if sql)]
        golden("museum/rows.txt", "\n".join(lines).replace(str(museum), "F") + "\n")
        lines = []
        for table in ("fields", "captions", "maker_notes", "conflicts", "not_read", "groups"):
            rows = base.execute(f"SELECT * FROM {table}")
            names = [column[0] for column in rows.description]
            kept = [at for at, name in enumerate(names) if name not in ("picture", "block", "number", "digest")]
            lines += [
                f"{table}: {', '.join(names[at] for at in kept)}",
                *sorted({"  " + ", ".join(cell("", row[at]) for at in kept) for row in rows}),
            ]
        golden("museum/rows-of-fields.txt", "\n".join(lines).replace(str(museum), "F") + "\n")


@needs("exiftool", "exiv2")
def test_texts_that_a_catalogue_keeps(museum, golden):
    """What is derived of a picture and kept: if it is derived otherwise, earlier catalogues answer wrongly, so they need another version, which
    the name of the file has."""
    run("list full --with title", museum)  # the first question derives the texts
    lines = []
    with contextlib.closing(sqlite3.connect("full")) as base:
        for columns in ("label, text, folded FROM texts", "what FROM not_read"):
            rows = base.execute(f"SELECT path, {columns} JOIN pictures ON id = picture ORDER BY path, number")
            lines += [ascii((os.path.relpath(os.fsdecode(path), museum / "archive"), *rest)) for path, *rest in rows]
    golden(f"museum/texts-of-version-{VERSION}.txt", "\n".join(lines) + "\n")


def put_edited(folder):
    """A folder with the pictures that are edited by themselves, and catalogues of it then and now."""
    for night, words in (("before", ""), ("after", "--keep-old edited.before")):
        shutil.rmtree("edited", ignore_errors=True)
        shutil.copytree(f"edits/{night}/words", "edited")
        done(f"index edited --catalogue edited.now --pixels --jobs 1 --quiet {words}", folder)


@needs("exiftool", "exiv2", "PIL")
@pytest.mark.parametrize("catalogues, name", [("full --since full.before", "page"), ("edited.now --since edited.before", "page-of-edits")])
def test_what_a_page_says(catalogues, name, museum, golden):
    """The texts of a report: its contents with their counts, and each list."""
    (museum / "rules").write_text(RULES, encoding="utf-8")
    put_edited(museum)
    run(f"report {catalogues} --rules rules --html page.html --title 'One & two'", museum)
    source = (museum / "page.html").read_text(encoding="utf-8")
    page = Text(source)
    assert "<h1>One &amp; two</h1>" in source
    assert (page.wrong, page.open, OUTSIDE.findall(without_own_script(source))) == ([], [], [])
    lines = []
    for part, texts in {"contents": page.found["nav"], **page.sections, "footer": page.found["footer"]}.items():
        lines += ["", f"[{part}]", *filter(None, (" ".join(it.split()) for it in " ".join(texts).split("\n")))] if part else []
    lines += ["", "[classes, which the colours are for]"]
    lines += [f"{it}: {count}" for it, count in sorted(collections.Counter(re.findall(r' class="([^"]*)"', source)).items())]
    golden(f"museum/{name}.txt", "\n".join(lines[1:]).replace(str(museum), "F") + "\n")


def options_of(command):
    """The long names of a command's options, or the short ones of those that have no long one."""
    actions = [it for it in parser.parsers()[1][command]._actions if it.option_strings]
    return {it.option_strings[-1] for it in actions if not isinstance(it, argparse._HelpAction)}


def test_every_option_of_every_command_is_called():
    lacking = {}
    for command in parser.parsers()[1]:
        words = {word.partition("=")[0] for line in lines_of(command) for word in shlex.split(line)} if command in CALLS else set()
        lacking[command] = {
            it for it in options_of(command) if it not in words and it not in ELSEWHERE and not (it == "--null" and "-0" in words)
        }
    assert {command: names for command, names in lacking.items() if names} == {}, "no call of CALLS has these options"
