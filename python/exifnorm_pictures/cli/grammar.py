"""The commands with their operands and options, and the words that help has for them.

Each line is an operand or an option: its names, its value, and behind two blanks its words. An operand has the name by which its command
knows it, and an option may have one behind a colon. Behind the value are its choices in braces, and what it is if it isn't given; then ?
for what may be left out, * for any number, + for one at least, and ! for an option that must be given. A line that begins with + stands for
the lines of `SHARED`, one that ends with a colon is a heading, and one that begins with blanks goes on with the words. An option without
words isn't in the help of its command: `help options` has it.
"""

from __future__ import annotations

import re

from exifnorm._named import NamedTuple

PIXELS, FILE = "pixels", "file"  # the kinds of groups with the same coded picture, and with the same bytes


class Command(NamedTuple):
    """A command."""

    name: str
    about: str
    example: str
    lines: str  # its operands and options
    row: str = ""  # of the table of --csv, if it has one
    more: str = ""  # that its help says of it
    statuses: str = ""  # below 3, and what they mean
    apart: str = ""  # options that go with none of the others behind a colon, and the reason behind two blanks


def joined(text: str) -> list[str]:
    """The lines of a text, each with those that go on with it.

    >>> joined("\\n--csv  a table\\n    for spreadsheets\\n--json\\n")
    ['--csv  a table for spreadsheets', '--json']
    """
    return re.sub(r"\n +", " ", text.strip()).split("\n")


SHARED = {
    "fields": """
fields that count (exifnorm-pictures help fields):
--ignore FIELD *  leave out this field, what fits a pattern, or those of @FILE
--only FIELD *    compare nothing but this field, what fits a pattern, or those of @FILE
--equal-numbers   count numbers as equal that are written in two ways, as 10/50 and 1/5
options:
""",
    "programs": """
--no-programs    start no other program, such as ExifTool
--limit SECONDS
""",
    "jobs": """
--jobs N
""",
    "whole": """
+programs
--whole
""",
    "quiet": """
--quiet  no progress on standard error
""",
    "many": """
+whole
+jobs
+quiet
""",
    "sidecars": """
--sidecars  read the XMP files beside a picture as its metadata: NAME.EXT.xmp, NAME.xmp
""",
    "pixels": """
+sidecars
--pixels  read the pictures too: changed then finds those that were replaced, damaged, or moved
          and edited, and verify and same --kind pixels need it
""",
    "exclude": """
--exclude PATTERN *  skip files and folders with this name or path below FOLDER; * and ? are
                     wildcards
""",
    "notes": """
--maker-notes  also keep the values that ExifTool reads from MakerNotes, so that changed doesn't
               need the earlier files
""",
    "look": """
--no-look  don't look at the files, as for a catalogue from another machine
""",
    "made": """
source CATALOGUE ?  an existing catalogue, unless --catalogue is given
""",
    "exact": """
--exact  each field with its tag, its type and its exact value
""",
}

DAILY = (
    Command(
        "index",
        "read new and changed pictures into a catalogue",
        "/archive --catalogue my.catalogue --exclude '*.tmp'",
        """
+made
names FOLDER *    a folder, with all below it, or a picture
--catalogue FILE  the catalogue; created if it is missing
--shards DIR      keep a catalogue for each folder directly in FOLDER, all in the folder DIR,
                  which other commands take as a catalogue
--keep-old OLD    first copy the catalogue to OLD, for changed and report --since
+exclude
--again           read all pictures, even if they haven't changed
+notes
+pixels
--scheduler tcp://HOST:PORT  with --shards: each worker of this Dask cluster reads folders, and
                  keeps their catalogues
+whole
+jobs
--quiet           print only the counts, without progress, pictures and next steps
""",
        statuses="""
0  the catalogue has what could be read, refused metadata too
2  a picture can't be read, or a program failed at it, and this is new since the last run; or a
   folder of --shards isn't there
""",
        apart="""
--shards: --catalogue
--shards: --keep-old  it copies one catalogue, so copy the folder of --shards before the run
--maker-notes: --no-programs
""",
    ),
    Command(
        "changed",
        "list what changed between two catalogues or folders, field by field",
        "last.catalogue archive.catalogue",
        """
before BEFORE       a catalogue or a folder
after AFTER         a catalogue or a folder
more CATALOGUE *    a further catalogue, with --picture
--picture PATH      what changed in one picture from catalogue to catalogue, even if it moved
--each              list each picture with its fields, in place of the summary
--all               as --each, with unchanged pictures too
--exact             as --each, with tags, types, exact values, and MakerNotes by ExifTool
--match stem{stem}  compare pictures whose names differ only in folders and endings
--edit N            list the pictures of a group, by the number that the summary gives it
--undo FILE         write what puts earlier texts of labels back, for exiftool -@ FILE
+fields
+pixels
+many
""",
        row="a row for each field that differs",
        statuses="""
0  nothing that was compared differs
1  metadata, a coded picture or another part of a file differ, or a picture was moved or is
   missing
2  something can't be wholly compared, or --undo can't put a text back
""",
        apart="""
--each: --csv --xlsx --json  tables and objects have that always
--exact: --csv --xlsx --json  tables and objects have that always
--match: --undo
--picture: --each --all --exact --match --edit --undo --no-programs --ignore --only --equal-numbers
    --sidecars --pixels --whole --jobs --csv --xlsx --files-from
""",
    ),
    Command(
        "same",
        "list groups of pictures with the same metadata, or the same picture",
        "archive.catalogue --csv > same.csv",
        """
source CATALOGUE  the catalogue
--kind {all,exif,iptc,xmp,pixels,file}=all  what must be the same: all metadata (the default), the
                  metadata of one kind, pixels (the coded picture, whatever its metadata), or
                  file (all bytes). pixels and file need index --pixels. A copy that was resized
                  or saved again has another coded picture
--columns LABELS  also print the texts of these labels for each picture, as in title,creator
--differ LABEL    list only groups whose pictures have different texts of this label, such as
                  one scan with two titles, and print the texts
--least-fields N  leave out groups of pictures with fewer fields
+look
+fields
""",
        row="a row for each picture of a group",
        statuses="""
0  the pictures of each group have the same metadata, or what --kind asks for, and no others may
2  a group rests on a repair, or others may have the same metadata, or a text of --columns isn't
   known
""",
    ),
    Command(
        "list",
        "list the pictures whose captions, names or rights fit a question",
        "my.catalogue --without credit --columns title",
        """
source CATALOGUE       a catalogue, or a folder to read
the question (exifnorm-pictures help questions); a picture must fit all:
--with:having LABEL *  pictures with a text of this label
--without LABEL *      pictures without one
--where QUESTION *     pictures that fit a question
--since DAY            pictures that a run of index found new or changed since this day, as
                       2026-03-31 or '2026-03-31 14:30'
options:
--columns LABELS       also print the texts of these labels, as in title,creator; all are those
                       of show --captions
--count LABEL          list the texts of this label in place of pictures: how many pictures have
                       each, and which texts are spelled alike
-0, --null             print only the names, each with NUL after it, as for xargs -0
--geojson              print the pictures with a position as one GeoJSON object, for a map
+sidecars
+many
""",
        row="a row for each picture",
        statuses="""
0  of each picture it is known whether it fits, even if none does
2  a picture that wasn't wholly read may fit, or a text of --columns isn't known
""",
        apart="""
--columns: --count
-0: --geojson --csv --xlsx --json --count --columns
--geojson: --csv --xlsx --json --count
""",
    ),
    Command(
        "check",
        "list the pictures that break your rules, or contradict themselves",
        "my.catalogue --rules museum.rules",
        """
names PICTURE *  a catalogue, a folder with all below it, or a picture
--rules FILE     a file with a rule on each line; see exifnorm-pictures help rules
--by-picture     list the broken rules of each picture, not the pictures that break each rule
--all            also list texts that are empty, cut, in a wrong character set, or a camera's
                 own: for rules of agreement alone
+sidecars
+many
""",
        row="a row for each picture and rule, or label",
        more="""Without --rules there is one rule, labels agree: Exif, IPTC and XMP of a picture
must not contradict each other. Rules of agreement alone, without folders, are
answered with the texts of each.""",
        statuses="""
0  no rule is broken, or no picture contradicts itself
1  a rule is broken, or a picture contradicts itself
2  a picture that wasn't wholly read may break a rule
""",
        apart="""
--all: --json  tables and objects have that always
--all: --by-picture
""",
    ),
    Command(
        "verify",
        "find files that were damaged since, not only captioned",
        "archive.catalogue --evidence sums.txt",
        """
source CATALOGUE ?  the catalogue
names FOLDER *      a folder, with all below it (default: all that were indexed)
--bag BAG           verify the files of a bag (BagIt) by its manifest-sha256.txt, in place of a
                    catalogue
--evidence FILE     write the SHA-256 of each file to a new file
--form {sha256sum,hashdeep,bagit}  the form of the evidence: for sha256sum -c (the default), for
                    hashdeep -a -k, or as the manifest of a bag
--list STATE{damaged,missing,other,captioned,moved,unknown}  list all files of one state, not only
                    the first ones of each: damaged, missing, other, captioned, moved, unknown.
                    damaged includes those that were damaged before
--state DIR         keep what was read in this new folder until the run ends, so that a stopped
                    run can go on from there
+programs
+jobs
+quiet
""",
        statuses="""
0  all files are as they were, captioned or moved; a file that was damaged before may still be so
1  a file was damaged since, is missing, or has another picture
2  a file can't be read, or has no digest in the catalogue
""",
    ),
    Command(
        "nightly",
        "read what is new, and print the news since last night, if any",
        "/archive --catalogue my.catalogue --rules my.rules",
        """
+made
names FOLDER *    a folder, with all below it
--catalogue FILE  the catalogue of the last night; created if it is missing. nightly keeps two
                  more beside it, with .before and .tonight in their names
--rules RULES     a file of rules, as for check: a picture that newly breaks one is news
--html NAME       if there is news, also write a report about it, as report --html does
+exclude
+notes
--nights N=1      keep the catalogues of the last N days, under the name of the catalogue and the
                  date, so that a letter's command answers as on its night
+pixels
+whole
+jobs
""",
        more="""If there is no news, it prints nothing and ends with 0, for cron. It takes a
folder that is empty or gone for a disk that isn't mounted, and keeps its
pictures until the folder is back, or catalogue forget removes them.""",
        statuses="""
0  no news, and nothing is printed
1  there is news, or it is the first night
2  something can't be decided that could be last night, or a folder isn't there
""",
        apart="""
--maker-notes: --no-programs
""",
    ),
    Command(
        "report",
        "write an HTML report about a catalogue",
        "new.catalogue --since old.catalogue --html report/",
        """
source CATALOGUE   the catalogue
--since OLD        an older catalogue: also list the changes
--rules RULES      also list the pictures that break these rules, as check does
--html NAME !      the page to write; with a slash at the end, NAME/ is a folder of pages, for an
                   archive of any size
--link-to ADDRESS  link the names of pictures to this address in place of the files, such as
                   https://dam.example/{path}; {name} has no folders
--title TITLE=Pictures and their metadata  the page's title
+look
+fields
+programs
""",
        statuses="""
0  the report is written
""",
    ),
)
OF_PICTURES = (
    Command(
        "compare",
        "compare two pictures, and print side by side what differs",
        "before.jpg after.jpg",
        """
before A  a picture
after B   a picture
+exact
+fields
+whole
""",
        row="a row for each field that differs",
        statuses="""
0  nothing that was compared differs
1  something differs
2  something can't be wholly compared
""",
    ),
    Command(
        "show",
        "print all fields of pictures, or their captions, names and rights",
        "--csv picture.jpg > fields.csv",
        """
names PICTURE *  a picture
+exact
--captions       only captions, names, keywords and rights, of pictures, of folders with all
                 below them, and of catalogues
+whole
""",
        row="a row for each field, or with --captions for each picture",
        statuses="""
0  all fields or texts are printed
2  a block is refused or unreadable or has more fields than are printed, or a file or a part of it
   wasn't read
""",
        apart="""
--exact: --csv --xlsx --json  tables and objects have that always
--exact: --captions
""",
    ),
    Command(
        "explain",
        "explain why metadata are refused or a file is damaged",
        "picture.jpg",
        """
names PICTURE *  a picture
+whole
""",
        statuses="""
0  all blocks are accepted
2  a block is refused or unreadable, a file is damaged, or a file or a part of it wasn't read
""",
    ),
    Command(
        "mend",
        "write a copy of a picture, with its refused metadata repaired",
        "archive.catalogue mended --lossless",
        """
picture PICTURE ?  a picture; or a catalogue, to mend each of its pictures with a refused or
                   unreadable block
out OUT ?          the copy to write; for a catalogue or --files-from, the folder for the copies,
                   which is made if it isn't there
--lossless         write no copy that loses or changes a printed value
+programs
""",
        statuses="""
0  each copy has the printed values of its picture
1  a copy lacks a printed value, or has another one
2  a picture isn't mended, or its file is damaged
""",
    ),
)
UPKEEP = "catalogue"  # the first word of the commands that take care of catalogues
OF_CATALOGUES = (
    Command(
        f"{UPKEEP} merge",
        "join catalogues of several folders or machines",
        "a.catalogue b.catalogue --catalogue all",
        """
catalogues CATALOGUE +  a catalogue; if several have a picture, the last one counts
--catalogue ALL !       the catalogue to write; created if it is missing
""",
        statuses="""
0  the catalogues are joined
""",
    ),
    Command(
        f"{UPKEEP} forget",
        "remove folders or pictures from a catalogue",
        "my.catalogue /archive/old",
        """
source CATALOGUE ?  the catalogue
names FOLDER *      a folder, with all below it, or a picture; it need not be there
""",
        statuses="""
0  the catalogue doesn't have the pictures any more
""",
    ),
    Command(
        f"{UPKEEP} relocate",
        "tell a catalogue where its pictures are now, without reading them",
        "my.catalogue /mnt/archive /srv/archive",
        """
source CATALOGUE  the catalogue
old OLD           the folder that the catalogue knows
new NEW           the folder where its pictures are now
""",
        statuses="""
0  all pictures are at the new place, with the same sizes and times
1  a picture isn't there, or has another size or time
""",
    ),
    Command(
        f"{UPKEEP} export",
        "write a catalogue as plain SQLite tables, for SQL and pandas",
        "archive.catalogue archive.sqlite",
        """
source CATALOGUE  the catalogue
file FILE         the file to write; only an earlier export is replaced
+look
+quiet
+programs
""",
        statuses="""
0  the tables are written
""",
    ),
)
COMMANDS = (*DAILY, *OF_PICTURES, *OF_CATALOGUES)
# What to use in place of each command that went
WENT = {
    "merge": "catalogue merge CATALOGUE .. --catalogue ALL",
    "forget": "catalogue forget CATALOGUE FOLDER ..",
    "relocate": "catalogue relocate CATALOGUE OLD NEW",
    "export": "catalogue export CATALOGUE FILE",
    "history": "changed --picture PATH CATALOGUE CATALOGUE ..",
    "captions": "show --captions PICTURE ..",
    "conflicts": "check PICTURE ..",
}
# The same of options
OPTIONS_WENT = {
    "only-file": "; changed, same, report and compare have --only @FILE",
    "ignore-file": "; changed, same, report and compare have --ignore @FILE",
    "no-exiftool": "; use --no-programs, which starts no other program either",
    "block": "; the command exifnorm takes blocks",
    "catalogue": "; name the catalogue without an option",
}

# Options that have no effect without another one
ONLY_WITH = {
    "--form": ("--evidence",),
    "--null": ("--files-from", "--edit"),
    "--by-picture": ("--rules",),
}
