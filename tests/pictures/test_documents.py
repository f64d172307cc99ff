"""The examples of the manual pages of the commands, with what they print. The page of refusals is that of the program's own texts, and the manual
page has each option."""

import hashlib
import os
import re
import shutil
import subprocess

from exifnorm_pictures.cli import parser, topics
from made_files import app1, exif, jpeg, turned
from studio import SMALL_JPEG, Studio, TOP, WithPictures, needs, put, read, run, tool, write
from exifnorm_pictures.extract.formats.jpeg_segments import COM, RESTS


class Documents(WithPictures):
    def make_two_folders(self, before, after):
        """Three pictures with an Exif block, and copies of them, of which one is edited."""
        os.mkdir(os.path.join(self.folder, before))
        for name in ("first.jpg", "second.jpg", "third.jpg"):
            write(os.path.join(self.folder, before, name), SMALL_JPEG)
            tool(self.folder, "exiftool", "-q", "-overwrite_original", "-Artist=Someone", os.path.join(before, name))
        shutil.copytree(os.path.join(self.folder, before), os.path.join(self.folder, after))
        tool(self.folder, "exiftool", "-q", "-overwrite_original", "-Copyright=The Museum", os.path.join(after, "first.jpg"))

    def test_what_is_not_compared(self):
        """The page lists the segments of a JPEG that the reader leaves out, and no other ones."""
        page = read(os.path.join(TOP, "docs", "COMPARED.md")).decode()
        words = [f"{name} ({'COM' if marker == COM else f'APP{marker & 15}'})" for marker, _, name in RESTS]
        self.assertIn(f"these segments of a JPEG: {', '.join(words)}.\n", page)

    def test_each_command_is_shown(self):
        """By an example in its help, an entry of the manual page, and a command of RECIPES, which tests run."""
        pages = {name: read(os.path.join(TOP, "docs", name)).decode() for name in ("RECIPES.md", "exifnorm-pictures.1")}
        blocks = "\n".join(re.findall(r"```sh\n(.*?)```", pages["RECIPES.md"], re.S))
        for name, of_command in parser.parsers()[1].items():
            self.assertRegex(of_command.format_help(), rf"Example:\n  exifnorm-pictures {name} ")
            self.assertRegex(pages["exifnorm-pictures.1"], rf'\n\.BI "{name} ')
            self.assertRegex(blocks, rf"\bexifnorm-pictures {name} ")

    @needs("exiftool")
    def test_the_examples_of_the_manual_page(self):
        """In a folder in place of /archive; between the two runs a picture is edited."""
        text = read(os.path.join(TOP, "docs", "exifnorm-pictures.1")).decode()
        shown = text.partition(".SH EXAMPLES\n.nf\n")[2].partition(".fi\n")[0].replace("\\-", "-")
        self.make_two_folders("archive", "after")
        printed = []
        for number, line in enumerate(shown.splitlines()):
            if number == 1:
                shutil.copy(self.path("after", "first.jpg"), self.path("archive", "first.jpg"))
            ran = subprocess.run(
                ["bash", "-o", "pipefail", "-c", line.replace("/archive", self.path("archive"))],
                cwd=self.folder,
                capture_output=True,
                env=Studio.environment(),
            )
            self.assertEqual(ran.returncode, 1 if "pictures changed" in line else 0, (line, ran.stderr))
            printed.append(ran.stdout.decode())
        self.assertIn("copyright (Exif): {+The Museum+}", printed[2])
        pages = [read(self.path("report", it)).decode() for it in os.listdir(self.path("report")) if it.endswith(".html")]
        self.assertIn("IFD0:Copyright", "".join(pages))
        self.assertEqual(printed[-1].count('"label"'), 4, "three artists and a copyright")

    @needs("exiftool")
    def test_the_examples_of_exifnorm(self):
        """Those of exifnorm.1, in a folder with their files."""
        one = exif(b"Abc")
        put(self.folder, {name: octets for name, octets in (("picture.jpg", jpeg(app1(one))), ("before", one), ("after", turned(one)))})
        text = (
            read(os.path.join(TOP, "docs", "exifnorm.1")).decode().partition(".SH EXAMPLES\n")[2].partition(".SH ")[0].replace("\\-", "-")
        )
        lines = [it.strip() for it in text.splitlines() if it.startswith("    ")]
        printed = "".join(run(["bash", "-e", "-c", it], self.folder).stdout.decode() for it in lines)
        self.assertEqual(printed, f"exif\n[main]\n010f ASCII 4: 41626300\n{hashlib.sha256(one).hexdigest()}  -\nsame\nnothing changed\n")

    def test_options_of_the_manual_page(self):
        """It has each command and option, and no other one."""
        page = read(os.path.join(TOP, "docs", "exifnorm-pictures.1")).decode().partition(".SH EXAMPLES")[0].replace("\\-", "-")
        commands = parser.parsers()[1]
        options = {word for it in commands.values() for one in it._actions for word in one.option_strings} | {"--version"}
        self.assertEqual(set(re.findall(r"(?<![\w-])--[a-z][a-z-]*[a-z]", page)), {it for it in options if it.startswith("--")})
        self.assertEqual(re.findall(r'(?m)^\.TP\n\.BI "([a-z ]+) ', page), [*commands])

    def test_each_command_has_statuses(self):
        self.assertEqual({*topics.STATUSES}, {*parser.parsers()[1]})
