"""Names and files that mean harm, or are simply broken: each is a line, and never an end."""

import json
import os

from made_blocks import MAKE, block, with_exif, with_iptc
from studio import SMALL_JPEG, WithPictures, needs, put, read, without_own_script, write

NAMES = [
    b"new\nline.jpg",
    b"-execute.jpg",
    b"-",
    b"\xff\xfe.jpg",
    b"<b onclick=alert(1)>&amp;.jpg",
    b"\x1b[2Jclear.jpg",
    b" space .jpg ",
    b"pipe|",
    b"#comment.jpg",
    b"$(touch gone).jpg",
    b"%d%f.jpg",
    b"end\r",
    "Zürich ☃.jpg".encode(),
    b"'quoted\".jpg",
    b"back\\slash.jpg",
    b"=equal.jpg",
]


@needs("exiftool")
class Hostile(WithPictures):
    def test_functions(self):
        os.mkdir(self.path("p"))
        picture = with_exif(SMALL_JPEG, block([MAKE]))
        for name in NAMES:
            write(os.path.join(os.fsencode(self.path("p")), name), picture)
        self.assertEqual(self.asked("index", "p", "--catalogue", "c", "--quiet"), [f"{len(NAMES)} accepted"])
        group = json.loads(self.asked("same", "c", "--json")[0])
        told = {bytes.fromhex(it["path_hex"]) if "path_hex" in it else it["path"].encode() for it in group["pictures"]}
        self.assertEqual({os.path.basename(it) for it in told}, set(NAMES))
        lines = self.asked("same", "c")
        self.assertEqual(len([it for it in lines if it.strip().startswith("p/")]), len(NAMES))
        for it in lines:
            self.assertTrue(it.isprintable(), lines)
        self.assertEqual([it.rpartition("/")[2] for it in lines if "back" in it], ["back\\\\slash.jpg"], "no two names look alike")
        self.asked("report", "c", "--html", "r.html")
        page = read(self.path("r.html")).decode()
        self.assertIn("&lt;b onclick=alert(1)&gt;&amp;amp;.jpg", page)
        self.assertNotIn("<b onclick", page)
        self.assertNotIn("<script", without_own_script(page))
        self.assertEqual(sorted(os.listdir(self.folder)), ["c", "p", "r.html"])

    def test_names_on_standard_input(self):
        os.mkdir(self.path("p"))
        for name in NAMES:
            write(os.path.join(os.fsencode(self.path("p")), name), with_exif(SMALL_JPEG, block([MAKE])))
        given = b"".join(b"p/" + it + b"\0" for it in NAMES)
        found = [json.loads(it) for it in self.asked("show", "--json", "--files-from", "-", "-0", given=given)]
        self.assertEqual([[one["kind"] for one in it["blocks"]] for it in found], [["exif"]] * len(NAMES))

    def test_files_that_are_none(self):
        put(
            self.folder,
            {
                "p/empty.jpg": b"",
                "p/text.jpg": b"no picture at all",
                "p/cut.jpg": SMALL_JPEG[:30],
                "p/good.jpg": with_exif(SMALL_JPEG, block([MAKE])),
                "p/empty-block.jpg": with_iptc(SMALL_JPEG, b""),
                "p/posing.json": b'[{"SourceFile":"x","EXIF":"MM no block","IPTC":"base64:HAI="}]',
            },
        )
        os.mkfifo(self.path("p", "pipe.jpg"))
        os.symlink("nowhere", self.path("p", "link.jpg"))
        os.mkdir(self.path("p", "folder.jpg"))
        lines = self.asked("index", "p", "--catalogue", "c", "--json", "--quiet")
        found = {os.path.basename(it["path"]): it for it in map(json.loads, lines[:-1])}
        problems = {name: it.get("problem") for name, it in found.items()}
        expected = {"empty.jpg": "NoPicture", "text.jpg": "NoPicture", "posing.json": "NoPicture", "pipe.jpg": "NotAFile"}
        expected.update({"link.jpg": "LinkToNothing", "good.jpg": None, "cut.jpg": None, "empty-block.jpg": None})
        self.assertEqual(problems, expected)

    def test_a_text_never_passes_for_octets(self):
        put(
            self.folder,
            {
                "a.jpg": with_iptc(SMALL_JPEG, b"base64:HAIZAANvbmU="),
                "b.jpg": with_iptc(SMALL_JPEG, b"text:base64:HAIZAANvbmU="),
                "c.jpg": with_iptc(SMALL_JPEG, b"12345"),
            },
        )
        lines = self.asked("show", "a.jpg", "b.jpg", "c.jpg", status=2)
        self.assertEqual([it for it in lines if not it.startswith("==")], ["IPTC: refused: NoMarker at 0"] * 3)
