"""Files that are written in full or not at all, on file systems with and without nameless files and hard links."""

import contextlib
import os
import stat
from unittest import mock

from studio import WithPictures, read, write

from exifnorm_pictures.files import atomic

OLD, NEW = b"earlier page", b"a later one" * 10_000
# Whether a file system has nameless files (O_TMPFILE in open(2)) and hard links, and by which calls a new file and a replaced one get their names
SYSTEMS = {
    (True, True): (["fsync", "link"], ["fsync", "link", "replace"]),
    (False, True): (["fsync", "link"], ["fsync", "replace"]),
    (False, False): (["fsync", "link", "rename"], ["fsync", "replace"]),
}


class Written(WithPictures):
    def setUp(self):
        super().setUp()
        self.out, self.source = os.fsencode(self.path("out")), os.fsencode(self.path("source"))
        write(self.source, NEW)
        os.chmod(self.source, 0o640)
        os.utime(self.source, (20, 30))
        self.addCleanup(os.umask, os.umask(0o027))

    @contextlib.contextmanager
    def system(self, nameless, links, failing=None):
        """Such a file system. Notes each call; before the bytes are on the disk no file has the name."""
        real = {it: getattr(os, it) for it in ("open", "fsync", "link", "rename", "replace")}
        there = read(self.out) if os.path.exists(self.out) else None
        steps = []

        def opened(name, flags, *more, **others):
            if flags & os.O_TMPFILE == os.O_TMPFILE and not nameless:
                raise OSError(95, "Operation not supported")
            return real["open"](name, flags, *more, **others)

        def noted(name):
            def call(*words, **more):
                steps.append(name)
                self.assertEqual(read(self.out) if os.path.exists(self.out) else None, there, f"{steps}: it has the name already")
                if name == "fsync":
                    self.assertEqual(os.fstat(*words).st_size, len(NEW), "all bytes are on the disk")
                if name == failing:
                    raise OSError(5, "Input/output error")
                if name == "link" and not links:
                    raise PermissionError(1, "Operation not permitted")
                return real[name](*words, **more)

            return call

        with mock.patch.multiple(atomic.os, open=opened, **{it: noted(it) for it in ("fsync", "link", "rename", "replace")}):
            yield steps

    def systems(self):
        """Those of SYSTEMS that can be had here: the folder of the tests may have no nameless files."""
        try:
            os.close(os.open(self.folder, os.O_TMPFILE | os.O_RDWR))
            return list(SYSTEMS.items())
        except OSError:
            return [it for it in SYSTEMS.items() if not it[0][0]]

    def replace(self, write=lambda file: file.write(NEW)):
        atomic.replace(self.out, write, lambda head: head == OLD)

    def files(self):
        return sorted(os.listdir(self.folder))

    def out_now(self):
        """What must stay of the output while it is in the way. The time of access changes when the system resolves a link."""
        now = os.lstat(self.out)
        return now.st_ino, now.st_mode, now.st_size, now.st_mtime_ns, os.path.islink(self.out) or read(self.out)

    def test_a_copy(self):
        """It has the mode and times of the picture, and no file beside it stays."""
        for (nameless, links), (steps, _) in self.systems():
            with self.system(nameless, links) as found:
                atomic.copy_new(self.source, self.out, self.source)
            now = os.stat(self.out)
            self.assertEqual(
                (found, read(self.out), stat.S_IMODE(now.st_mode), now.st_mtime, self.files()), (steps, NEW, 0o640, 30, ["out", "source"])
            )
            os.remove(self.out)

    def test_a_file_in_the_way_of_a_copy(self):
        for (nameless, links), _ in self.systems():
            for made in (lambda: write(self.out, OLD), lambda: os.symlink("nothing", self.out)):
                made()
                before = self.out_now()
                with self.system(nameless, links), self.assertRaises(FileExistsError):
                    atomic.copy_new(self.source, self.out, self.source)
                self.assertEqual((self.out_now(), self.files()), (before, ["out", "source"]))
                os.remove(self.out)

    def test_a_page(self):
        """It has the mode that the umask leaves, also if it replaces an earlier one."""
        for (nameless, links), (_, steps) in self.systems():
            for earlier in (None, OLD, b""):
                if earlier is not None:
                    write(self.out, earlier)
                with self.system(nameless, links) as found:
                    self.replace()
                self.assertEqual(
                    (found, read(self.out), stat.S_IMODE(os.stat(self.out).st_mode), self.files()), (steps, NEW, 0o640, ["out", "source"])
                )
                os.remove(self.out)

    def test_failures(self):
        """The earlier file stays as it is, and no other one stays."""

        def full(file):
            file.write(NEW[:5000])
            raise OSError(28, "No space left on device")

        write(self.out, OLD)
        for (nameless, links), (_, steps) in self.systems():
            for failing in steps:
                with self.system(nameless, links, failing), self.assertRaisesRegex(atomic.NotReplaced, "^input/output error$"):
                    self.replace()
                self.assertEqual((read(self.out), self.files()), (OLD, ["out", "source"]), (nameless, links, failing))
            with self.system(nameless, links), self.assertRaisesRegex(atomic.NotReplaced, "^no space left on device$"):
                self.replace(full)
            self.assertEqual((read(self.out), self.files()), (OLD, ["out", "source"]))
