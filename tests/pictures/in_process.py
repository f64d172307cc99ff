"""Runs exifnorm-pictures in the process of the tests, where a command takes milliseconds."""

import contextlib
import gc
import io
import json
import os
import subprocess

from studio import WithPictures

from exifnorm_pictures.cli import main


class InProcess(WithPictures):
    """A test with a folder of its own, which is F in what is printed."""

    def printed(self, *words, status=0):
        """The lines that a command prints, and in `complaint` those on standard error; `@` is the folder."""
        __tracebackhide__ = True
        words = [it.replace("@", self.folder) for it in words]
        with contextlib.redirect_stdout(io.StringIO()) as out, contextlib.redirect_stderr(io.StringIO()) as errors:
            found = main._run(words)
        self.complaint = errors.getvalue().replace(self.folder, "F")
        self.assertEqual(found, status, out.getvalue() + self.complaint)
        return out.getvalue().replace(self.folder, "F").split("\n")[:-1]

    def objects(self, *words, status=0):
        __tracebackhide__ = True
        return [json.loads(it) for it in self.printed(*words, "--json", status=status)]


class InFolder(InProcess):
    """A test whose commands run in its process too, each in the test's folder. Those with an input or variables of their own don't."""

    def called(self, words, folder, given=None, **more):
        if given is not None or more:
            return super().called(words, folder, given, **more)
        before = os.getcwd()
        os.chdir(folder)
        try:
            with contextlib.redirect_stdout(io.StringIO()) as out, contextlib.redirect_stderr(io.StringIO()) as errors:
                status = main._run([os.fsdecode(it) for it in words])
        except SystemExit as wrong:  # of words that argparse refuses
            status = wrong.code
        finally:
            os.chdir(before)
            gc.collect()  # closes the catalogues that an error left open, as the end of a process does
        return subprocess.CompletedProcess(words, status, *(it.getvalue().encode("utf-8", "surrogateescape") for it in (out, errors)))
