"""The texts of arguments, of progress and of messages. Other tests have only the statuses, and the facts in a text."""

import contextlib
import io
import os
import re
import shutil
import sqlite3
import sys
import unittest
from types import SimpleNamespace
from unittest import mock

from studio import WithPictures

from exifnorm_pictures.catalogue.store import Catalogue
from exifnorm_pictures.cli import parser
from exifnorm_pictures.cli.topics import TOPICS
from exifnorm_pictures.extract import exiftool, programs
from exifnorm_pictures.files import signals
from exifnorm_pictures.model.records import Damaged
from exifnorm_pictures.scan import progress, workers
from exifnorm_pictures.scan.walk import How


class CommandLine(unittest.TestCase):
    def test_help(self):
        """All arguments with their texts, in golden/help.txt."""
        with mock.patch.dict(os.environ, COLUMNS="120"):
            whole, commands = parser.parsers()
            texts = [it.format_help() for it in (whole, *commands.values())]
        topics = [f"help {name}\n{text()}\n" for name, text in TOPICS.items()]
        self.golden("help.txt", "\n".join([*texts, *topics]))

    def test_a_help_is_one_screen_whose_last_line_names_the_rest(self):
        with mock.patch.dict(os.environ, COLUMNS="100"):
            whole, commands = parser.parsers()
            texts = {it.prog: it.format_help().splitlines() for it in (whole, *commands.values())}
        self.assertEqual({name: len(lines) for name, lines in texts.items() if len(lines) > 40}, {})
        for name, lines in texts.items():
            self.assertEqual(re.findall(r"help (\w+)", lines[-1]), ["options", "statuses"], name)

    def test_help_fits_into_a_terminal(self):
        with mock.patch.dict(os.environ, COLUMNS="80"):
            whole, commands = parser.parsers()
            texts = [it.format_help() for it in (whole, *commands.values())]
        self.assertEqual([line for text in texts for line in text.splitlines() if len(line) > 80], [])


class Stream(io.StringIO):
    """Standard error, which its reader can close."""

    has_reader = True

    def write(self, text):
        if not self.has_reader:
            raise BrokenPipeError(32, "Broken pipe")
        return super().write(text)


class Progress(unittest.TestCase):
    def shown(self, stream, steps, total=3000, **more):
        """What is printed of some counts, each at its time after the beginning."""
        with mock.patch.object(progress.time, "monotonic", lambda: 100.0):
            it = progress.Progress(total, stream, **more)
        for seconds, count in steps:
            with mock.patch.object(progress.time, "monotonic", lambda seconds=seconds: 100.0 + seconds):
                it.done(count)
        return stream.getvalue()

    def test_lines(self):
        """At most one a second, and the last one."""
        steps = [(1.0, 10), (1.9, 20), (2.0, 500), (2.9, 600), (4.0, 2000), (4.1, 3000)]
        self.assertEqual(
            self.shown(Stream(), steps),
            "10 of 3000 pictures\n500 of 3000 pictures\n2000 of 3000 pictures, 663 a second, 2 s left\n3000 of 3000 pictures, 732 a second\n",
        )

    def test_the_time_left(self):
        """From 5 s on it is within a factor of 2, however long the first results take, and soon after pictures take longer or shorter."""
        for begin, rates in ((0.5, [240]), (3.0, [240]), (8.0, [240]), (1.0, [50]), (1.0, [400, 100]), (1.0, [100, 400]), (3.0, [8])):
            seconds = [80 / len(rates)] * len(rates)
            total = int(sum(rate * time for rate, time in zip(rates, seconds)))
            steps = []
            for number in range(40):  # results come in batches, about every two seconds
                at = begin + 2 * number + 2
                done = sum(rate * max(0.0, min(time, at - begin - place)) for rate, time, place in zip(rates, seconds, (0.0, seconds[0])))
                steps.append((at, min(int(done), total - 1)))
            lines = self.shown(Stream(), steps, total).splitlines()
            for line, (at, done) in zip(lines, steps):
                since = at - begin - seconds[0]  # from the second results on
                if (
                    at >= max(5, begin + 4)
                    and (at + 25 < begin + seconds[0] or since > 25 or len(rates) == 1)
                    and total - done > 2 * rates[-1]
                ):
                    minutes = re.search(r"(?:(\d+) min )?(\d+) s left", line)
                    left = 60 * int(minutes[1] or 0) + int(minutes[2])
                    true = begin + 80 - at if len(rates) == 1 or since > 0 else (total - done) / rates[0]
                    self.assertTrue(true / 2 - 1 <= left <= 2 * true + 1, (begin, rates, at, line, true))

    def test_while_pictures_are_found(self):
        """Neither the number of all nor the time that is left is known, and no line is the last one."""
        stream = Stream()
        with mock.patch.object(progress.time, "monotonic", lambda: 100.0):
            it = progress.Progress(0, stream)
        for seconds, count, total, is_whole in (
            (1.0, 10, 500, False),
            (4.0, 610, 610, False),
            (6.0, 620, 620, True),
            (7.0, 620, 620, True),
        ):
            it.total, it.is_whole = total, is_whole
            with mock.patch.object(progress.time, "monotonic", lambda seconds=seconds: 100.0 + seconds):
                it.done(count)
        self.assertEqual(
            stream.getvalue(),
            "10 of at least 500 pictures\n610 of at least 610 pictures, 200 a second\n620 of 620 pictures, 103 a second\n",
        )

    def test_a_reader_that_has_gone(self):
        stream = Stream()
        stream.has_reader = False
        with mock.patch.object(progress, "drop") as dropped:
            it = progress.Progress(2, stream)
            it.done(2)
            stream.has_reader = True
            it.done(2)
        self.assertEqual((stream.getvalue(), dropped.mock_calls), ("", [mock.call(stream)]))
        with contextlib.redirect_stderr(Stream()) as stderr:
            progress.Progress(1).done(1)
        self.assertRegex(stderr.getvalue(), r"^1 of 1 pictures, \d+ a second\n$")


class Messages(WithPictures):
    """The texts of errors."""

    def raised(self, kind, call, *words):
        with self.assertRaises(kind) as caught:
            call(*words)
        return str(caught.exception)

    def test_of_catalogues(self):
        with Catalogue(self.path("c"), make=True) as made:
            self.assertEqual(str(made.failure(sqlite3.OperationalError("disk I/O error"))), f"{made.name}: disk I/O error")
            damaged = f"{made.name} is damaged: no text. Take an older copy, or make a new one by index"
            self.assertEqual(str(made.failure(Damaged("no text"))), damaged)

    def test_of_programs(self):
        self.assertEqual(self.raised(programs.Missing, programs.needed, "no such program"), str(programs.Missing("no such program")))
        self.assertEqual(
            self.raised(programs.Failed, programs.start, [self.path("nothing")]), "nothing can't be started: no such file or directory"
        )
        self.assertEqual(
            self.raised(programs.Failed, programs.run, [shutil.which("sleep"), "60"], 0.05), "sleep took longer than 0.05 seconds"
        )
        words = [shutil.which("sh"), "-c", "exec >&-; exec sleep 60"]  # it ends its output, but not itself
        self.assertEqual(self.raised(programs.Failed, programs.run, words, 0.05), "sh took longer than 0.05 seconds")
        with mock.patch.object(workers, "ProcessPoolExecutor", mock.Mock(side_effect=OSError(11, "Resource temporarily unavailable"))):
            self.assertEqual(
                self.raised(programs.Failed, workers._pool, How(), 2),
                "a further process can't be started: resource temporarily unavailable",
            )

    def test_of_an_exiftool_that_ended(self):
        os.mkdir(self.path("room"))
        with mock.patch.object(programs, "needed", lambda _: shutil.which("true")):
            it = exiftool.Process(self.path("room"), 60.0)
        it.process.wait()
        self.assertEqual(self.raised(programs.Failed, it.ask, [b"a"], ["x" * 100_000], ()), "ExifTool ended before it was asked")
        it.close()

    def test_streams_that_are_closed(self):
        """Each gets /dev/null, so that no file gets its number; without standard output nothing can be done."""
        for closed, fails in (((), False), ((0,), False), ((0, 2), False), ((1,), True), ((0, 1, 2), True)):
            asked, opened = [], []

            def fstat(number, closed=closed, asked=asked):
                asked.append(number)
                if number in closed:
                    raise OSError(9, "Bad file descriptor")

            system = SimpleNamespace(
                fstat=fstat, open=lambda *words, opened=opened: opened.append(words), devnull="/dev/null", O_RDWR=os.O_RDWR
            )
            with mock.patch.object(signals, "os", system), mock.patch.object(sys, "stdout", mock.Mock()) as stdout:
                if fails:
                    self.assertEqual(self.raised(signals.ClosedOutput, signals.ready_streams), "standard output is closed")
                else:
                    signals.ready_streams()
                    self.assertEqual(stdout.mock_calls, [mock.call.reconfigure(encoding="utf-8", errors="backslashreplace")])
            self.assertEqual((asked, opened), ([0, 1, 2], [("/dev/null", os.O_RDWR)] * len(closed)))
        with mock.patch.object(sys, "stderr", None):
            signals.ready_streams()
            self.assertEqual((sys.stderr.name, sys.stderr.mode), ("/dev/null", "w"))
            sys.stderr.close()
