"""2,000 pictures, and a run over them that is killed or stopped in the middle."""

import os
import signal
import subprocess
import sys

from studio import Studio, WithPictures, many, needs, sql_rows

# Runs a command that waits after its first line of progress, so that it can't come to its end before the signal.
WAITING = """
import sys
from exifnorm_pictures.cli.main import main
from exifnorm_pictures.scan import index, progress
index.BATCH = 100
write = progress.Progress._write
progress.Progress._write = lambda *words: (write(*words), sys.stdin.read())
sys.exit(main(sys.argv[1:]))
"""


@needs("exiftool")
class Many(WithPictures):
    def started(self, folder, *before):
        """A run that waits in the middle, and how many pictures it has told of."""
        words = [*before, sys.executable, "-c", WAITING, "index", folder, "--catalogue", self.path("c")]
        how = {"stdin": subprocess.PIPE, "stdout": subprocess.DEVNULL, "stderr": subprocess.PIPE, "start_new_session": True}
        run = subprocess.Popen(words, env=Studio.environment(), **how)
        self.addCleanup(run.communicate)
        line = run.stderr.readline()
        self.assertRegex(line, rb"^\d+ of (at least )?\d+ pictures")
        told = int(line.split()[0])
        self.assertTrue(0 < told < 2000)
        return run, told

    def test_killed_in_the_middle(self):
        """It has kept what it has told, and the next run goes on from there."""
        folder = many()
        run, told = self.started(folder)
        run.send_signal(signal.SIGKILL)
        self.assertEqual(run.stderr.read(), b"")  # by none of its further processes, which end, too
        kept = sql_rows(self.path("c"), "SELECT count(*) FROM pictures JOIN blocks ON picture = id WHERE kind = 'exif'")
        self.assertEqual(kept, [(told,)])
        said = self.asked("index", folder, "--catalogue", "c")[0]
        self.assertEqual({*said.split(", ")}, {f"{2000 - told:,} accepted", f"{told:,} unchanged"})
        self.assertEqual(sql_rows(self.path("c"), "SELECT count(*), count(DISTINCT path) FROM pictures"), [(2000, 2000)])
        self.assertEqual(sql_rows(self.path("c"), "PRAGMA integrity_check"), [("ok",)])

    def test_stopped_by_the_keyboard(self):
        # a shell that ran these tests in the background would have the signal ignored
        run, _ = self.started(many(), "env", "--default-signal=INT")
        os.killpg(run.pid, signal.SIGINT)  # as a terminal does, to the further processes too
        said = run.stderr.read().decode()
        self.assertEqual(run.wait(), 130, said)
        self.assertIn("the same command goes on from there", said)
        self.assertNotIn("Traceback", said)
        self.assertTrue(os.path.exists(self.path("c")))
