"""The temporary folders of a run: each has a lock, and those of runs that were killed are removed, and no other folder."""

import fcntl
import gc
import os
import shutil
import stat
import tempfile
from unittest import mock

from studio import WithPictures, put, write

from exifnorm_pictures.files import tempdir


class Folders(WithPictures):
    """Temporary folders, in TMPDIR."""

    def setUp(self):
        super().setUp()
        own = mock.patch.object(tempfile, "tempdir", self.folder)
        own.start()
        self.addCleanup(own.stop)
        with tempdir.room() as made, open(os.path.join(made, "lock"), "rb") as file:
            self.assertEqual(os.stat(made).st_mode & 0o777, 0o700)
            self.lock = file.read()

    def folder_of_a_run(self, name, lock="lock"):
        os.mkdir(self.path(name), 0o700)
        put(self.folder, {f"{name}/data": b"1", f"{name}/{lock}": self.lock})
        return self.path(name)

    def test_a_run_has_one_with_a_lock(self):
        gc.collect()  # what an earlier test has left open would be closed meanwhile
        before = len(os.listdir("/proc/self/fd"))
        with tempdir.room() as name:
            self.assertEqual(os.path.dirname(name), self.folder)
            self.assertRegex(os.path.basename(name), "^exifnorm-")
            self.assertEqual(os.listdir(name), ["lock"])
            self.assertEqual(stat.S_IMODE(os.stat(os.path.join(name, "lock")).st_mode), 0o600)
            write(os.path.join(name, "data"), b"1")
            with tempdir.room() as other:  # another run, which leaves this one as it is
                self.assertEqual(sorted(os.listdir(self.folder)), sorted(map(os.path.basename, (name, other))))
            self.assertEqual(sorted(os.listdir(name)), ["data", "lock"])
            with open(os.path.join(name, "lock")) as file, self.assertRaises(BlockingIOError):
                fcntl.flock(file, fcntl.LOCK_EX | fcntl.LOCK_NB)
        self.assertEqual((os.listdir(self.folder), len(os.listdir("/proc/self/fd"))), ([], before))
        with self.assertRaises(KeyError), tempdir.room():
            raise KeyError
        self.assertEqual((os.listdir(self.folder), len(os.listdir("/proc/self/fd"))), ([], before))

    def test_the_lock_has_its_name_after_it_is_locked(self):
        """Or else another run could take the folder for one of a run that was killed."""
        steps = []
        real = {"flock": fcntl.flock, "rename": os.rename}

        def noted(name):
            def call(*words):
                steps.append((name, *sorted(os.listdir(os.path.join(self.folder, os.listdir(self.folder)[0])))))
                return real[name](*words)

            return call

        with mock.patch.object(tempdir.fcntl, "flock", noted("flock")), mock.patch.object(tempdir.os, "rename", noted("rename")):
            with tempdir.room():
                self.assertEqual(steps, [("flock", "new"), ("rename", "new")])

    def test_those_of_runs_that_were_killed(self):
        """They are removed if they are this user's, and if no process has their lock."""
        killed, alive = map(self.folder_of_a_run, ("exifnorm-killed_1", "exifnorm-alive001"))
        with open(os.path.join(alive, "lock")) as file:
            fcntl.flock(file, fcntl.LOCK_EX)
            with mock.patch.object(tempdir.os, "geteuid", lambda: os.getuid() + 1), tempdir.room():
                self.assertTrue(os.path.exists(killed), "it is another user's")
            with tempdir.room():
                self.assertFalse(os.path.exists(killed))
            self.assertEqual(sorted(os.listdir(alive)), ["data", "lock"])

    def test_a_run_that_begins_while_another_one_looks(self):
        """Once it has its lock, its folder stays; before that it may go, and the run makes another one."""
        for call, is_open in (("listdir", False), ("close", True)):
            folder, real, begun = tempfile.mkdtemp(prefix=tempdir.PREFIX, dir=self.folder), getattr(os, call), []
            new = os.open(os.path.join(folder, "new"), os.O_RDWR | os.O_CREAT) if is_open else None

            def meanwhile(*words):
                answer = real(*words)
                if os.path.isdir(folder) and not begun:
                    begun.append(new or os.open(os.path.join(folder, "new"), os.O_RDWR | os.O_CREAT))
                    fcntl.flock(begun[0], fcntl.LOCK_EX)
                    os.write(begun[0], self.lock)
                    os.rename(os.path.join(folder, "new"), os.path.join(folder, "lock"))
                return answer

            with mock.patch.object(tempdir.os, call, meanwhile), tempdir.room():
                pass
            self.assertEqual(os.listdir(folder) if begun else os.path.isdir(folder), ["lock"] if begun else False, call)
            shutil.rmtree(folder, ignore_errors=True)
            os.close(begun[0] if begun else new)

    def test_no_other_folder_is_removed(self):
        """Whatever of a folder of ours it has: the user may keep the only copies of pictures there."""
        self.folder_of_a_run("exifnorm-mine")
        self.folder_of_a_run("exifnor-abcdefgh")
        self.folder_of_a_run("exifnorm-nolock01", "new")
        write(os.path.join(self.folder_of_a_run("exifnorm-nomark01"), "lock"), b"")
        write(os.path.join(self.folder_of_a_run("exifnorm-others01"), "lock"), b"held by another program\n")
        os.chmod(self.folder_of_a_run("exifnorm-rights01"), 0o755)
        write(self.path("exifnorm-file0001"), b"")
        os.symlink("exifnorm-mine", self.path("exifnorm-link0001"))
        os.symlink("../exifnorm-mine/lock", os.path.join(self.folder_of_a_run("exifnorm-linked01", "data2"), "lock"))
        os.mkfifo(os.path.join(self.folder_of_a_run("exifnorm-pipe0001", "data2"), "lock"))
        before = sorted((top, *files) for top, _, files in os.walk(self.folder))
        with tempdir.room():
            pass
        self.assertEqual(sorted((top, *files) for top, _, files in os.walk(self.folder)), before)

    def test_a_folder_that_cannot_be_listed(self):
        with mock.patch.object(tempdir.os, "scandir", mock.Mock(side_effect=PermissionError)), tempdir.room() as name:
            self.assertTrue(os.path.isdir(name))
