#!/usr/bin/env python3
"""A job file is saved whole or not at all."""
import contextlib
import io
import os
import stat
import sys
import tempfile
import unittest
from pathlib import Path
from unittest import mock

sys.dont_write_bytecode = True
sys.path[:0] = [str(Path(__file__).resolve().parents[2])]

from desk import door
from samples import FIRST, first, form

try:
    import resource
except ImportError:
    resource = None  # not every system has it


OLDER = form(2).packed()  # the job file that is there already


class Saving(unittest.TestCase):
    """`make` puts a whole file in its place, or leaves everything as it was."""

    def setUp(self):
        folder = tempfile.TemporaryDirectory()
        self.addCleanup(folder.cleanup)
        self.folder = Path(folder.name).resolve()
        self.text = self.folder / "a.txt"
        self.text.write_text(FIRST)
        self.job = self.folder / "a.job"

    def make(self, to=None, source=None):
        """Exit status and what was said."""
        out, said = io.StringIO(), io.StringIO()
        with contextlib.redirect_stdout(out), contextlib.redirect_stderr(said):
            status = door.main(["make", str(source or self.text), str(to or self.job)])
        return status, out.getvalue() + said.getvalue()

    def made(self, to=None):
        self.assertEqual(self.make(to), (0, f"{to or self.job}: 61 bytes\n"))

    def not_made(self, words, to=None, source=None, refused=False):
        """It is told in one sentence, and the folder has the same files with the same bytes."""
        before = self.files()
        status, said = self.make(to, source)
        self.assertEqual(status, 4 if refused else 2)
        self.assertIn(words, said)
        self.assertEqual(said.count("\n"), 1, said)
        self.assertEqual(self.files(), before)

    def files(self):
        return {path: path.read_bytes() if path.is_file() else None for path in self.folder.rglob("*")}

    def test_new_and_over_an_older_one(self):
        self.made()
        self.assertEqual(self.files(), {self.text: FIRST.encode(), self.job: first().packed()})
        for older in (OLDER, form(1, max_steps=0).packed(), b""):
            self.job.write_bytes(older)
            self.made()
            self.assertEqual(self.files(), {self.text: FIRST.encode(), self.job: first().packed()})

    def test_what_is_no_job_file_is_not_replaced(self):
        for other in (bytes(9000), b"a letter", FIRST.encode(), OLDER[:-1], OLDER + b"\0"):
            self.job.write_bytes(other)
            self.not_made("a.job: it was not saved: the file that is there is no job file, and stays as it is")

    def test_permissions(self):
        """Those of the older file stay; a new file has those that any new one has."""
        for mask, mode in ((0o022, 0o644), (0o077, 0o600), (0o002, 0o664)):
            self.assertEqual(self.mode_when_made(mask), mode)
            for older in (0o600, 0o640, 0o644, 0o666):
                self.job.chmod(older)
                self.assertEqual(self.mode_when_made(mask), older)
            self.job.unlink()

    def mode_when_made(self, mask):
        before = os.umask(mask)
        try:
            self.made()
        finally:
            os.umask(before)
        return stat.S_IMODE(self.job.stat().st_mode)

    def test_permissions_come_before_the_bytes(self):
        self.job.write_bytes(OLDER)
        seen = []
        with mock.patch("shutil.copymode", lambda _, part: seen.append(Path(part).read_bytes())):
            self.made()
        self.assertEqual(seen, [b""])

    def test_from_a_packed_file(self):
        other = self.folder / "other.job"
        self.made()
        self.assertEqual(self.make(other, self.job)[0], 0)
        self.assertEqual(other.read_bytes(), first().packed())
        # one that the job program reads and then refuses can be shown, but is not saved anew
        self.job.write_bytes(form(1, max_steps=0).packed())
        self.not_made("a.job: max_steps is 0 (the job program would refuse it by number 6)", other, self.job, refused=True)
        with contextlib.redirect_stdout(io.StringIO()) as shown:
            self.assertEqual(door.main(["show", str(self.job)]), 0)
        self.assertIn("max_steps 0\n", shown.getvalue())

    def test_a_refused_text(self):
        self.job.write_bytes(OLDER)
        self.text.write_text(FIRST.replace("rtol ", "rtol -"))
        self.not_made("a.txt, line 7: rtol is below 0 (the job program would refuse it by number 5)", refused=True)

    def test_interrupted(self):
        full = OSError(28, "No space left on device")
        for before in (None, OLDER):
            if before:
                self.job.write_bytes(before)
            for place in ("os.fsync", "desk.saving.put", *(("shutil.copymode",) if before else ())):
                with mock.patch(place, side_effect=full):
                    self.not_made("a.job: it was not saved: No space left on device")
            with mock.patch("desk.saving.open", self.opened_to_fail, create=True):
                self.not_made("a.job: it was not saved: No space left on device")
            with mock.patch("os.fsync", side_effect=KeyboardInterrupt):
                self.assertEqual(self.make()[0], 130)
            self.assertEqual(set(self.files()), {self.text, self.job} if before else {self.text})

    def opened_to_fail(self, *how):
        """A file that takes some bytes and then no more."""
        file = open(*how)
        some = file.write
        wrapped = mock.MagicMock(wraps=file)
        wrapped.__enter__.side_effect = lambda: wrapped
        wrapped.__exit__.side_effect = lambda *_: file.close()

        def write(data):
            some(data[:20])
            raise OSError(28, "No space left on device")

        wrapped.write.side_effect = write
        return wrapped

    @unittest.skipIf(resource is None, "files cannot be limited on this system")
    def test_a_disk_that_takes_twenty_bytes(self):
        self.job.write_bytes(OLDER)
        soft, hard = resource.getrlimit(resource.RLIMIT_FSIZE)
        resource.setrlimit(resource.RLIMIT_FSIZE, (20, hard))
        try:
            status, said = self.make()
        finally:
            resource.setrlimit(resource.RLIMIT_FSIZE, (soft, hard))
        self.assertEqual((status, said), (2, f"{self.job}: it was not saved: File too large\n"))
        self.assertEqual(self.files(), {self.text: FIRST.encode(), self.job: OLDER})

    def test_whole_before_it_is_renamed(self):
        seen = []

        def replace(part, to):
            seen.append((Path(part).parent, to, Path(part).read_bytes(), Path(part).name.endswith(".job")))
            raise OSError(5, "Input/output error")

        with mock.patch("os.link", replace), mock.patch("os.replace", replace):
            self.not_made("Input/output error")
        self.assertEqual(set(seen), {(self.folder, str(self.job), first().packed(), False)})

    def test_protected_for_root_too(self):
        self.job.write_bytes(OLDER)
        with mock.patch("os.access", lambda *_: False):
            self.not_made("a.job: it was not saved: the file that is there is protected from being changed")

    def test_one_that_cannot_be_read(self):
        self.job.write_bytes(OLDER)
        real = open

        def opened(path, *how):
            if str(path) == str(self.job):
                raise PermissionError(13, "Permission denied")
            return real(path, *how)

        with mock.patch("desk.saving.open", opened, create=True):
            self.not_made("a.job: it was not saved: the file that is there cannot be read: Permission denied")

    def test_a_name_that_no_system_has(self):
        self.not_made("it was not saved: ", str(self.folder / "a\0.job"))

    def test_a_name_that_is_taken(self):
        (self.folder / ".cuzzimbra-00.part").write_bytes(b"another's")
        with mock.patch("secrets.token_hex", lambda _: "00"):
            self.not_made("File exists")

    def test_folders(self):
        self.not_made("No such file or directory", self.folder / "none" / "a.job")
        self.not_made("Not a directory", self.text / "a.job")
        self.job.mkdir()
        self.not_made("a.job: it was not saved: there is a folder of this name")

    @unittest.skipUnless(hasattr(os, "mkfifo"), "there are no pipes with names on this system")
    def test_something_else_than_a_file(self):
        os.mkfifo(self.job)
        self.not_made("a.job: it was not saved: there is something else than a file of this name")
        self.assertTrue(stat.S_ISFIFO(self.job.stat().st_mode))

    @unittest.skipIf(not hasattr(os, "geteuid") or os.geteuid() == 0, "root may write everywhere")
    def test_protected(self):
        self.job.write_bytes(OLDER)
        self.job.chmod(0o444)
        self.not_made("a.job: it was not saved: the file that is there is protected")
        self.folder.chmod(0o555)
        self.addCleanup(self.folder.chmod, 0o755)
        self.not_made("Permission denied", self.folder / "b.job")

    def test_a_link_stays(self):
        elsewhere = self.folder / "elsewhere"
        elsewhere.mkdir()
        target = elsewhere / "b.job"
        self.job.symlink_to(target)
        for _ in range(2):  # to nothing, and then to a file
            self.made()
            self.assertTrue(self.job.is_symlink())
            self.assertEqual(set(self.files()), {self.text, self.job, elsewhere, target})
            self.assertEqual(target.read_bytes(), first().packed())
            target.write_bytes(OLDER)
        self.made()
        self.job.unlink()
        self.job.symlink_to(self.job)
        self.not_made("there is something else than a file of this name")

    def test_another_name(self):
        self.not_made("a job file's name ends in .job", self.folder / "a.txt.part")


if __name__ == "__main__":
    unittest.main()
