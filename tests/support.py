"""What the tests share: the repository, and commands run in it."""
import os
import pathlib
import subprocess
import sys
import tempfile
import unittest

sys.dont_write_bytecode = True
ROOT = pathlib.Path(__file__).resolve().parent.parent
sys.path.insert(0, str(ROOT / "programs"))
import printing_program

# Built before all tests, so that none of them meets the progress of a build.
printing_program.make_current()
ASSEMBLE, JUDGE, AXIOMATIC = ROOT / "programs" / "assemble", ROOT / "judge", ROOT / "programs" / "axiomatic"
OK, REFUSED, NOT_DONE = 0, 3, 4


class CommandTest(unittest.TestCase):
    """Tests of commands, each in a folder of its own."""

    maxDiff = None

    def setUp(self):
        folder = tempfile.TemporaryDirectory()
        self.addCleanup(folder.cleanup)
        self.folder = pathlib.Path(folder.name)

    def file(self, name, content):
        """A file in the folder."""
        path = self.folder / name
        path.write_bytes(content if isinstance(content, bytes) else content.encode())
        return path

    def run_command(self, *words, given=b"", environment=None):
        """Status, standard output and standard error of a command in the folder."""
        ended = subprocess.run(words, input=given if isinstance(given, bytes) else given.encode(), cwd=self.folder,
                               capture_output=True, env={**os.environ, **(environment or {})}, timeout=600)
        return ended.returncode, ended.stdout, ended.stderr.decode()

    def holds(self, expected, *words, **settings):
        """The command ends with this status, this standard output and this standard error."""
        status, out, err = expected
        out = out if isinstance(out, bytes) else out.encode()
        self.assertEqual(self.run_command(*words, **settings), (status, out, err))
