"""What the tests of the tools share."""
import os
import shutil
import stat
import subprocess
import tempfile
import unittest

HERE = os.path.dirname(os.path.realpath(__file__))
TOP = os.path.dirname(os.path.dirname(HERE))
EXAMPLES = os.path.join(TOP, "examples")


def example(*names):
    return os.path.join(EXAMPLES, *names)


def built():
    """The program that `./build` left, where it is of the sources as they stand, else the one that `.ci/run` left."""
    proved, other = os.path.join(TOP, "out", "mcs"), os.path.join(TOP, "crates", "mcs", "out", "mcs")
    sources = subprocess.run([os.path.join(TOP, ".ci", "sources")], capture_output=True).stdout
    try:
        with open(proved + ".sources", "rb") as file:
            if os.access(proved, os.X_OK) and sources and file.read() == sources:
                return proved
    except OSError:
        pass
    return other if os.access(other, os.X_OK) else None


PROGRAM = os.path.abspath(os.environ["MCS"]) if os.environ.get("MCS") else built()
needs_program = unittest.skipUnless(PROGRAM, "it looks for the program out/mcs that ./build leaves, or "
                                             "crates/mcs/out/mcs that .ci/run leaves")


def needs(name):
    return unittest.skipUnless(shutil.which(name), f"it looks for the program {name}")


class Ground(unittest.TestCase):
    """A test with a folder of its own, whose name has a space."""

    def setUp(self):
        room = tempfile.TemporaryDirectory(prefix="mcs tools ")
        self.addCleanup(room.cleanup)
        self.room = room.name

    def file(self, name, content):
        path = os.path.join(self.room, name)
        with open(path, "wb") as file:
            file.write(content if isinstance(content, bytes) else content.encode())
        return path

    def script(self, name, content):
        path = self.file(name, content)
        os.chmod(path, os.stat(path).st_mode | stat.S_IXUSR)
        return path

    def ran(self, tool, *words, **variables):
        """What a tool of this repository did, started from another folder: status, output, notes."""
        run = subprocess.run([os.path.join(TOP, tool), *words], cwd=self.room, capture_output=True,
                             stdin=subprocess.DEVNULL, env={**os.environ, **variables}, timeout=120)
        return run.returncode, run.stdout.decode(), run.stderr.decode()

    def assertOneLine(self, noted):
        self.assertRegex(noted, r"\A[^\n]+\n\Z")
