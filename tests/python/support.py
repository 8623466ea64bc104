"""What the tests of this folder share."""

import io
import os
import subprocess
import sys
import tempfile
import unittest
from pathlib import Path

HERE = Path(__file__).resolve().parent
ROOT = HERE.parents[1]
EXAMPLES = ROOT / "examples"
GOLDEN = HERE / "golden"
sys.path.insert(0, str(ROOT / "bindings" / "python"))
sys.path.insert(0, str(ROOT / "tests" / "reference"))

from double import Double  # noqa: E402

from tablewalk import Library  # noqa: E402
from tablewalk.command import library_path, main  # noqa: E402

# With this set the tests ask the plain reading in the library's place: it shows what
# they expect, and says nothing of the library.
USE_DOUBLE = os.environ.get("TABLEWALK_TEST_DOUBLE") == "1"


def library():
    return Double() if USE_DOUBLE else Library(library_path())


def dumps():
    """The example dumps, by name."""
    return sorted(EXAMPLES.glob("*.dump"))


class Result:
    """What a run of the command wrote, and its status."""

    def __init__(self, status, out, err):
        self.status = status
        self.out = out
        self.err = err


def run(*arguments, using=None):
    """The command in this process, from the checkout's folder."""
    out, err = io.StringIO(), io.StringIO()
    before = os.getcwd()
    os.chdir(ROOT)
    try:
        status = main(list(arguments), out, err, using if using is not None else library())
    finally:
        os.chdir(before)
    return Result(status, out.getvalue(), err.getvalue())


def run_script(*arguments, data=None, environment=None, folder=ROOT):
    """The command as a user starts it, in a process of its own."""
    done = subprocess.run(
        [sys.executable, "-B", str(ROOT / "tablewalk"), *arguments],
        input=data, stdout=subprocess.PIPE, stderr=subprocess.PIPE, cwd=folder,
        env={**os.environ, **(environment or {})}, timeout=120,
    )
    return Result(done.returncode, done.stdout.decode(), done.stderr.decode())


def temporary_folder():
    """A folder in memory, where there is one: some tests write a file thousands of times."""
    memory = "/dev/shm"
    return tempfile.TemporaryDirectory(dir=memory if os.access(memory, os.W_OK) else None)


class InFolder(unittest.TestCase):
    """A test with a folder of its own."""

    def setUp(self):
        holder = temporary_folder()
        self.addCleanup(holder.cleanup)
        self.folder = Path(holder.name)

    def file(self, name, content):
        path = self.folder / name
        if isinstance(content, str):
            content = content.encode("latin-1")
        path.write_bytes(content)
        return str(path)


needs_library = unittest.skipIf(USE_DOUBLE, "asks the library in a process of its own")


def shown_on(terminal):
    """All that is written to a terminal until nobody has it open any more."""
    shown = b""
    while True:
        try:
            part = os.read(terminal, 65536)
        except OSError:
            # This is how Linux says that the other side is closed.
            return shown
        if not part:
            return shown
        shown += part
