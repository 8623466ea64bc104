"""The first run of the command in a checkout where no library is built.

The checkout is a small one of its own: the command, the package, and a build that a
test chooses. Only where it must refuse is that the real tools/staticlib, which takes
minutes where it does not.
"""

import os
import pty
import shutil
import stat
import subprocess
import sys
import unittest

from support import ROOT, InFolder, Result, needs_library, shown_on

from tablewalk.library import SHARED

WORKS = f"""#!/bin/sh
echo proving
mkdir -p target/shared && cp '{SHARED}' target/shared/
"""
FAILS = """#!/bin/sh
echo 'crate field: not proved'
echo 'a last word' >&2
exit 7
"""

# What tools/staticlib runs before it knows that it can not build.
TOOLS = (
    "bash", "cat", "cut", "dirname", "env", "find", "grep", "mkdir", "python3", "readlink", "sed",
    "sh", "sha256sum", "sort", "tr", "uname", "xargs",
)


@needs_library
class Checkout(InFolder):
    def setUp(self):
        super().setUp()
        self.root = self.folder / "checkout"
        package = self.root / "bindings" / "python" / "tablewalk"
        shutil.copytree(ROOT / "bindings" / "python" / "tablewalk", package)
        shutil.copy(ROOT / "tablewalk", self.root)
        for part in ("examples/sample.dump", "tools/staticlib", "crates/tablewalk/src/lib.rt",
                     "crates.txt"):
            (self.root / part).parent.mkdir(parents=True, exist_ok=True)
            shutil.copy(ROOT / part, self.root / part)
        self.library = self.root / "target" / "shared" / "libtablewalk.so"

    def script(self, path, text):
        path.write_text(text, encoding="utf-8")
        path.chmod(path.stat().st_mode | stat.S_IXUSR)

    def path_without(self, *missing):
        """A PATH with the tools that a build uses, but for some."""
        folder = self.folder / "bin"
        folder.mkdir()
        for tool in TOOLS:
            where = shutil.which(tool)
            if where is not None and tool not in missing:
                (folder / tool).symlink_to(where)
        return str(folder)

    def start(self, *arguments, path=None):
        environment = {k: v for k, v in os.environ.items() if k != "TABLEWALK_LIBRARY"}
        if path is not None:
            environment["PATH"] = path
        done = subprocess.run(
            [sys.executable, "-B", str(self.root / "tablewalk"), *arguments], cwd=self.folder,
            env=environment, stdout=subprocess.PIPE, stderr=subprocess.PIPE, timeout=60,
        )
        return Result(done.returncode, done.stdout.decode(), done.stderr.decode())

    def refused(self, result, *words):
        self.assertEqual(result.status, 2, result.err)
        self.assertIn("the library is not built yet; running tools/staticlib --shared", result.err)
        self.assertRegex(result.err, r"tools/staticlib --shared ended with status \d+; its last")
        self.assertNotIn("Traceback", result.err)
        self.assertNotIn("is built, in", result.err)
        for word in words:
            self.assertIn(word, result.err)

    def test_builds_first_and_says_so(self):
        self.script(self.root / "tools" / "staticlib", WORKS)
        result = self.start(str(self.root / "examples" / "sample.dump"))
        self.assertEqual(result.status, 0, result.err)
        self.assertIn("sample.dump: answered", result.out)
        lines = result.err.split("\n")
        self.assertIn("is not built yet; running tools/staticlib --shared", lines[0])
        self.assertIn("takes some minutes", lines[1])
        self.assertRegex(lines[2], r"^tablewalk: the library is built, in \d+ s$")
        again = self.start(str(self.root / "examples" / "sample.dump"))
        self.assertEqual((again.status, again.err, again.out), (0, "", result.out))

    def test_without_arguments_too(self):
        self.script(self.root / "tools" / "staticlib", WORKS)
        result = self.start()
        self.assertEqual(result.status, 0, result.err)
        self.assertTrue(result.out.startswith("tablewalk: what a kernel"))
        self.assertIn("examples/sample.dump: answered", result.out)

    def test_what_needs_no_library_builds_none(self):
        self.script(self.root / "tools" / "staticlib", FAILS)
        for arguments in (["--help"], ["--version"], ["explain", "15"]):
            result = self.start(*arguments)
            self.assertEqual((result.status, result.err), (0, ""))

    def test_wrong_usage_builds_none(self):
        self.script(self.root / "tools" / "staticlib", FAILS)
        for arguments in (["--base", "x", "y"], ["find", "APICS", "y"], ["nothere.dump"]):
            result = self.start(*arguments)
            self.assertEqual(result.status, 2)
            self.assertNotIn("running", result.err)

    def test_an_older_library_is_built_again(self):
        self.script(self.root / "tools" / "staticlib", WORKS)
        self.library.parent.mkdir(parents=True)
        older = SHARED.read_bytes().replace(b"\0tablewalk_mailbox\0", b"\0tablewalk_nothing\0")
        self.library.write_bytes(older)
        result = self.start(str(self.root / "examples" / "sample.dump"))
        self.assertEqual(result.status, 0, result.err)
        self.assertIn("without tablewalk_mailbox; running tools/staticlib", result.err)

    def test_a_build_that_fails(self):
        self.script(self.root / "tools" / "staticlib", FAILS)
        result = self.start(str(self.root / "examples" / "sample.dump"))
        self.refused(result, "status 7", "crate field: not proved", "a last word")
        self.assertEqual(result.out, "")

    def test_a_build_that_can_not_be_run(self):
        (self.root / "tools" / "staticlib").chmod(0o644)
        result = self.start(str(self.root / "examples" / "sample.dump"))
        self.assertEqual(result.status, 2)
        self.assertIn("tools/staticlib --shared could not be run: Permission denied", result.err)

    def test_a_package_without_its_build(self):
        (self.root / "tools" / "staticlib").unlink()
        result = self.start(str(self.root / "examples" / "sample.dump"))
        self.assertEqual(result.status, 2)
        self.assertIn("libtablewalk.so is not there; the library is built by", result.err)

    def test_without_the_toolchain(self):
        result = self.start(str(self.root / "examples" / "sample.dump"), path=self.path_without())
        self.refused(result, "no command 'rt' on PATH")

    def test_on_another_processor(self):
        path = self.path_without("uname")
        self.script(self.folder / "bin" / "uname", "#!/bin/sh\necho riscv64\n")
        self.script(self.folder / "bin" / "rt", "#!/bin/sh\necho rt\n")
        result = self.start(str(self.root / "examples" / "sample.dump"), path=path)
        self.refused(result, "riscv64")

    @unittest.skipIf(shutil.which("rt") is None, "Rattle's toolchain is not on PATH")
    def test_without_a_linker(self):
        path = self.path_without()
        (self.folder / "bin" / "rt").symlink_to(shutil.which("rt"))
        result = self.start(str(self.root / "examples" / "sample.dump"), path=path)
        self.refused(result, "no C compiler 'cc' on PATH")

    def test_a_terminal_sees_that_it_works(self):
        slow = WORKS.replace("echo proving", "echo proving; sleep 2")
        self.script(self.root / "tools" / "staticlib", slow)
        outer, inner = pty.openpty()
        process = subprocess.Popen(
            [sys.executable, "-B", str(self.root / "tablewalk")], stdout=subprocess.DEVNULL,
            stderr=inner, cwd=self.folder,
        )
        os.close(inner)
        shown = shown_on(outer)
        os.close(outer)
        self.assertEqual(process.wait(60), 0)
        self.assertRegex(shown, rb"\r\x1b\[K\d s  proving")


if __name__ == "__main__":
    unittest.main()
