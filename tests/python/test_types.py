"""The package's types, by mypy where it is at hand (Debian: mypy), and its words."""

import ast
import shutil
import subprocess
import tempfile
import unittest

from support import ROOT


@unittest.skipUnless(shutil.which("mypy"), "mypy is not installed")
class Types(unittest.TestCase):
    def test_strict(self):
        with tempfile.TemporaryDirectory() as cache:
            command = ["mypy", "--strict", "--python-version", "3.9", f"--cache-dir={cache}"]
            done = subprocess.run(
                [*command, "tablewalk"],
                cwd=ROOT / "bindings" / "python", stdout=subprocess.PIPE, stderr=subprocess.STDOUT,
            )
        self.assertEqual(done.returncode, 0, done.stdout.decode())


class Words(unittest.TestCase):
    def setUp(self):
        folder = ROOT / "bindings" / "python" / "tablewalk"
        self.assertTrue((folder / "py.typed").exists())
        self.modules = {
            # Nothing of a later Python than the oldest that is promised.
            path.name: ast.parse(path.read_text(encoding="utf-8"), feature_version=(3, 9))
            for path in folder.glob("*.py")
        }
        self.assertIn("image.py", self.modules)

    def test_everything_public_says_what_it_is(self):
        def without(name, node):
            if ast.get_docstring(node) is None:
                yield name
            if isinstance(node, ast.FunctionDef):
                # What stands inside of a function is no part of what is offered.
                return
            for inner in node.body:
                if isinstance(inner, (ast.ClassDef, ast.FunctionDef)) and inner.name[0] != "_":
                    yield from without(f"{name}: {inner.name}", inner)

        for module, tree in self.modules.items():
            self.assertEqual(list(without(module, tree)), [])

    def test_no_state_of_the_whole_package(self):
        for name, tree in self.modules.items():
            for node in ast.walk(tree):
                self.assertNotIsInstance(node, (ast.Global, ast.Nonlocal), name)


if __name__ == "__main__":
    unittest.main()
