"""Run the tests of this folder and close with 'N passed, M failed'."""

import sys
import unittest
from pathlib import Path

HERE = Path(__file__).resolve().parent
sys.path.insert(0, str(HERE))


class Counted(unittest.TextTestResult):
    """A result that keeps count of what passed."""

    def __init__(self, *arguments, **more):
        super().__init__(*arguments, **more)
        self.passed = 0

    def addSuccess(self, test):
        super().addSuccess(test)
        self.passed += 1


def main():
    pattern = sys.argv[1] if len(sys.argv) > 1 else "test_*.py"
    tests = unittest.defaultTestLoader.discover(str(HERE), pattern=pattern)
    runner = unittest.TextTestRunner(sys.stderr, verbosity=1, resultclass=Counted)
    result = runner.run(tests)
    # A test with subtests can fail several times and is still one.
    broken = len({test.id().split(" ")[0] for test, _ in result.failures + result.errors})
    broken += len(result.unexpectedSuccesses)
    skipped = len(result.skipped)
    line = f"{result.passed} passed, {broken} failed"
    print(line + (f", {skipped} skipped" if skipped else ""))
    return 0 if broken == 0 and result.passed else 1


if __name__ == "__main__":
    sys.exit(main())
