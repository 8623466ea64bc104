#!/usr/bin/env python3
"""Hold what the program utf8_cases must write to what Python's own decoder says.

The proofs run the program and compare what it writes with its file stdout, so
that file must be utf8.expected byte for byte. Prints a line if it is not, and
'N passed, M failed' at the end. utf8.py says how utf8.expected is made.
"""

import pathlib
import sys

HERE = pathlib.Path(__file__).resolve().parent
EXPECTED = HERE / "utf8.expected"
STDOUT = HERE.parents[1] / "crates" / "utf8_cases" / "stdout"


def main():
    same = STDOUT.read_bytes() == EXPECTED.read_bytes()
    if not same:
        print("crates/utf8_cases/stdout is not tests/reference/utf8.expected", file=sys.stderr)
    print("1 passed, 0 failed" if same else "0 passed, 1 failed")
    return 0 if same else 1


if __name__ == "__main__":
    sys.exit(main())
