#!/usr/bin/env python3
"""Hold the stored questions of the program replay_ranges to the plain reading.

The proofs run the program and compare what it writes with its file stdout. So both
of its files must be byte for byte what make_range_cases.py writes now, and its stdout
must say that every question of the first was asked and that no answer differs, and of
the second where it is wrong. Prints a line for each that is not so, and 'N passed, M
failed' at the end.
"""

import pathlib
import sys

import make_range_cases

PROGRAM = pathlib.Path(__file__).resolve().parents[2] / "crates" / "replay_ranges"


def main():
    passed = failed = 0
    data, text = make_range_cases.files()
    wanted = {f"data/{name}": content for name, content in data.items()} | {"stdout": text.encode("ascii")}
    for name, content in wanted.items():
        path = PROGRAM / name
        if path.is_file() and path.read_bytes() == content:
            passed += 1
        else:
            failed += 1
            print(f"crates/replay_ranges/{name} is not what make_range_cases.py says", file=sys.stderr)
    print(f"{passed} passed, {failed} failed")
    return 1 if failed else 0


if __name__ == "__main__":
    sys.exit(main())
