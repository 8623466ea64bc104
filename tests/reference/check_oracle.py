#!/usr/bin/env python3
"""Hold what two programs write to the answers of the comparison that they replay.

crates/replay and crates/replay_tables ask every question of their file data/oracle,
and the proofs compare what they write with their file stdout. So stdout must say,
under its heading, that every question of the file was asked, by number, and that no
answer differs. tests/oracle makes the files themselves again, where the crate is at
hand. Prints a line for each program of which it is not so, and 'N passed, M failed'
at the end.
"""

import pathlib
import re
import struct
import sys

CRATES = pathlib.Path(__file__).resolve().parents[2] / "crates"
HEADING = "answers of the comparison with the crate:\n"


def asked_in(data):
    """How many questions of each number a file has. make_cases.py says how such a
    file is laid out."""
    asked = {}
    at = 0
    while True:
        kind, = struct.unpack_from("<I", data, at)
        at += 4
        if kind == 0:
            return asked
        first, = struct.unpack_from("<I", data, at)
        if kind == 1:
            at += 4 + 8 * first
            size, = struct.unpack_from("<I", data, at)
            at += 4 + size + -size % 4
        else:
            asked[first] = asked.get(first, 0) + 1
            patches, = struct.unpack_from("<I", data, at + 4)
            at += 8 + 8 * patches
            arguments, = struct.unpack_from("<I", data, at)
            at += 4 + 8 * arguments + 4
            values, = struct.unpack_from("<I", data, at)
            at += 4 + 8 * values


def told_in(text):
    """How many questions of each number the program says that it asked, and how many
    in all. None if a line is not as it is where no answer differs."""
    if text.count(HEADING) != 1:
        return None
    *lines, last = text.split(HEADING)[1].splitlines()
    told = {}
    for line in lines:
        match = re.fullmatch(r"(?:question )?(\d+)[ ,][^:]+: (\d+) asked, 0 differ", line)
        if match is None:
            return None
        told[int(match[1])] = int(match[2])
    match = re.fullmatch(r"(\d+) cases, 0 differ", last)
    return None if match is None else (told, int(match[1]))


def main():
    passed = 0
    programs = ["replay", "replay_tables"]
    for program in programs:
        asked = asked_in((CRATES / program / "data" / "oracle").read_bytes())
        told = told_in((CRATES / program / "stdout").read_text(encoding="ascii"))
        if told is not None and {k: v for k, v in told[0].items() if v} == asked and told[1] == sum(asked.values()):
            passed += 1
        else:
            print(f"crates/{program}/stdout does not say that the questions of data/oracle were asked, "
                  f"by number {sorted(asked.items())}, and that none differs", file=sys.stderr)
    print(f"{passed} passed, {len(programs) - passed} failed")
    return 0 if passed == len(programs) else 1


if __name__ == "__main__":
    sys.exit(main())
