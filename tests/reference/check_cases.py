#!/usr/bin/env python3
"""Hold the stored questions of the program replay to the plain reading.

The proofs run the program and compare what it writes with its file stdout. So
its questions must be byte for byte what make_cases.py writes now, and its stdout
must say that every one of them was asked and that no answer differs. Prints a
line for each of the two that is not so, and 'N passed, M failed' at the end.
check_oracle.py does the same for the second file that the program replays.
"""

import pathlib
import re
import sys

import make_cases

SECOND_FILE = "answers of the comparison with the crate:\n"
REPLAY = pathlib.Path(__file__).resolve().parents[2] / "crates" / "replay"


def counts_in(text):
    """How many questions of each number the program says that it asked, and how
    many in all. None if a line is not as it is where no answer differs."""
    lines = text.split(SECOND_FILE)[0].split("\n")
    asked = {}
    for line in lines[:-2]:
        match = re.fullmatch(r"(\d+) [^:]+: (\d+) asked, 0 differ", line)
        if match is None:
            return None
        asked[int(match[1])] = int(match[2])
    match = re.fullmatch(r"(\d+) cases, 0 differ", lines[-2]) if len(lines) > 1 else None
    if match is None or lines[-1] != "":
        return None
    return asked, int(match[1])


def main():
    cases = make_cases.all_cases()
    expected = {}
    for (question, _), count in cases.by_answer.items():
        expected[question] = expected.get(question, 0) + count

    passed = 0
    if (REPLAY / "data" / "questions").read_bytes() == cases.bytes():
        passed += 1
    else:
        print("crates/replay/data/questions is not what make_cases.py writes", file=sys.stderr)
    if counts_in((REPLAY / "stdout").read_text(encoding="ascii")) == (expected, cases.questions):
        passed += 1
    else:
        print(f"crates/replay/stdout does not say that {cases.questions} questions were asked, "
              f"by number {sorted(expected.items())}, and that none differs", file=sys.stderr)
    print(f"{passed} passed, {2 - passed} failed")
    return 0 if passed == 2 else 1


if __name__ == "__main__":
    sys.exit(main())
