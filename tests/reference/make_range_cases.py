#!/usr/bin/env python3
"""Write lists of ranges, questions about them and the answers of the plain reading.

The program replay_ranges asks the proved code the same questions. Its lists may be
longer than those that the program replay has room for, and its questions have
numbers that the other programs do not count. The same files come out of every run.
They are stored in crates/replay_ranges/data, and check_ranges.py says if they or
what the program must write of them are not the same.

The second file is wrong on purpose: two of its answers are not those of the plain
reading, and its end is cut off, so that the program shows what is written then.

Usage: make_range_cases.py FOLDER

make_cases.py says how such a file is laid out.
"""

import pathlib
import sys

import reading
from make_cases import Cases

IS_RIGHT = 100
LOCATE = 2 ** 32 - 1
TOP = 2 ** 64
SLICE = 256


def locate(image, ranges, address):
    """The offset in the image of a physical address, and how many bytes its range
    has from there on."""
    if not reading.ranges_right(image, ranges):
        return reading.refused(reading.WRONG_RANGES)
    found = reading.place_of(ranges, address)
    if found is None:
        return reading.refused(reading.NO_SUCH_ADDRESS)
    return reading.FOUND, list(found)


def answer(question, image, ranges, arguments):
    asked = {IS_RIGHT: reading.check_ranges, LOCATE: locate}
    return asked[question](image, ranges, *arguments)


def row(count, length=16, gap=0, first=0x1000):
    """So many ranges one behind the other, flat, each with its part of the slice."""
    words = []
    for k in range(count):
        words += [first + k * (length + gap), length, k * length % SLICE]
    return words


def lists():
    """Right lists and wrong ones, some longer than any right list."""
    yield []
    yield [0x1000, SLICE, 0]
    yield [0, 1, SLICE - 1]
    yield [TOP - 16, 16, 0]
    yield [0x1000, 0, SLICE]
    yield row(2)
    yield row(3, gap=1)
    yield row(64)
    yield row(64, gap=0x1000)
    yield row(65)
    yield row(66)
    yield row(67)
    yield row(200, gap=8)
    yield row(500)
    yield [0x1000]
    yield row(3)[:-1]
    yield [0x1000, SLICE + 1, 0]
    yield [0x1000, 1, SLICE]
    yield [TOP - 16, 17, 0]
    yield [0x1000, 16, 0, 0x100f, 16, 0]
    yield [0x2000, 16, 0, 0x1000, 16, 0]
    yield [0x1000, 16, 0, 0x1000, 0, 0]


def addresses(words):
    """Where an answer changes: round the ends of the first and the last ranges."""
    seen = {0, TOP - 1}
    whole = [words[k:k + 3] for k in range(0, len(words) - 2, 3)]
    for start, length, _ in whole[:2] + whole[-2:]:
        for address in (start - 1, start, start + length // 2, start + length - 1, start + length):
            seen.add(address % TOP)
    return sorted(seen)


def right_cases():
    cases = Cases(answer)
    for words in lists():
        cases.image(bytes(SLICE if words else 0), words)
        cases.ask(IS_RIGHT)
        for address in addresses(words):
            cases.ask(LOCATE, address)
    return cases


def wrong_cases():
    """The bytes of the second file, and the lines that the program writes of it."""
    cases = Cases(lambda question, *about: {IS_RIGHT: (1, []), LOCATE: (0, [1, 16])}[question])
    cases.image(bytes(16), row(1))
    first = sum(map(len, cases.parts))
    cases.ask(IS_RIGHT)
    second = sum(map(len, cases.parts))
    cases.ask(LOCATE, 0x1000)
    end = sum(map(len, cases.parts))
    lines = [
        f"record at {first}, question {IS_RIGHT}: wanted 1, got 0",
        f"record at {second}, question {LOCATE}: wanted 0, got 0 with other values",
        f"no record can be read at {end}",
    ]
    return cases.bytes()[:-1], lines


def files():
    """What the folder holds, by name, and what the program must write of it."""
    cases = right_cases()
    wrong, lines = wrong_cases()
    asked = {IS_RIGHT: 0, LOCATE: 0}
    for (question, _), count in cases.by_answer.items():
        asked[question] += count
    text = [
        f"{IS_RIGHT} is_right: {asked[IS_RIGHT]} asked, 0 differ",
        f"{LOCATE} locate: {asked[LOCATE]} asked, 0 differ",
        f"{cases.questions} cases, 0 differ",
        "answers of the comparison with the crate:",
        *lines,
    ]
    return {"ranges": cases.bytes(), "oracle": wrong}, "".join(line + "\n" for line in text)


def main():
    if len(sys.argv) != 2 or sys.argv[1].startswith("-"):
        print("make_range_cases.py: expected one argument, the folder to write to", file=sys.stderr)
        return 2
    data, _ = files()
    for name, content in data.items():
        path = pathlib.Path(sys.argv[1]) / name
        try:
            path.write_bytes(content)
        except OSError as error:
            print(f"make_range_cases.py: can not write {path}: {error.strerror}", file=sys.stderr)
            return 1
        print(f"{path}: {len(content)} bytes")
    return 0


if __name__ == "__main__":
    sys.exit(main())
