#!/usr/bin/env python3
"""Hold the plain reading to what docs/TABLES.md says of the sample image.

Prints a line for each disagreement, and 'N passed, M failed' at the end.
"""

import pathlib
import sys

import reading
import sample

REPOSITORY = pathlib.Path(__file__).resolve().parents[2]

BASE = sample.BASE
MADT = BASE + 0x80
MCFG = BASE + 0x100


def signature(text):
    return int.from_bytes(text.encode("ascii"), "little")


def with_byte(image, offset, value):
    return image[:offset] + bytes([value]) + image[offset + 1:]


def with_sum_fixed(image, start, length):
    """The table at `start` with its checksum byte set so that it sums to 0."""
    checksum = start + 9
    others = sum(image[start:start + length]) - image[checksum]
    return with_byte(image, checksum, -others % 256)


class Checks:
    def __init__(self):
        self.passed = 0
        self.failed = 0

    def same(self, what, found, expected):
        if found == expected:
            self.passed += 1
        else:
            self.failed += 1
            print(f"{what}: found {found}, expected {expected}", file=sys.stderr)


def listing_in_document():
    """The rows of the sample's listing as docs/TABLES.md prints them."""
    text = (REPOSITORY / "docs" / "TABLES.md").read_text(encoding="utf-8")
    section = text.split("\n## 12. Sample\n")[1]
    rows = [row.strip() for row in section.split("\n") if row.startswith("    ")]
    return [row.split() for row in rows]


def main():
    image, list_of_ranges = sample.sample_image()
    ranges = [number for one in list_of_ranges for number in one]
    checks = Checks()

    own_rows = [row.split() for row in sample.LISTING.strip().split("\n")]
    checks.same("listing in docs/TABLES.md", listing_in_document(), own_rows)

    def ask(what, question, arguments, expected, changed=image):
        checks.same(what, reading.ask_image(question, changed, ranges, arguments), expected)

    ask("ranges", 1, [], (0, []))
    ask("root pointer", 2, [BASE], (0, [2, 36, 0, BASE + 0x40]))
    ask("search", 3, [], (18, []))
    ask("root table", 4, [BASE], (0, [1, BASE + 0x40, 0x40, 52, 8, 2]))
    ask("entry 0", 5, [BASE, 0], (0, [MADT]))
    ask("entry 1", 5, [BASE, 1], (0, [MCFG]))
    ask("entry 2", 5, [BASE, 2], (13, []))
    ask("find MADT", 6, [BASE, signature("APIC"), 44], (0, [MADT, 0x80, 88]))
    ask("find MCFG", 6, [BASE, signature("MCFG"), 44], (0, [MCFG, 0x100, 60]))
    ask("find HPET", 6, [BASE, signature("HPET"), 56], (12, []))
    ask("second MADT", 7, [BASE, signature("APIC"), 44, 1], (12, []))
    ask("table 0", 8, [BASE, 0], (0, [MADT, 0x80, 88]))
    ask("table 1", 8, [BASE, 1], (0, [MCFG, 0x100, 60]))
    ask("table 2", 8, [BASE, 2], (12, []))
    ask("MADT by address", 9, [MADT, signature("APIC"), 44], (0, [MADT, 0x80, 88]))
    ask("MCFG by address", 10, [MCFG], (0, [MCFG, 0x100, 60]))

    def ask_table(what, table, question, arguments, expected):
        checks.same(what, reading.ask_table(question, table, arguments), expected)

    madt = image[0x80:0x80 + 88]
    mcfg = image[0x100:0x100 + 60]
    ask_table("MCFG entries", mcfg, 20, [], (0, [1]))
    ask_table("MCFG entry 0", mcfg, 21, [0], (0, [0xB0000000, 0, 0, 63]))
    ask_table("MCFG entry 1", mcfg, 21, [1], (13, []))
    ask_table("bus 12, device 3, function 1", mcfg, 22, [0, 12, 3, 1], (0, [0xB0C19000]))
    ask_table("bus 64", mcfg, 22, [0, 64, 0, 0], (13, []))
    ask_table("segment 1", mcfg, 22, [1, 0, 0, 0], (13, []))
    ask_table("device 32", mcfg, 22, [0, 1, 32, 0], (13, []))
    ask_table("function 8", mcfg, 22, [0, 1, 0, 8], (13, []))
    ask_table("MADT fixed part", madt, 50, [], (0, [0xFEE00000, 1, 1]))
    offsets = [(0, 44, 8), (0, 52, 8), (1, 60, 12), (2, 72, 10), (4, 82, 6)]
    for k, entry in enumerate(offsets):
        ask_table(f"MADT entry {k}", madt, 51, [k], (0, list(entry)))
    ask_table("MADT entry 5", madt, 51, [5], (13, []))
    ask_table("model", madt, 52, [], (0, [1, 0xFEE00000, 1, 2, 1, 1, 0, 1]))
    ask_table("lists", madt, 53, [], (0, [
        [0, 0, 2, 1, 2, 1],
        [2, 0xFEC00000, 0],
        [0, 2, 0],
        [],
        [0xFFFFFFFF, 1],
    ]))
    ask_table("mailbox", madt, 54, [], (15, []))

    # The three damaged places that docs/TABLES.md names.
    changed = with_byte(image, 0xD3, 0)
    ask("entry of length 0", 6, [BASE, signature("APIC"), 44], (12, []), changed)
    changed = with_sum_fixed(changed, 0x80, 88)
    ask("the same, sum fixed", 6, [BASE, signature("APIC"), 44], (0, [MADT, 0x80, 88]), changed)
    ask_table("its model", changed[0x80:0x80 + 88], 52, [], (15, []))
    changed = with_byte(image, 0x84, 0x23)
    ask("MADT of 35 bytes", 6, [BASE, signature("APIC"), 44], (12, []), changed)
    changed = with_sum_fixed(changed, 0x80, 0x23)
    ask("the same, sum fixed", 6, [BASE, signature("APIC"), 44], (12, []), changed)
    ask("the same by address", 10, [MADT], (11, []), changed)
    changed = with_byte(image, 0x14, 0xFF)
    ask("root pointer of 255 bytes", 2, [BASE], (5, []), changed)

    print(f"{checks.passed} passed, {checks.failed} failed")
    return 1 if checks.failed else 0


if __name__ == "__main__":
    sys.exit(main())
