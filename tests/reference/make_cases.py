#!/usr/bin/env python3
"""Write images, questions and the answers of the plain reading to a file.

The program replay asks the proved code the same questions and must get the same
answers, so that the code is held to a reading that was written apart from it. The
same file comes out of every run. It is stored as crates/replay/data/questions,
and check_cases.py says if the two are not the same.

Usage: make_cases.py FILE

The file is a row of records. Every number is stored lowest byte first.

  1  an image: u32 kind = 1, u32 number of range words, each word as u64,
     u32 number of bytes, the bytes, zeros up to a multiple of 4.
     It is the current image from here on.
  2  a question: u32 kind = 2, u32 number of the question,
     u32 number of patches, for each u32 offset and u32 byte,
     u32 number of arguments, each as u64,
     u32 answer, u32 number of values, each as u64.
     The patches hold for this one question only.
  0  the end: u32 kind = 0.

reading.py says what each question's number, arguments and values are.
"""

import struct
import sys

import reading
import sample

BASE = sample.BASE
TOP = 2 ** 64


def signature(text):
    return int.from_bytes(text, "little")


APIC = signature(b"APIC")
MCFG = signature(b"MCFG")
HPET = signature(b"HPET")
SSDT = signature(b"SSDT")
XSDT = signature(b"XSDT")
RSDT = signature(b"RSDT")


class Cases:
    """Collects the records, and asks the plain reading for every answer, or
    whatever else answers a question about an image."""

    def __init__(self, answer=reading.ask_image):
        self.answer = answer
        self.parts = []
        self.images = 0
        self.questions = 0
        self.by_answer = {}
        self.image_now = b""
        self.ranges_now = []

    def image(self, image, ranges):
        """Make an image with a flat list of ranges the current one."""
        self.image_now = bytes(image)
        self.ranges_now = list(ranges)
        self.images += 1
        self.parts.append(struct.pack("<II", 1, len(ranges)))
        self.parts.append(struct.pack(f"<{len(ranges)}Q", *ranges))
        self.parts.append(struct.pack("<I", len(image)))
        self.parts.append(self.image_now)
        self.parts.append(bytes(-len(image) % 4))

    def ask(self, question, *arguments, patches=()):
        changed = bytearray(self.image_now)
        for offset, value in patches:
            changed[offset] = value
        answer, values = self.answer(
            question, bytes(changed), self.ranges_now, arguments
        )
        self.questions += 1
        key = (question, answer)
        self.by_answer[key] = self.by_answer.get(key, 0) + 1
        self.parts.append(struct.pack("<III", 2, question, len(patches)))
        for offset, value in patches:
            self.parts.append(struct.pack("<II", offset, value))
        self.parts.append(struct.pack("<I", len(arguments)))
        self.parts.append(struct.pack(f"<{len(arguments)}Q", *arguments))
        self.parts.append(struct.pack("<II", answer, len(values)))
        self.parts.append(struct.pack(f"<{len(values)}Q", *values))

    def ask_all(self, root_pointer, table, searched=True):
        """Every question once, about a root pointer and a table at addresses. The
        search takes the plain reading long, so it can be left out."""
        self.ask(1)
        self.ask(2, root_pointer)
        if searched:
            self.ask(3)
        self.ask(4, root_pointer)
        self.ask(5, root_pointer, 0)
        self.ask(6, root_pointer, APIC, 44)
        self.ask(7, root_pointer, MCFG, 44, 0)
        self.ask(8, root_pointer, 1)
        self.ask(9, table, APIC, 44)
        self.ask(10, table)

    def bytes(self):
        return b"".join(self.parts) + struct.pack("<I", 0)


# Making images.


def sum_byte(data, checksum, length):
    """What the checksum byte must be for the first `length` bytes to sum to 0."""
    others = sum(data[:length])
    if checksum < length:
        others -= data[checksum]
    return -others % 256


def make_root_pointer(revision, rsdt_address, xsdt_address, length=36):
    """A root pointer of 20 bytes for revision 0 and of 36 for any other. The sum
    is fixed over the stated length, where that is one that can be summed."""
    data = bytearray(b"RSD PTR \0ROWANS" + bytes([revision]))
    data += struct.pack("<I", rsdt_address)
    if revision != 0:
        data += struct.pack("<IQ", length, xsdt_address) + bytes(4)
    summed = 20 if revision == 0 else min(length, 36)
    data[8] = sum_byte(data, 8, summed)
    return bytes(data)


def make_table(name, body, length=None, revision=1, maker=b"ROWANS", table_id=b"BLADE-07"):
    """A table with its sum fixed over the stated length. A stated length that is
    not the true one is for damaged tables."""
    true_length = 36 + len(body)
    stated = true_length if length is None else length
    data = bytearray(name + struct.pack("<I", stated) + bytes([revision, 0]))
    data += maker + table_id + struct.pack("<I", 1) + b"RWN " + struct.pack("<I", 1)
    data += body
    data[9] = sum_byte(data, 9, min(stated, true_length))
    return bytes(data)


def make_xsdt(addresses, rest=b"", length=None):
    body = b"".join(struct.pack("<Q", address) for address in addresses) + rest
    return make_table(b"XSDT", body, length)


def make_rsdt(addresses, rest=b"", length=None):
    body = b"".join(struct.pack("<I", address) for address in addresses) + rest
    return make_table(b"RSDT", body, length)


def lay(pieces, length=None):
    """One image out of pieces by offset; what is between them is zero."""
    end = max((offset + len(piece) for offset, piece in pieces), default=0)
    image = bytearray(end if length is None else length)
    for offset, piece in pieces:
        image[offset:offset + len(piece)] = piece
    return bytes(image)


# The cases, group by group.


def sample_cases(cases):
    image, list_of_ranges = sample.sample_image()
    cases.image(image, [number for one in list_of_ranges for number in one])
    cases.ask_all(BASE, BASE + 0x80)
    for k in [0, 1, 2, 3, 2 ** 32, 2 ** 61, 2 ** 63, TOP - 1]:
        cases.ask(5, BASE, k)
        cases.ask(7, BASE, APIC, 44, k)
        cases.ask(8, BASE, k)
    for wanted in [APIC, MCFG, HPET, XSDT, 0, 0xFFFFFFFF]:
        for least in [0, 36, 44, 60, 61, 88, 89, 2 ** 32 - 1]:
            cases.ask(6, BASE, wanted, least)
    for address in [0, BASE - 1, BASE, BASE + 1, BASE + 0x40, BASE + 0x80,
                    BASE + 0x81, BASE + 0x100, BASE + 0x118, BASE + 0x119,
                    BASE + 0x13B, BASE + 0x13C, 2 ** 32 + BASE, TOP - 36, TOP - 1]:
        cases.ask(2, address)
        cases.ask(4, address)
        cases.ask(9, address, APIC, 44)
        cases.ask(9, address, XSDT, 36)
        cases.ask(10, address)

    # The places that docs/TABLES.md names.
    cases.ask(6, BASE, APIC, 44, patches=[(0xD3, 0)])
    cases.ask(6, BASE, APIC, 44, patches=[(0x84, 0x23)])
    cases.ask(4, BASE, patches=[(0x14, 0xFF)])
    cases.ask(6, BASE, HPET, 56)


def damaged_values(value):
    """Four ways to damage a byte, without those that change nothing."""
    values = []
    for damaged in [value ^ 0x01, value ^ 0x80, 0x00, 0xFF]:
        if damaged != value and damaged not in values:
            values.append(damaged)
    return values


def damage_cases(cases):
    """Every byte of the sample's structures damaged, with the sum fixed and not."""
    image, list_of_ranges = sample.sample_image()
    cases.image(image, [number for one in list_of_ranges for number in one])
    madt = BASE + 0x80
    mcfg = BASE + 0x100
    structures = [
        (sample.ROOT_POINTER, 8, [(2, BASE), (4, BASE), (6, BASE, APIC, 44)]),
        (sample.ROOT_TABLE, 9, [(4, BASE), (5, BASE, 1), (6, BASE, MCFG, 44), (8, BASE, 0)]),
        (sample.MADT, 9, [(6, BASE, APIC, 44), (9, madt, APIC, 44), (10, madt), (8, BASE, 0)]),
        (sample.MCFG, 9, [(7, BASE, MCFG, 44, 0), (9, mcfg, MCFG, 44), (10, mcfg)]),
    ]
    for (start, length), checksum, questions in structures:
        for place in range(length):
            for value in damaged_values(image[start + place]):
                one = [(start + place, value)]
                for question in questions:
                    cases.ask(*question, patches=one)

                # The sum is fixed over the length that the damaged structure
                # states, so that a changed length does not hide behind its sum.
                changed = bytearray(image[start:])
                changed[place] = value
                if start == 0:
                    stated = int.from_bytes(changed[20:24], "little") if changed[15] else 20
                else:
                    stated = int.from_bytes(changed[4:8], "little")
                if stated > len(changed):
                    stated = length
                fixed = sum_byte(changed, checksum, stated)
                if place == checksum or fixed == changed[checksum]:
                    continue
                for question in questions:
                    cases.ask(*question, patches=one + [(start + checksum, fixed)])


def root_pointer_cases(cases):
    """Every stated length of a root pointer, its revisions, and what is mapped."""
    for revision in [1, 2, 3, 255]:
        for length in list(range(0, 41)) + [0x100, 0x10024, 2 ** 31, 2 ** 32 - 1]:
            if revision != 2 and length not in [0, 19, 20, 33, 36, 37]:
                continue
            data = make_root_pointer(revision, 0x1000, 0x2000, length) + bytes(28)
            cases.image(data, [0x500, len(data), 0])
            cases.ask(2, 0x500)
    for revision in [0, 1, 2]:
        data = make_root_pointer(revision, 0x1000, 0x2000)
        for mapped in [0, 1, 15, 16, 19, 20, 21, 35, 36]:
            mapped = min(mapped, len(data))
            cases.image(data, [0x500, mapped, 0])
            cases.ask(2, 0x500)
            cases.ask(4, 0x500)
            # Faults beside one that is not mapped: the smaller number answers.
            cases.ask(2, 0x500, patches=[(0, 0)])
            cases.ask(2, 0x500, patches=[(9, 0xFF)])
    # Several faults at once.
    data = make_root_pointer(2, 0x1000, 0x2000)
    cases.image(data, [0, len(data), 0])
    faults = [(0, 0x52 ^ 1), (9, 0x80), (30, 7)]
    for chosen in range(8):
        cases.ask(2, 0, patches=[faults[i] for i in range(3) if chosen >> i & 1])
    # Every text in the maker's field that ends in a cut-off or a whole sequence.
    for text in ["41c280", "c2", "e0a080", "e09f80", "eda080", "f0908080", "f48fbfbf",
                 "f4908080", "80", "c080", "ff", "000000000000"]:
        for offset in range(6):
            piece = (b"A" * offset + bytes.fromhex(text) + b"AAAAAA")[:6]
            patches = [(9 + i, byte) for i, byte in enumerate(piece)]
            changed = bytearray(data)
            changed[9:15] = piece
            patches.append((8, sum_byte(changed, 8, 36)))
            cases.ask(2, 0, patches=patches)


def search_cases(cases):
    good_old = make_root_pointer(0, 0x1000, 0)
    good_new = make_root_pointer(2, 0, 0x2000)

    # One candidate at a time, in a range of its own: at the ends of the areas,
    # beside a multiple of 16, and at places that are in neither area.
    for address in [0xE0000, 0xE0001, 0xE0008, 0xE0010, 0xDFFF0, 0xFFFD0, 0xFFFE0, 0xFFFF0,
                    0x100000, 0x80000, 0x7FFF0, 0x80010, 0x9FFE0, 0x9FFF0, 0xA0000]:
        for data in [good_old, good_new]:
            cases.image(data, [address, len(data), 0])
            cases.ask(3)
            cases.image(data, [address, len(data) - 1, 0])
            cases.ask(3)

    # The word at 40e chooses the second area.
    for word in [0x0000, 0x7FFF, 0x8000, 0x8001, 0x9000, 0x9FBF, 0x9FC0, 0x9FFE, 0x9FFF, 0xA000, 0xFFFF]:
        start = word * 16
        for address in sorted({0x80000, start, start + 16, start + 0x3E0, start + 0x3F0, start + 0x400, 0x9FFE0}):
            if not 0x80000 <= address:
                continue
            image = struct.pack("<H", word) + good_old
            cases.image(image, [0x40E, 2, 0, address, len(good_old), 2])
            cases.ask(3)
            if address == start:
                cases.image(image, [0x40E, 1, 0, address, len(good_old), 2])
                cases.ask(3)

    # Two candidates: the first valid one wins, and the area from e0000 goes first.
    for first in [
        good_old,
        good_new,
        make_root_pointer(2, 0, 0x2000, 0),
        make_root_pointer(2, 0, 0x2000, 19),
        make_root_pointer(2, 0, 0x2000, 37),
        b"RSD PTR " + bytes(12),
        bytes([0x52 ^ 1]) + good_new[1:],
        good_new[:9] + b"\xff" + good_new[10:],
        good_new[:33] + b"\x01" + good_new[34:],
    ]:
        image = lay([(0, first), (48, good_new), (96, good_old)])
        cases.image(image, [0xE0000, len(image), 0])
        cases.ask(3)
        cases.image(image, [0x80000, 84, 0, 0xE0000, len(image), 0])
        cases.ask(3)
        cases.image(image, [0x80000, 84, 0, 0xE0020, len(image) - 36, 36])
        cases.ask(3)

    # A root pointer across the border of two touching ranges is not mapped.
    for border in range(1, 36):
        cases.image(good_new, [0xE0000, border, 0, 0xE0000 + border, 36 - border, border])
        cases.ask(3)
        cases.ask(2, 0xE0000)

    # Both areas whole, over the same bytes.
    image = bytes(0x20000) + b"\x00\x90"
    cases.image(image, [0x40E, 2, 0x20000, 0x80000, 0x20000, 0, 0xE0000, 0x20000, 0])
    cases.ask(3)
    for offset in [0, 0x10, 0xFFF0, 0x10000, 0x103E0, 0x103F0, 0x1FFD0, 0x1FFE0]:
        patches = [(offset + i, byte) for i, byte in enumerate(good_old)]
        cases.ask(3, patches=patches)
        cases.ask(3, patches=patches + [(offset, 0)])


def wrong_list_cases(cases):
    """Wrong lists, each asked everything; and lists that are just right."""
    image, _ = sample.sample_image()
    size = len(image)
    lists = [
        [],
        [BASE],
        [BASE, size],
        [BASE, size, 0],
        [BASE, size, 0, 0],
        [BASE, size, 0, BASE + size],
        [BASE, size + 1, 0],
        [BASE, size, 1],
        [BASE, size - 1, 1],
        [BASE, 0, size],
        [BASE, 0, size + 1],
        [BASE, 1, size],
        [BASE, size, TOP - 1],
        [BASE, TOP - 1, 0],
        [BASE, TOP - 1, TOP - 1],
        [BASE, 1, TOP - 1],
        [BASE, 0, TOP - 1],
        # Ascending, equal and descending starts.
        [0, 16, 0, BASE, size, 0],
        [BASE, size, 0, BASE, size, 0],
        [BASE, 0, 0, BASE, size, 0],
        [BASE, size, 0, BASE, 0, 0],
        [BASE, size, 0, 0, 16, 0],
        [BASE, size, 0, BASE - 1, 1, 0],
        # Touching, and overlapping by one byte.
        [BASE - 16, 16, 0, BASE, size, 0],
        [BASE - 16, 17, 0, BASE, size, 0],
        [BASE, size, 0, BASE + size, 16, 0],
        [BASE, size, 0, BASE + size - 1, 16, 0],
        # A range of length 0 beside, at the end of and inside another.
        [BASE - 1, 0, 0, BASE, size, 0],
        [BASE, size, 0, BASE + size, 0, 0],
        [BASE, size, 0, BASE + size, 0, size],
        [BASE, size, 0, BASE + size - 1, 0, 0],
        [BASE, size, 0, BASE + 1, 0, 0],
        # The fault in the last of three.
        [0, 16, 0, 32, 16, 0, BASE, size + 1, 0],
        [0, 16, 0, BASE, size, 0, BASE + 64, 16, 0],
        [0, TOP - 1, 0, BASE, size, 0],
        # The end of memory.
        [TOP - 16, 16, 0],
        [TOP - 16, 17, 0],
        [TOP - size, size, 0],
        [TOP - size + 1, size, 0],
        [TOP - 1, 1, 0],
        [TOP - 1, 2, 0],
        [TOP - 1, 0, 0],
        [TOP - 1, 1, size - 1],
        [TOP - 1, 1, size],
        [BASE, size, 0, TOP - 16, 16, 0],
        [BASE, size, 0, TOP - 16, 17, 0],
    ]
    for one in lists:
        cases.image(image, one)
        cases.ask_all(BASE, BASE + 0x80)

    # 64 ranges are right and 65 are not, wherever the sample's range stands.
    for count in [63, 64, 65, 66]:
        for place in [0, 31, count - 1]:
            many = []
            for i in range(count):
                if i == place:
                    many += [BASE, size, 0]
                elif i < place:
                    many += [i * 16, 1 + i % 16, i]
                else:
                    many += [BASE + 0x1000 + i * 16, 1 + i % 16, i]
            cases.image(image, many)
            cases.ask_all(BASE, BASE + 0x80, searched=place == 0)
    # Numbers that are no whole range after 64 of them.
    many = []
    for i in range(64):
        many += [i * 16, 16, 0]
    for rest in [[], [TOP - 1], [TOP - 1, 0]]:
        cases.image(image, many + rest)
        cases.ask(1)

    # No bytes at all.
    for one in [[], [0, 0, 0], [BASE, 0, 0], [TOP - 1, 0, 0], [0, 1, 0], [0, 0, 1]]:
        cases.image(b"", one)
        cases.ask_all(BASE, BASE + 0x80)
        cases.ask_all(0, TOP - 1)


def mapped_part_cases(cases):
    """Ranges that end at, before and after the end of a structure, that begin
    inside of one, and that touch in the middle of one."""
    image, _ = sample.sample_image()
    size = len(image)
    for end in [0, 1, 19, 20, 35, 36, 0x40, 0x63, 0x64, 0x73, 0x74, 0x80, 0xA3, 0xA4,
                0xD7, 0xD8, 0x100, 0x123, 0x124, 0x13B, 0x13C]:
        cases.image(image, [BASE, end, 0])
        cases.ask_all(BASE, BASE + 0x80, searched=False)
        cases.ask(7, BASE, MCFG, 36, 0)
        cases.ask(10, BASE + 0x100)
    for begin in [1, 0x40, 0x41, 0x80, 0x81, 0x100, 0x101]:
        cases.image(image, [BASE + begin, size - begin, begin])
        cases.ask_all(BASE, BASE + 0x80, searched=False)
        cases.ask(10, BASE + 0x100)
    for border in [1, 8, 16, 19, 20, 21, 35, 36, 0x40, 0x41, 0x44, 0x63, 0x64, 0x65, 0x73, 0x74,
                   0x80, 0x81, 0xA3, 0xA4, 0xA5, 0xD7, 0xD8, 0x100, 0x101, 0x124, 0x13B]:
        cases.image(image, [BASE, border, 0, BASE + border, size - border, border])
        cases.ask_all(BASE, BASE + 0x80, searched=False)
        cases.ask(6, BASE, MCFG, 44)
    # The bytes of one range stand elsewhere in the image, and in the wrong order.
    turned = image[0x80:] + image[:0x80]
    cases.image(turned, [BASE, 0x80, size - 0x80, BASE + 0x80, size - 0x80, 0])
    cases.ask_all(BASE, BASE + 0x80)
    # Two physical ranges show the same bytes.
    cases.image(image, [BASE - 0x10000, size, 0, BASE, size, 0])
    cases.ask_all(BASE, BASE + 0x80)
    cases.ask_all(BASE - 0x10000, BASE - 0x10000 + 0x80)


def root_table_cases(cases):
    """Root tables of every length that matters, and entries that lead astray."""
    base = 0x10000
    apic = make_table(b"APIC", bytes(8))
    mcfg = make_table(b"MCFG", bytes(8))

    for revision in [0, 1, 2, 255]:
        make_root = make_rsdt if revision == 0 else make_xsdt
        pointer = make_root_pointer(revision, base + 0x40, base + 0x40)
        for length in [0, 1, 4, 8, 9, 10, 35, 36, 37, 39, 40, 41, 43, 44, 45, 47, 48, 51, 52, 60, 0xFF,
                       0x1BF, 0x1C0, 0x1C1, 0x10000, 2 ** 31, 2 ** 32 - 1]:
            root = make_root([base + 0x200, base + 0x240], bytes(0x200), length)[:0x1C0]
            # make_table fixes the sum over the bytes that it made, and here some
            # of them are cut off and others come after it.
            image = bytearray(lay([(0, pointer), (0x40, root), (0x200, apic), (0x240, mcfg)]))
            if length <= len(image) - 0x40:
                image[0x49] = sum_byte(image[0x40:], 9, length)
            cases.image(image, [base, len(image), 0])
            for question in [(4, base), (5, base, 0), (5, base, 1), (6, base, APIC, 44),
                             (6, base, MCFG, 44), (8, base, 1)]:
                cases.ask(*question)
            # The same with a wrong sum, a wrong header, and the other root's name.
            cases.ask(4, base, patches=[(0x60, 0x77)])
            cases.ask(4, base, patches=[(0x40, 0)])
            cases.ask(4, base, patches=[(0x4A, 0xFF)])
            cases.ask(4, base, patches=[(0x50, 0xFF)])
        other = b"XSDT" if revision == 0 else b"RSDT"
        root = make_table(other, bytes(16))
        image = lay([(0, pointer), (0x40, root)])
        cases.image(image, [base, len(image), 0])
        cases.ask(4, base)

    # An entry that leads to itself, to the root table, to the root pointer, to
    # nothing, or to the end of memory, before and after a good one.
    pointer = make_root_pointer(2, 0, base + 0x40)
    own_place = base + 0x40 + 36
    for astray in [own_place, base + 0x40, base, 0, base + 0x41, base + 0x1FF, base + 0x300,
                   TOP - 1, TOP - 35, TOP - 36, TOP - 44, 2 ** 32 + base + 0x200, 2 ** 63]:
        for addresses in [[astray], [astray, base + 0x200], [base + 0x200, astray],
                          [astray] * 3 + [base + 0x200, base + 0x240]]:
            image = lay([(0, pointer), (0x40, make_xsdt(addresses)), (0x200, apic), (0x240, mcfg)])
            cases.image(image, [base, len(image), 0])
            cases.ask(4, base)
            cases.ask(6, base, APIC, 44)
            cases.ask(6, base, XSDT, 36)
            cases.ask(8, base, 0)
            cases.ask(8, base, len(addresses) - 1)
            cases.ask(9, astray, XSDT, 36)
            cases.ask(10, astray)
            cases.ask(10, own_place)
    # The same for an RSDT, whose entries have 32 bits.
    pointer = make_root_pointer(0, base + 0x40, 0)
    for astray in [own_place, base + 0x40, base, 0, 2 ** 32 - 1, 2 ** 31]:
        image = lay([(0, pointer), (0x40, make_rsdt([astray, base + 0x200, astray, base + 0x240])),
                     (0x200, apic), (0x240, mcfg)])
        cases.image(image, [base, len(image), 0])
        cases.ask_all(base, base + 0x200)
        cases.ask(6, base, MCFG, 44)
        cases.ask(6, base, RSDT, 36)
        for k in range(5):
            cases.ask(5, base, k)
    # The root pointer leads to itself, past everything, and to the very end.
    for address in [base, base + 1, base + 0x40, 0, TOP - 1, TOP - 36, 2 ** 32 + base + 0x40]:
        image = lay([(0, make_root_pointer(2, 0, address)), (0x40, make_xsdt([base + 0x80])), (0x80, apic)])
        cases.image(image, [base, len(image), 0])
        cases.ask(4, base)
        cases.ask(6, base, APIC, 44)


def first_valid_cases(cases):
    """Invalid twins in front of a valid table, and several valid ones."""
    base = 0x20000
    good = make_table(b"SSDT", b"good code")
    other = make_table(b"APIC", bytes(8))
    twins = {
        "sum": good[:40] + b"!" + good[41:],
        "short": make_table(b"SSDT", b"good code", 35),
        "zero": make_table(b"SSDT", b"good code", 0),
        "maker": make_table(b"SSDT", b"good code", maker=b"ROWAN\xff"),
        "id": make_table(b"SSDT", b"good code", table_id=b"BLADE\xed\xa0\x80"),
        "long": make_table(b"SSDT", b"good code", 0x1000),
        "longest": make_table(b"SSDT", b"good code", 2 ** 32 - 1),
        "fits": make_table(b"SSDT", b"good code", 40),
        "text": make_table(b"\xff\xfe\xfd\xfc", b"good code"),
        "accent": make_table("SSé".encode("utf-8"), b"good code"),
        "good": good,
        "other": other,
    }
    pointer = make_root_pointer(2, 0, base + 0x40)
    names = list(twins)
    for name in names:
        pieces = [(0x100, twins[name]), (0x140, good), (0x180, other), (0x1C0, good)]
        addresses = [base + offset for offset, _ in pieces]
        image = lay([(0, pointer), (0x40, make_xsdt(addresses))] + pieces)
        cases.image(image, [base, len(image), 0])
        for least in [0, 36, 40, 41, 45, 46]:
            cases.ask(6, base, SSDT, least)
        for n in range(4):
            cases.ask(7, base, SSDT, 36, n)
            cases.ask(8, base, n)
        cases.ask(8, base, 4)
        cases.ask(9, addresses[0], SSDT, 36)
        cases.ask(9, addresses[0], signature(twins[name][:4]), 36)
        cases.ask(10, addresses[0])
    # The order of the entries decides, not the order in memory; an entry that
    # is listed twice counts twice.
    for order in [[0x140, 0x100, 0x1C0], [0x1C0, 0x1C0, 0x140], [0x180, 0x1C0, 0x140, 0x180]]:
        pieces = [(0x100, twins["sum"]), (0x140, good), (0x180, other), (0x1C0, good)]
        image = lay([(0, pointer), (0x40, make_xsdt([base + offset for offset in order]))] + pieces)
        cases.image(image, [base, len(image), 0])
        for n in range(5):
            cases.ask(7, base, SSDT, 36, n)
            cases.ask(7, base, APIC, 44, n)
            cases.ask(8, base, n)
    # A reader that sums over what is mapped and not over the stated length would
    # refuse this table for the byte after it, and take the next one for that byte.
    exact = make_table(b"SSDT", bytes(4))
    beyond = bytearray(exact + b"\x01")
    beyond[9] = (beyond[9] - 1) % 256
    for table in [exact + b"\x01", bytes(beyond)]:
        image = lay([(0, pointer), (0x40, make_xsdt([base + 0x100])), (0x100, table)])
        cases.image(image, [base, len(image), 0])
        cases.ask(6, base, SSDT, 36)
        cases.ask(10, base + 0x100)
    # Sixty tables, of which the last is the one that is asked for.
    pieces = []
    for i in range(60):
        name = b"SSDT" if i % 7 == 3 else b"T%03d" % i
        pieces.append((0x300 + i * 0x30, make_table(b"APIC" if i == 59 else name, bytes(8))))
    image = lay([(0, pointer), (0x40, make_xsdt([base + offset for offset, _ in pieces]))] + pieces)
    cases.image(image, [base, len(image), 0])
    for n in [0, 1, 7, 8, 9, 30, 59, 60]:
        cases.ask(7, base, SSDT, 36, n)
        cases.ask(8, base, n)
        cases.ask(5, base, n)
    cases.ask(6, base, APIC, 44)
    cases.ask(6, base, APIC, 45)


def order_of_numbers_cases(cases):
    """A table at an address with every set of faults: which number answers."""
    address = 0x30000
    body = bytes(range(20))
    true_length = 36 + len(body)
    pointer = make_root_pointer(2, 0, 0x40000)
    for length in [0, 8, 35, 36, 43, 44, true_length, true_length + 1, 2 ** 32 - 1]:
        for mapped in [0, 35, 36, 44, true_length - 1, true_length]:
            image = make_table(b"APIC", body, length)
            # The same bytes as a table, and as a root table that 0x50000 leads to.
            root = b"XSDT" + image[4:]
            root_image = bytearray(root)
            root_image[9] = sum_byte(root_image, 9, min(length, true_length))
            whole = lay([(0, image), (0x40, bytes(root_image)), (0x80, pointer)])
            cases.image(whole, [address, mapped, 0, 0x40000, mapped, 0x40, 0x50000, 36, 0x80])
            faults = [(0, 0x20), (10, 0xFF), (16, 0xC1), (9, (image[9] + 1) % 256)]
            root_faults = [(0x40, 0x20), (0x4A, 0xFF), (0x50, 0xC1), (0x49, (root_image[9] + 1) % 256)]
            for chosen in [0, 1, 2, 4, 8, 15, 14, 12, 9]:
                patches = [faults[i] for i in range(4) if chosen >> i & 1]
                cases.ask(9, address, APIC, 44, patches=patches)
                if chosen in [0, 8, 12]:
                    cases.ask(10, address, patches=patches)
                patches = [root_faults[i] for i in range(4) if chosen >> i & 1]
                cases.ask(4, 0x50000, patches=patches)


def end_of_memory_cases(cases):
    """Tables in a range that ends at 2^64, where an address plus a length can be
    2^64 or more."""
    for slack in [0, 1, 16]:
        base = TOP - 0x200 - slack
        apic = make_table(b"APIC", bytes(8))
        mcfg = make_table(b"MCFG", bytes(0x200 - 0x1C0 - 36))
        pointer = make_root_pointer(2, 0, base + 0x40)
        addresses = [base + 0x1F0, TOP - 1, TOP - 35, TOP - 36, base + 0x100, base + 0x1C0]
        image = lay([(0, pointer), (0x40, make_xsdt(addresses)), (0x100, apic), (0x1C0, mcfg)], 0x200)
        cases.image(image, [base, 0x200, 0])
        cases.ask_all(base, base + 0x100)
        for n in range(3):
            cases.ask(8, base, n)
        for k in range(7):
            cases.ask(5, base, k)
        for address in addresses + [base + 0x1DC, base + 0x1DD]:
            cases.ask(2, address)
            cases.ask(9, address, MCFG, 44)
            cases.ask(10, address)
        for length in [0x40, 0x41, 0x7FFFFFFF, 0xFFFFFFFF]:
            stated = [(0x1C4 + i, byte) for i, byte in enumerate(struct.pack("<I", length))]
            cases.ask(9, base + 0x1C0, MCFG, 44, patches=stated)
            cases.ask(6, base, MCFG, 44, patches=stated)
    # Only the last byte of memory is mapped, and an entry leads there.
    base = 0x10000
    image = lay([(0, make_root_pointer(2, 0, base + 0x40)), (0x40, make_xsdt([TOP - 1, TOP - 36]))])
    cases.image(image, [base, len(image), 0, TOP - 1, 1, 0])
    cases.ask_all(base, TOP - 1)
    cases.image(image, [base, len(image), 0, TOP - 36, 36, 0])
    cases.ask_all(base, TOP - 36)


GROUPS = [
    sample_cases,
    damage_cases,
    root_pointer_cases,
    search_cases,
    wrong_list_cases,
    mapped_part_cases,
    root_table_cases,
    first_valid_cases,
    order_of_numbers_cases,
    end_of_memory_cases,
]


def all_cases():
    cases = Cases()
    for group in GROUPS:
        group(cases)
    return cases


def main():
    if len(sys.argv) != 2 or sys.argv[1].startswith("-"):
        print("make_cases.py: expected one argument, the file to write", file=sys.stderr)
        return 2
    cases = all_cases()
    content = cases.bytes()
    try:
        with open(sys.argv[1], "wb") as file:
            file.write(content)
    except OSError as error:
        print(f"make_cases.py: can not write {sys.argv[1]}: {error.strerror}", file=sys.stderr)
        return 1
    print(f"{cases.images} images, {cases.questions} questions, {len(content)} bytes")
    for (question, answer), count in sorted(cases.by_answer.items()):
        print(f"question {question}: answer {answer}, {count} times")
    return 0


if __name__ == "__main__":
    sys.exit(main())
