"""Whole reports by the library, held to whole reports by the plain reading.

Both go through the same package, so a difference is one between the library and
tests/reference/reading.py, or a declaration that hands over something else.
"""

import json
import random
import unittest

from support import EXAMPLES, dumps, library, needs_library

from double import Double
import sample

from tablewalk import Image, Refused
from tablewalk.dump import layout_of_acpidump
from tablewalk.library import OUT32, OUT64, SIZE, SLICES, TABLE_QUESTIONS, U32
from tablewalk.report import board

SEED = 977


def fixed(data, offset, length):
    """The same image with the sum of one table made right."""
    image = bytearray(data)
    image[offset + 9] = (image[offset + 9] - sum(image[offset:offset + length])) % 256
    return bytes(image)


def platform(image):
    """What a kernel asks first, or the number that refuses it; a report has less of it."""
    try:
        return image.platform()
    except Refused as refused:
        return refused.number


@needs_library
class Agreement(unittest.TestCase):
    def setUp(self):
        self.library = library()
        self.double = Double()

    def same(self, data, ranges, rsdp):
        images = [Image(data, ranges, rsdp, backend) for backend in (self.library, self.double)]
        ours, theirs = ((json.dumps(board("board", image)), platform(image)) for image in images)
        self.assertEqual(ours, theirs, data.hex())

    def test_examples(self):
        for dump in dumps():
            layout = layout_of_acpidump(dump.read_bytes(), dump.name)
            self.same(layout.data, layout.ranges, layout.rsdp)

    def test_sample_damaged_byte_by_byte(self):
        data, ranges = sample.sample_image()
        tables = [sample.ROOT_TABLE, sample.MADT, sample.MCFG]
        for place in range(len(data)):
            for value in (0, 1, 0x23, 0xFF, data[place] ^ 1, data[place] + 1):
                damaged = bytearray(data)
                damaged[place] = value % 256
                self.same(bytes(damaged), ranges, sample.BASE)
                for offset, length in tables:
                    if offset <= place < offset + length:
                        self.same(fixed(damaged, offset, length), ranges, sample.BASE)

    def test_real_firmware_damaged(self):
        choose = random.Random(SEED)
        for dump in dumps():
            if not dump.name.startswith("qemu"):
                continue
            layout = layout_of_acpidump(dump.read_bytes(), dump.name)
            image = Image(layout.data, layout.ranges, layout.rsdp, self.library)
            tables = [listed.table for listed in image.tables()]
            for _ in range(300):
                table = choose.choice(tables)
                damaged = bytearray(layout.data)
                for _ in range(choose.choice([1, 1, 2, 4])):
                    damaged[table.offset + choose.randrange(table.length)] = choose.randrange(256)
                self.same(fixed(damaged, table.offset, table.length), layout.ranges, layout.rsdp)

    def test_ranges(self):
        data, _ = sample.sample_image()
        choose = random.Random(SEED + 1)
        for _ in range(300):
            cuts = sorted(choose.sample(range(1, len(data)), choose.randrange(4)))
            ends = [0, *cuts, len(data)]
            ranges = [
                (sample.BASE + a + choose.choice([0, 0, 0, 1]), b - a, a)
                for a, b in zip(ends, ends[1:])
            ]
            self.same(data, ranges, sample.BASE)

    def test_tables_by_themselves(self):
        # Each beginning of a table, with the length that it states and with its own; and
        # numbers of entries, registers and fields that there are, or that nothing has.
        image = Image.from_acpidump((EXAMPLES / "qemu-q35-seabios.dump").read_bytes())
        for signature in ("APIC", "MCFG", "HPET", "FACP"):
            table = image.view(image.find(signature)).data
            for end in [*range(len(table) + 1), len(table) + 24]:
                part = table[:end].ljust(end, b"\0")
                self.same_about(part)
                self.same_about(part[:4] + end.to_bytes(4, "little")[:max(0, end - 4)] + part[8:])

    def same_about(self, table):
        for question, parameters in TABLE_QUESTIONS.items():
            kinds = [kind for _, kind in parameters]
            for value in ASKED if U32 in kinds or SIZE in kinds else [0]:
                ours, theirs = (
                    self.answer(backend, question, kinds, table, value)
                    for backend in (self.library, self.double)
                )
                self.assertEqual(ours, theirs, f"{question} {value}: {table.hex()}")

    @staticmethod
    def answer(backend, question, kinds, table, value):
        """The number of an answer, and all that the lent buffers hold then."""
        buffers = [
            (SLICES[kind]._type_ * 40)(*range(100, 140)) if kind in (OUT64, OUT32) else value
            for kind in kinds
        ]
        number = backend.ask(f"tablewalk_table_{question}", [table, *buffers])
        return number, [list(b) for b in buffers if not isinstance(b, int)]


# Numbers of entries, registers and fields.
ASKED = (*range(13), 255, 0xFFFFFFFF)


if __name__ == "__main__":
    unittest.main()
