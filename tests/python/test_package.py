"""The package's questions, asked of the sample board and of images around it."""

import dataclasses
import doctest
import os
import pickle
import threading
import unittest

from support import EXAMPLES, ROOT, InFolder, library, needs_library

import sample

from tablewalk import (
    ALL_PROCESSORS,
    DumpError,
    Image,
    Library,
    LibraryMissing,
    PciConfigEntry,
    PmTimer,
    Range,
    Refused,
    Table,
    TableBytes,
)
from tablewalk.library import FUNCTIONS

BASE = sample.BASE


class Sample(unittest.TestCase):
    def setUp(self):
        data, ranges = sample.sample_image()
        self.data = data
        self.library = library()
        self.image = Image(data, ranges, BASE, self.library)

    def refused(self, number, question):
        with self.assertRaises(Refused) as caught:
            question()
        self.assertEqual(caught.exception.number, number)
        self.assertIn(str(number), str(caught.exception))
        return caught.exception

    def damaged(self, *changes):
        data = bytearray(self.data)
        for place, value in changes:
            data[place] = value
        return Image(bytes(data), [(BASE, len(data), 0)], BASE, self.library)

    def test_root(self):
        self.assertEqual(self.image.ranges(), (Range(BASE, 316, 0),))
        pointer = self.image.rsdp(BASE)
        self.assertEqual((pointer.revision, pointer.length), (2, 36))
        self.assertEqual((pointer.rsdt_address, pointer.xsdt_address), (0, BASE + 0x40))
        root = self.image.root()
        self.assertEqual(
            dataclasses.astuple(root), ("XSDT", BASE + 0x40, 0x40, 52, 8, 2)
        )
        self.assertEqual(self.image.entry(1), BASE + 0x100)
        self.refused(13, lambda: self.image.entry(2))

    def test_tables(self):
        madt = Table(BASE + 0x80, 0x80, 88)
        self.assertEqual(self.image.find("APIC", 44), madt)
        self.assertEqual(self.image.find(b"APIC"), madt)
        self.assertEqual(self.image.find(0x43495041), madt)
        self.assertEqual(self.image.header(0), madt)
        self.assertEqual(self.image.header(1), Table(BASE + 0x100, 0x100, 60))
        self.refused(12, lambda: self.image.header(2))
        self.refused(12, lambda: self.image.find("APIC", 44, 1))
        self.refused(11, lambda: self.image.table_at(BASE + 0x80, "APIC", 89))
        self.refused(7, lambda: self.image.table_at(BASE + 0x80, "MCFG"))
        self.assertEqual(self.image.any_table_at(BASE + 0x80), madt)
        self.refused(12, lambda: self.image.any_table_at(BASE + 0x130))
        self.assertEqual([t.answer for t in self.image.tables()], [0, 0])

    def test_interrupt_model(self):
        model = self.image.interrupt_model()
        self.assertTrue(model.known)
        self.assertTrue(model.also_has_legacy_pics)
        self.assertEqual(model.local_apic_address, 0xFEE00000)
        lists = self.image.interrupt_lists()
        self.assertEqual(
            [dataclasses.astuple(p) for p in lists.processors], [(0, 0, 2), (1, 2, 1)]
        )
        self.assertEqual([dataclasses.astuple(c) for c in lists.io_apics], [(2, 0xFEC00000, 0)])
        self.assertEqual(
            [dataclasses.astuple(o) for o in lists.interrupt_source_overrides], [(0, 2, 0, 0)]
        )
        self.assertEqual(lists.nmi_sources, ())
        self.assertEqual(
            [dataclasses.astuple(n) for n in lists.local_apic_nmi_lines], [(ALL_PROCESSORS, 1)]
        )
        self.assertEqual([e.kind for e in self.image.madt_entries()], [0, 0, 1, 2, 4])
        self.refused(15, self.image.mailbox)
        self.assertEqual(self.image.madt_fixed().flags, 1)

    def test_platform(self):
        text = (EXAMPLES / "qemu-q35-ovmf.dump").read_bytes()
        image = Image.from_acpidump(text, "qemu", self.library)
        info = image.platform()
        self.assertEqual(info.power_profile, image.fadt_number(4))
        self.assertEqual(info.interrupt_model, image.interrupt_model())
        self.assertEqual(info.interrupt_model.processors, 2)
        self.assertEqual(info.pm_timer, PmTimer(image.fadt_register("pm_timer_block"), False))

    def test_pci(self):
        self.assertEqual(self.image.mcfg_entries(), [PciConfigEntry(0xB0000000, 0, 0, 63)])
        self.assertEqual(self.image.pci_address(0, 12, 3, 1), 0xB0C19000)
        self.refused(13, lambda: self.image.pci_address(0, 64, 0, 0))
        self.refused(13, lambda: self.image.pci_address(0, 0, 32, 0))

    def test_what_is_not_there(self):
        for question in (
            self.image.hpet, self.image.fadt_fixed, self.image.dsdt, self.image.platform,
            lambda: self.image.ssdt(0), lambda: self.image.fadt_register("reset_register"),
            lambda: self.image.fadt_number(1), lambda: self.image.fadt_number("dsdt_address"),
        ):
            self.refused(12, question)
        self.refused(18, self.image.search)

    def test_places(self):
        self.assertIn("root pointer", self.refused(5, self.damaged((0x14, 0xFF)).root).place)
        self.assertIn("XSDT", self.refused(10, self.damaged((0x60, 9)).root).place)
        last = self.damaged((0xD3, 0), (0x89, (self.data[0x89] + 6) % 256))
        refused = self.refused(15, last.interrupt_model)
        self.assertEqual(refused.place, "MADT entry 4 at offset 0x52")
        self.assertEqual(refused.question, "interrupt_model")
        bus = self.damaged((0xCA, 1), (0x89, (self.data[0x89] - 1) % 256))
        refused = self.refused(16, bus.interrupt_lists)
        self.assertEqual(refused.place, "MADT entry 3 at offset 0x48")

    def test_table_bytes(self):
        madt = self.image.view(self.image.find("APIC"))
        self.assertEqual(madt.interrupt_lists(), self.image.interrupt_lists())
        self.refused(11, TableBytes(madt.data[:-1], self.library).interrupt_model)
        self.refused(11, TableBytes(b"", self.library).hpet)

    def test_entries_of_a_long_table(self):
        # More entries than are asked about at once, of changing lengths, then a bad one.
        entries = b"".join(bytes([200, 2 + n % 5]) + bytes(n % 5) for n in range(700))
        head = b"APIC" + (44 + len(entries)).to_bytes(4, "little") + bytes(36)
        seen = list(TableBytes(head + entries, self.library).madt_entries())
        self.assertEqual([e.length for e in seen], [2 + n % 5 for n in range(700)])
        self.assertEqual(
            [e.offset for e in seen], [44 + sum(2 + m % 5 for m in range(n)) for n in range(700)]
        )
        bad = b"APIC" + (45 + len(entries)).to_bytes(4, "little") + bytes(36)
        table = TableBytes(bad + entries + b"\0", self.library)
        refused = self.refused(15, table.interrupt_model)
        self.assertEqual(refused.place, f"MADT entry 700 at offset {44 + len(entries):#x}")

    def test_every_function_is_a_method(self):
        for name in FUNCTIONS:
            alone = name.startswith("tablewalk_table_") and name != "tablewalk_table_at"
            short = name[len("tablewalk_table_" if alone else "tablewalk_"):]
            self.assertTrue(callable(getattr(TableBytes if alone else Image, short)), name)

    def test_platform_of_other_boards(self):
        text = (EXAMPLES / "qemu-q35-seabios.dump").read_bytes()
        whole = Image.from_acpidump(text, "board", self.library)

        def changed(signature, *changes):
            table = whole.find(signature)
            data = bytearray(whole.data)
            for place, value in changes:
                data[table.offset + place] = value
            part = data[table.offset:table.offset + table.length]
            data[table.offset + 9] = (data[table.offset + 9] - sum(part)) % 256
            return Image(bytes(data), whole.range_list, whole.rsdp_address, self.library)

        flags = whole.fadt_fixed().flags
        wide = changed("FACP", (113, flags >> 8 & 0xFF | 1), (45, 2)).platform()
        self.assertTrue(wide.pm_timer.supports_32bit)
        self.assertEqual(wide.power_profile, 2)
        # No timer, and no MADT, are no refusals; a wrong MADT and an unknown space are.
        self.assertIsNone(changed("FACP", (91, 3)).platform().pm_timer)
        without = changed("APIC", (0, 0x58)).platform().interrupt_model
        self.assertEqual(dataclasses.astuple(without), (False, 0, False, 0, 0, 0, 0, 0))
        wrong = self.refused(15, changed("APIC", (45, 0)).platform)
        self.assertEqual(wrong.place, "MADT entry 0 at offset 0x2c")
        self.refused(14, changed("FACP", (208, 0x33)).platform)

    def test_arguments_that_do_not_fit(self):
        for question in (
            lambda: self.image.pci_address(0, 256, 0, 0),
            lambda: self.image.pci_address(65536, 0, 0, 0),
            lambda: self.image.entry(-1),
            lambda: self.image.any_table_at(1 << 64),
            lambda: self.image.find("APICS"),
            lambda: self.image.fadt_number("no_such_number"),
            lambda: self.image.fadt_register("no_such_register"),
            lambda: Image(b"", [(1 << 64, 0, 0)], 0, self.library),
        ):
            with self.assertRaises(ValueError):
                question()

    def test_many_threads(self):
        wrong = []

        def ask():
            for _ in range(20):
                if self.image.pci_address(0, 12, 3, 1) != 0xB0C19000:
                    wrong.append(1)
                if len(self.image.interrupt_lists().processors) != 2:
                    wrong.append(2)

        threads = [threading.Thread(target=ask) for _ in range(4)]
        for thread in threads:
            thread.start()
        for thread in threads:
            thread.join()
        self.assertEqual(wrong, [])


@needs_library
class Readme(unittest.TestCase):
    def test_its_lines_run(self):
        before = os.getcwd()
        os.chdir(ROOT)
        try:
            readme = str(ROOT / "bindings" / "python" / "README.md")
            failed, tried = doctest.testfile(readme, module_relative=False)
        finally:
            os.chdir(before)
        self.assertGreater(tried, 3)
        self.assertEqual(failed, 0)


class Constructors(InFolder):
    def setUp(self):
        super().setUp()
        self.library = library()
        self.data, _ = sample.sample_image()

    def two_processors(self, image):
        self.assertEqual(image.interrupt_model().processors, 2)

    def test_acpidump(self):
        text = (EXAMPLES / "sample.dump").read_bytes()
        image = Image.from_acpidump(text, "sample", self.library)
        self.assertEqual(image.rsdp_address, BASE)
        self.two_processors(image)
        self.two_processors(Image.from_acpidump(text.decode(), "sample", self.library))

    def test_raw(self):
        path = self.file("memory", self.data)
        self.two_processors(Image.from_raw(path, BASE, BASE, self.library))

    def test_map(self):
        path = self.file("memory", self.data)
        ranges = self.file("map", f"# one range\n{BASE:x} {len(self.data):x} 0\n")
        self.two_processors(Image.from_map(path, ranges, BASE, self.library))

    def test_search(self):
        # The sample at an address where a BIOS leaves its root pointer.
        text = bytearray(self.data)
        image = Image(bytes(text), [(0xE0000, 64, 0), (BASE, len(text), 0)], None, self.library)
        self.assertEqual(image.search(), 0xE0000)
        self.two_processors(image)

    def test_pieces(self):
        d = self.data
        whole = [(BASE, d[:0x50]), (BASE + 0x40, d[0x40:0x100]), (BASE + 0x100, d[0x100:])]
        for pieces in (whole, whole[::-1], whole + whole):
            self.two_processors(Image.from_pieces(pieces, BASE, self.library))
        with self.assertRaises(DumpError):
            Image.from_pieces([(BASE, d), (BASE + 8, b"\xff")], BASE, self.library)
        # Pieces that only touch stay apart: the MADT lies across their border.
        split = [(BASE, d[:0x90]), (BASE + 0x90, d[0x90:])]
        with self.assertRaises(Refused):
            Image.from_pieces(split, BASE, self.library).interrupt_model()

    def test_empty(self):
        image = Image(b"", [], 0, self.library)
        with self.assertRaises(Refused) as caught:
            image.root()
        self.assertEqual(caught.exception.number, 2)

    def test_wrong_ranges(self):
        for ranges in ([(0, 317, 0)], [(9, 1, 0), (8, 1, 0)], [(n, 1, 0) for n in range(65)]):
            with self.assertRaises(Refused) as caught:
                Image(self.data, ranges, 0, self.library).ranges()
            self.assertEqual(caught.exception.number, 1)

    def test_exceptions_reach_another_process(self):
        # A test bench may ask in processes of its own, which hand exceptions over.
        for error in (
            Refused(15, "interrupt_model", "MADT entry 4"), DumpError("board", 7, "expected bytes"),
            DumpError("board", None, "the file is empty"),
        ):
            again = pickle.loads(pickle.dumps(error))
            self.assertEqual((str(again), vars(again)), (str(error), vars(error)))
        self.assertEqual(str(DumpError("board", 7, "expected bytes")), "board:7: expected bytes")

    def test_missing_library(self):
        with self.assertRaises(LibraryMissing) as caught:
            Library(self.folder / "nothing.so")
        self.assertIn("tools/staticlib --shared", str(caught.exception))
        with self.assertRaises(LibraryMissing):
            Library(self.file("text.so", "this is no library"))


if __name__ == "__main__":
    unittest.main()
