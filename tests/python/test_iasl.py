"""Agreement with iasl on every field that both print.

iasl takes a table apart and prints a line for each field, with its offset and size.
The fields of our report are looked up there by offset, so that nothing rests on the
names that iasl gives them. Needs iasl (Debian: acpica-tools).
"""

import dataclasses
import random
import re
import shutil
import subprocess
import unittest

from support import InFolder, dumps, library


from tablewalk import ALL_PROCESSORS, Image, Refused, TableBytes
from tablewalk.dump import layout_of_acpidump
from tablewalk.names import REGISTERS

FIELD = re.compile(
    r"^\[([0-9A-Fa-f]+)h [0-9]+\s+([0-9]+)(?:\.[0-9]+)?\]\s+(.*?) : ([0-9A-Fa-f]+)(?: \[.*\])?\s*$"
)

# Offset in the FADT of each plain field of the report.
PLAIN = {
    "sci_interrupt": 46, "smi_cmd_port": 48, "acpi_enable": 52, "acpi_disable": 53,
    "s4bios_req": 54, "pstate_control": 55, "gpe1_base": 94, "c_state_control": 95,
    "worst_c2_latency": 96, "worst_c3_latency": 98, "flush_size": 100, "flush_stride": 102,
    "duty_offset": 104, "duty_width": 105, "day_alarm": 106, "month_alarm": 107,
    "century": 108, "iapc_boot_arch": 109, "flags": 112,
}
NARROW = {0: 56, 1: 60, 2: 64, 3: 68, 4: 72, 5: 76, 6: 80, 7: 84}
LENGTHS = {0: 8, 1: 12, 2: 10, 3: 8, 4: 6, 5: 12, 9: 16, 10: 12}
SEED = 31
WIDE = {0: 148, 1: 160, 2: 172, 3: 184, 4: 196, 5: 208, 6: 220, 7: 232, 8: 116, 9: 244, 10: 256}


def with_header(signature, body, revision):
    data = bytearray(signature + (36 + len(body)).to_bytes(4, "little") + bytes([revision, 0])
                     + b"MAKER TABLE ID" + bytes(12) + body)
    data[9] = -sum(data) % 256
    return bytes(data)


def made_up_madts():
    """Entries of every kind that is read, in any order, with any numbers in them."""
    choose = random.Random(SEED)
    for _ in range(10):
        body = choose.randbytes(8)
        for kind in [choose.choice([0, 9])] + [
            choose.choice([0, 1, 2, 3, 4, 5, 9, 10]) for _ in range(choose.randrange(1, 30))
        ]:
            entry = bytearray(choose.randbytes(LENGTHS[kind]))
            entry[0:2] = bytes([kind, LENGTHS[kind]])
            if kind == 2:
                entry[2] = 0
            if kind in (2, 3):
                entry[8 if kind == 2 else 2] = choose.choice([0, 1, 3, 4, 5, 7, 12, 13, 15])
            if kind in (4, 10):
                entry[5 if kind == 4 else 8] = choose.randrange(2)
            if kind == 4 and choose.random() < 0.5:
                entry[2] = 255
            body += bytes(entry)
        yield with_header(b"APIC", body, 5)


def made_up_mcfgs():
    choose = random.Random(SEED + 1)
    for count in (0, 1, 2, 7):
        yield with_header(b"MCFG", bytes(8) + choose.randbytes(16 * count), 1)


def made_up_hpets():
    choose = random.Random(SEED + 2)
    for _ in range(4):
        # The base address is in system memory, else there is nothing to compare.
        yield with_header(b"HPET", choose.randbytes(4) + b"\0" + choose.randbytes(15), 1)


def made_up_fadts():
    """Every size that a revision of the specification gave the FADT."""
    choose = random.Random(SEED + 3)
    for revision, length in ((1, 116), (2, 132), (3, 244), (4, 244), (5, 268), (6, 276), (6, 276)):
        body = bytearray(choose.randbytes(length - 36))
        for offset in WIDE.values():
            if offset + 12 <= length:
                body[offset - 36] = choose.choice([0, 1, 1, 2, 0x7F, 0x33, 0xC1])
                body[offset - 33] = choose.choice([0, 1, 2, 3, 4, 5])
                if choose.random() < 0.4:
                    body[offset - 32:offset - 24] = bytes(8)
        if choose.random() < 0.7:
            body[91 - 36] = 4
        yield with_header(b"FACP", bytes(body), revision)


MADE_UP = {
    "APIC": made_up_madts, "MCFG": made_up_mcfgs, "HPET": made_up_hpets, "FACP": made_up_fadts,
}


@unittest.skipUnless(shutil.which("iasl"), "iasl is not installed (Debian: acpica-tools)")
class Iasl(InFolder):
    def setUp(self):
        super().setUp()
        self.library = library()

    def fields(self, table):
        """What iasl prints of a table: the value of each field by its offset. Of a
        field that is broken up into bits, the whole comes first and is kept."""
        path = self.folder / "table.dat"
        path.write_bytes(table)
        subprocess.run(
            ["iasl", "-d", path.name], cwd=self.folder, check=True,
            stdout=subprocess.DEVNULL, stderr=subprocess.DEVNULL,
        )
        found = {}
        text = (self.folder / "table.dsl").read_text(encoding="latin-1")
        for line in text.split("\n"):
            match = FIELD.match(line)
            if match:
                found.setdefault(int(match.group(1), 16), int(match.group(4), 16))
        return found

    def template(self, signature):
        """A table that iasl writes by itself."""
        for command in (["iasl", "-T", signature], ["iasl", signature.lower() + ".asl"]):
            subprocess.run(
                command, cwd=self.folder, check=True,
                stdout=subprocess.DEVNULL, stderr=subprocess.DEVNULL,
            )
        return (self.folder / (signature.lower() + ".aml")).read_bytes()

    def tables(self, signature):
        """Every valid table of a signature in the examples, iasl's own, and made-up ones."""
        count = 0
        for dump in dumps():
            layout = layout_of_acpidump(dump.read_bytes(), dump.name)
            image = Image(layout.data, layout.ranges, layout.rsdp, self.library)
            try:
                yield image.view(image.find(signature)).data
                count += 1
            except Refused:
                continue
        self.assertGreater(count, 0)
        yield self.template(signature)
        yield from MADE_UP[signature]()

    def test_header(self):
        for signature in ("APIC", "MCFG", "HPET", "FACP"):
            for table in self.tables(signature):
                fields = self.fields(table)
                self.assertEqual(fields[4], len(table))
                self.assertEqual(fields[8], table[8])

    def test_mcfg(self):
        for table in self.tables("MCFG"):
            fields = self.fields(table)
            for k, window in enumerate(TableBytes(table, self.library).mcfg_entries()):
                at = 44 + 16 * k
                self.assertEqual(
                    (window.base_address, window.pci_segment_group, window.bus_number_start,
                     window.bus_number_end),
                    (fields[at], fields[at + 8], fields[at + 10], fields[at + 11]),
                )

    def test_hpet(self):
        for table in self.tables("HPET"):
            fields = self.fields(table)
            hpet = TableBytes(table, self.library).hpet()
            self.assertEqual(
                (hpet.event_timer_block_id, hpet.base_address, hpet.hpet_number,
                 hpet.clock_tick_unit),
                (fields[36], fields[44], fields[52], fields[53]),
            )
            self.assertEqual(fields[40], 0)

    def test_fadt(self):
        for table in self.tables("FACP"):
            fields = self.fields(table)
            fadt = TableBytes(table, self.library)
            fixed = fadt.fadt_fixed()
            for name, offset in PLAIN.items():
                self.assertEqual(getattr(fixed, name), fields[offset], name)
            self.assertEqual(fadt.fadt_number(4), fields[45])
            for which, narrow, wide in ((0, 36, 132), (1, 40, 140)):
                value = (fields.get(wide) if fields[8] >= 2 else 0) or fields[narrow]
                try:
                    self.assertEqual(fadt.fadt_number(which), value)
                except Refused as refused:
                    if refused.number == 11:
                        self.assertGreaterEqual(fields[8], 2)
                        self.assertNotIn(wide, fields)
                    else:
                        self.assertEqual((refused.number, value), (13, 0))
            for which, offset, size in ((2, 128, 1), (3, 129, 2)):
                if offset + size <= len(table):
                    self.assertEqual(fadt.fadt_number(which), fields[offset])
            for which, name in enumerate(REGISTERS):
                self.register(fadt, which, fields, name)

    def register(self, fadt, which, fields, name):
        wide = WIDE[which]
        try:
            register = fadt.fadt_register(which)
        except Refused as refused:
            if refused.number == 11:
                self.assertNotIn(wide + 4, fields, name)
            elif refused.number == 13 and which >= 9:
                self.assertLess(fields[8], 2)
            elif refused.number == 13:
                self.assertTrue((which == 5 and fields[91] != 4) or not fields[NARROW[which]], name)
            else:
                self.assertEqual(refused.number, 14, name)
                space, size = fields[wide], fields[wide + 3]
                self.assertTrue(size > 4 or 0x0A < space < 0x7F or 0x7F < space < 0xC0, name)
            return
        if which >= 8 or (fields[8] >= 2 and fields.get(wide + 4)):
            self.assertEqual(
                (register.address_space, register.bit_width, register.bit_offset,
                 register.access_size, register.address),
                tuple(fields[wide + n] for n in range(5)),
                name,
            )
        else:
            length = {0: 88, 1: 88, 2: 89, 3: 89, 4: 90, 5: 91, 6: 92, 7: 93}[which]
            self.assertEqual(
                (register.address, register.bit_width),
                (fields[NARROW[which]], 8 * fields[length]),
                name,
            )

    def test_madt(self):
        whole = 0
        for table in self.tables("APIC"):
            fields = self.fields(table)
            madt = TableBytes(table, self.library)
            fixed = madt.madt_fixed()
            self.assertEqual((fixed.local_apic_address, fixed.flags), (fields[36], fields[40]))
            entries = []
            try:
                for entry in madt.madt_entries():
                    self.assertEqual(
                        (entry.kind, entry.length), (fields[entry.offset], fields[entry.offset + 1])
                    )
                    entries.append(entry)
            except Refused as refused:
                # iasl's template has an entry of every kind; ours ends at the first of
                # another interrupt model. The example with a bad entry ends there too.
                self.assertEqual(refused.number, 15)
                self.assertGreater(len(entries), 3)
                continue
            whole += 1
            self.lists(madt, entries, fields)
        self.assertGreater(whole, 10)

    def lists(self, madt, entries, fields):
        """The five lists and the local address, from iasl's fields."""

        def of(entry, *places):
            return tuple(fields[entry.offset + place] for place in places)

        expected = {0: [], 1: [], 2: [], 3: [], 4: []}
        local = fields[36]
        for entry in entries:
            if entry.kind == 0:
                expected[0].append(of(entry, 2, 3))
            elif entry.kind == 9:
                expected[0].append(of(entry, 12, 4))
            elif entry.kind == 1:
                expected[1].append(of(entry, 2, 4, 8))
            elif entry.kind == 2:
                flags = fields[entry.offset + 8]
                expected[2].append((*of(entry, 3, 4), flags % 4, flags // 4 % 4))
            elif entry.kind == 3:
                flags = fields[entry.offset + 2]
                expected[3].append((*of(entry, 4), flags % 4, flags // 4 % 4))
            elif entry.kind == 4:
                processor, line = of(entry, 2, 5)
                expected[4].append((ALL_PROCESSORS if processor == 255 else processor, line))
            elif entry.kind == 10:
                expected[4].append(of(entry, 4, 8))
            elif entry.kind == 5:
                local = fields[entry.offset + 4]
        lists = madt.interrupt_lists()
        self.assertEqual(madt.interrupt_model().local_apic_address, local)
        self.assertEqual(
            [(p.processor_uid, p.local_apic_id) for p in lists.processors], expected[0]
        )
        for ours, theirs in (
            (lists.io_apics, expected[1]),
            (lists.interrupt_source_overrides, expected[2]),
            (lists.nmi_sources, expected[3]),
            (lists.local_apic_nmi_lines, expected[4]),
        ):
            self.assertEqual([dataclasses.astuple(record) for record in ours], theirs)

    def test_acpixtract_reads_our_dumps(self):
        """What this folder writes is what acpidump writes, by acpica's own reader."""
        if shutil.which("acpixtract") is None:
            self.skipTest("acpixtract is not installed (Debian: acpica-tools)")
        for dump in dumps():
            done = subprocess.run(
                ["acpixtract", "-l", str(dump)], cwd=self.folder, check=True,
                stdout=subprocess.PIPE, stderr=subprocess.DEVNULL,
            )
            listed = done.stdout.decode()
            for block in ("APIC", "MCFG"):
                self.assertIn(block, listed, dump.name)


if __name__ == "__main__":
    unittest.main()
