"""The declarations of the package, held to bindings/c/tablewalk.h and docs/TABLES.md."""

import dataclasses
import re
import unittest

from support import ROOT

from tablewalk import answers, names, records
from tablewalk.library import FUNCTIONS, SLICES

HEADER = ROOT / "bindings" / "c" / "tablewalk.h"


def without_comments(text):
    return re.sub(r"/\*.*?\*/", " ", text, flags=re.DOTALL)


def functions_of_header():
    """Each function: its parameters as (type, name)."""
    text = without_comments(HEADER.read_text(encoding="utf-8"))
    found = {}
    for match in re.finditer(r"\buint32_t\s+(tablewalk_\w+)\s*\(([^)]*)\)\s*;", text):
        parameters = []
        for parameter in match.group(2).split(","):
            kind, name = re.fullmatch(r"\s*(.*?[\s*])(\w+)\s*", parameter, re.DOTALL).groups()
            parameters.append((re.sub(r"\s+", " ", kind).strip(), name))
        found[match.group(1)] = parameters
    return found


def structs_of_header():
    text = without_comments(HEADER.read_text(encoding="utf-8"))
    return {
        match.group(1): re.findall(r"(uint\d+_t)\s+(\w+)\s*;", match.group(2))
        for match in re.finditer(r"struct\s+(tablewalk_\w+)\s*\{([^}]*)\}", text)
    }


def numbers_of_header():
    text = without_comments(HEADER.read_text(encoding="utf-8"))
    pattern = r"#define\s+TABLEWALK_(\w+)\s+(0x[0-9a-fA-F]+|\d+)u?\s*$"
    return {m.group(1): int(m.group(2), 0) for m in re.finditer(pattern, text, re.MULTILINE)}


class Declarations(unittest.TestCase):
    def test_same_functions(self):
        self.assertEqual(sorted(functions_of_header()), sorted(FUNCTIONS))

    def test_each_function(self):
        header = functions_of_header()
        for name, parameters in FUNCTIONS.items():
            ours = []
            for parameter, kind in parameters:
                ours.append((kind, parameter))
                if kind in SLICES:
                    ours.append(("size_t", f"{parameter}_length"))
            with self.subTest(name):
                self.assertEqual(header.get(name), ours)

    def test_records_have_the_fields_of_the_structs(self):
        structs = structs_of_header()
        pairs = {
            "tablewalk_table": (records.Table, []),
            "tablewalk_root_table": (records.RootTable, []),
            "tablewalk_root_pointer": (records.RootPointer, ["address"]),
            "tablewalk_hpet_info": (records.HpetInfo, []),
            "tablewalk_mcfg_window": (records.PciConfigEntry, []),
            "tablewalk_fadt": (records.FadtFixed, []),
            "tablewalk_generic_address": (records.GenericAddress, []),
            "tablewalk_madt": (records.MadtFixed, []),
            "tablewalk_madt_entry_place": (records.MadtEntry, []),
            "tablewalk_model": (records.InterruptModel, []),
            "tablewalk_aml": (records.AmlTable, []),
            "tablewalk_processor": (records.Processor, []),
            "tablewalk_io_apic": (records.IoApic, []),
            "tablewalk_nmi_line": (records.NmiLine, []),
        }
        for name, (record, more) in pairs.items():
            with self.subTest(name):
                ours = [field.name for field in dataclasses.fields(record)]
                self.assertEqual(ours, more + [field for _, field in structs[name]])

    def test_words_of_the_platform(self):
        # The one answer that holds two other records: their words, and three more.
        inner = (records.InterruptModel, records.GenericAddress)
        words = sum(len(dataclasses.fields(record)) for record in inner) + 3
        self.assertEqual(numbers_of_header()["PLATFORM_WORDS"], words)

    def test_numbers_of_registers(self):
        numbers = numbers_of_header()
        for place, name in enumerate(names.REGISTERS):
            short = name.rsplit("_", 1)[0].upper()
            candidates = {short, name.upper()} & set(numbers)
            with self.subTest(name):
                self.assertTrue(candidates, f"the header has no number for {name}")
                self.assertEqual({numbers[c] for c in candidates}, {place})

    def test_numbers_of_fadt_fields(self):
        numbers = numbers_of_header()
        for place, name in enumerate(names.FADT_NUMBERS):
            with self.subTest(name):
                self.assertEqual(numbers.get(name.upper()), place)


class Meanings(unittest.TestCase):
    def test_list_is_that_of_the_document(self):
        text = (ROOT / "docs" / "TABLES.md").read_text(encoding="utf-8")
        part = text.split("## 2. Answers")[1].split("## 3.")[0]
        listed = {
            int(number): meaning
            for number, meaning in re.findall(r"^\| (\d+) \| (.*?) \|$", part, re.MULTILINE)
        }
        self.assertEqual(listed, answers.MEANINGS)


if __name__ == "__main__":
    unittest.main()
