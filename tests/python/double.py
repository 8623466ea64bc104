"""A stand-in for the library, made of the plain reading in tests/reference.

It has the library's interface down to the C types: each question is a ctypes
function made from FUNCTIONS, which takes pointers and lengths. So a test can ask
the proved library and this one the same through the same code, and compare whole
reports. The package itself never uses it.
"""

import ctypes
import sys
from pathlib import Path

HERE = Path(__file__).resolve().parent
ROOT = HERE.parents[1]
sys.path.insert(0, str(ROOT / "bindings" / "python"))
sys.path.insert(0, str(ROOT / "tests" / "reference"))

import reading  # noqa: E402

from tablewalk.library import (  # noqa: E402
    FUNCTIONS, OUT32, OUT64, SLICES, Library, argument_types,
)

# By the first word of a question's name; those about interrupts are of the MADT.
FIXED_PART = {
    "hpet": 56, "mcfg": 44, "pci": 44, "fadt": 116, "madt": 44, "interrupt": 44, "mailbox": 44,
}
SIGNATURE = {"hpet": b"HPET", "mcfg": b"MCFG", "pci": b"MCFG", "fadt": b"FACP"}

# Offset and size of the plain fields, in the order of the library's answer.
FADT_FIELDS = [
    (46, 2), (48, 4), (52, 1), (53, 1), (54, 1), (55, 1), (94, 1), (95, 1), (96, 2), (98, 2),
    (100, 2), (102, 2), (104, 1), (105, 1), (106, 1), (107, 1), (108, 1), (109, 2), (112, 4),
]


def hpet(table):
    answer, values = reading.hpet(table)
    if answer:
        return answer, []
    # The library has one number for every page protection that is none of the three.
    values[-1] = min(values[-1], 3)
    return 0, [int.from_bytes(table[36:40], "little")] + values


def fadt_fixed(table):
    values = []
    for offset, size in FADT_FIELDS:
        answer, value = reading.fadt_field(table, offset, size)
        if answer:
            return answer, []
        values += value
    return 0, values


def fadt_number(table, which):
    if which == 0:
        return reading.fadt_firmware_control(table)
    if which == 1:
        return reading.fadt_dsdt(table)
    if which in (2, 3, 4):
        offset, size = {2: (128, 1), 3: (129, 2), 4: (45, 1)}[which]
        return reading.fadt_field(table, offset, size)
    answer, _ = reading.fadt_field(table, 36, 1)
    return answer or 13, []


def interrupt_model(table):
    answer, values = reading.madt_model(table)
    if answer or values[0]:
        return answer, values
    # The reading says nothing more of an unknown model; docs/TABLES.md, section 11, has
    # the address at offset 36 and the old controllers told all the same.
    address, _, old_controllers = reading.madt_fixed(table)[1]
    return 0, [0, address, old_controllers] + [0] * 5


TABLE = {
    "hpet": hpet,
    "mcfg_count": reading.mcfg_count,
    "mcfg_entry": reading.mcfg_entry,
    "pci_address": reading.mcfg_address,
    "fadt_fixed": fadt_fixed,
    "fadt_register": reading.fadt_register,
    "fadt_number": fadt_number,
    "madt_fixed": reading.madt_fixed,
    "madt_entry": reading.madt_entry,
    "interrupt_model": interrupt_model,
    "interrupt_lists": reading.madt_lists,
    "mailbox": reading.madt_mailbox,
}


def dsdt(image, ranges, rsdp):
    answer, values = through_image("fadt_number")(image, ranges, rsdp, 1)
    if answer:
        return answer, []
    signature = int.from_bytes(b"DSDT", "little")
    answer, values = reading.table_at(image, ranges, values[0], signature, 36)
    if answer:
        return answer, []
    return 0, [values[0] + 36, values[2] - 36]


def platform(image, ranges, rsdp):
    """FADT, then the MADT, whose absence is no refusal, then the timer of the FADT, which
    may be missing."""
    answer, profile = through_image("fadt_number")(image, ranges, rsdp, 4)
    if answer:
        return answer, []
    answer, _ = reading.find(image, ranges, rsdp, int.from_bytes(b"APIC", "little"), 44)
    model = [0] * 8
    if answer == 0:
        answer, model = through_image("interrupt_model")(image, ranges, rsdp)
        if answer:
            return answer, []
    answer, register = through_image("fadt_register")(image, ranges, rsdp, reading.TIMER)
    if answer == reading.NO_SUCH_ADDRESS:
        return 0, profile + model + [0] * 7
    if answer:
        return answer, []
    _, fixed = through_image("fadt_fixed")(image, ranges, rsdp)
    return 0, profile + model + [1] + register + [fixed[-1] // 256 % 2]


def ssdt(image, ranges, rsdp, n):
    signature = int.from_bytes(b"SSDT", "little")
    answer, values = reading.find_nth(image, ranges, rsdp, signature, 36, n)
    if answer:
        return answer, []
    return 0, [values[0] + 36, values[2] - 36]


def through_image(question):
    """The same question about the table that is found in the image."""
    kind = question.split("_")[0]

    def ask(image, ranges, rsdp, *more):
        signature = int.from_bytes(SIGNATURE.get(kind, b"APIC"), "little")
        answer, values = reading.find(image, ranges, rsdp, signature, FIXED_PART[kind])
        if answer:
            return answer, []
        _, offset, length = values
        return TABLE[question](image[offset:offset + length], *more)

    return ask


IMAGE = {
    "ranges": reading.check_ranges,
    "rsdp": reading.root_pointer,
    "search": reading.search,
    "table_at": reading.table_at,
    "any_table_at": reading.any_table_at,
    "root": reading.root_table,
    "entry": reading.root_entry,
    "find": reading.find_nth,
    "header": reading.nth_table,
    "platform": platform,
    "dsdt": dsdt,
    "ssdt": ssdt,
}


def function_of(name):
    if name.startswith("tablewalk_table_") and name != "tablewalk_table_at":
        return TABLE[name[len("tablewalk_table_"):]]
    short = name[len("tablewalk_"):]
    return IMAGE[short] if short in IMAGE else through_image(short)


def as_c_function(name):
    """The reading's answer to a question behind a C interface."""
    parameters = FUNCTIONS[name]
    question = function_of(name)

    def called(*values):
        values = list(values)
        arguments = []
        outs = []
        for _, kind in parameters:
            value = values.pop(0)
            if kind not in SLICES:
                arguments.append(value)
                continue
            length = values.pop(0)
            if kind in (OUT64, OUT32):
                outs.append((value, length))
            elif value is None:
                arguments.append(b"" if kind.startswith("const uint8_t") else [])
            elif kind.startswith("const uint8_t"):
                arguments.append(ctypes.string_at(value, length))
            else:
                arguments.append([value[i] for i in range(length)])
        answer, results = question(*arguments)
        if answer:
            return answer
        lists = results if name.endswith("interrupt_lists") else [results]
        if any(len(words) > length for words, (_, length) in zip(lists, outs)):
            return 17
        for words, (pointer, _) in zip(lists, outs):
            for place, word in enumerate(words):
                pointer[place] = word
        return 0

    # A char pointer would arrive as bytes cut at the first zero; an address does not.
    types = [ctypes.c_void_p if t is ctypes.c_char_p else t for t in argument_types(name)]
    prototype = ctypes.CFUNCTYPE(ctypes.c_uint32, *types)
    function = prototype(called)

    def call(*values):
        return function(*[
            ctypes.cast(ctypes.c_char_p(v), ctypes.c_void_p) if isinstance(v, bytes)
            else ctypes.cast(v, t) if isinstance(v, ctypes.Array) else v
            for v, t in zip(values, types)
        ])

    return call


class Double(Library):
    """A Library whose answers are the reading's."""

    def __init__(self):
        self._functions = {name: as_c_function(name) for name in FUNCTIONS}
