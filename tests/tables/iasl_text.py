"""What iasl prints of a table, as answers to the questions of reading.py.

The fields are found by the names that iasl gives them, never by their offsets,
so that this is a third reading of the tables: that of ACPICA.
"""

import re

FIELD = re.compile(r"^\[[0-9A-F]+h (\d{4}) +(\d+)\] +(.+?) : (.*)$")
BIT = re.compile(r"^ +(\S.*?) : ([0-9A-F]+)$")


class Field:
    def __init__(self, offset, size, name, text):
        self.offset = offset
        self.size = size
        self.name = name
        self.text = text
        self.bits = []

    def number(self):
        return int(self.text.split()[0], 16)


def fields_of(text):
    """The fields in order. A field of flags has the bits that are printed below it."""
    fields = []
    for line in text.split("\n"):
        found = FIELD.match(line)
        if found:
            offset, size, name, value = found.groups()
            fields.append(Field(int(offset), int(size), name.strip(), value))
            continue
        found = BIT.match(line)
        if found and fields:
            fields[-1].bits.append((found.group(1), int(found.group(2), 16)))
    return fields


def numbers_by_name(fields, size=None):
    """The first number under each name, of one size if a size is given."""
    numbers = {}
    for field in fields:
        if field.text.startswith(("[", '"')) or field.name in numbers:
            continue
        if size is None or field.size == size:
            numbers[field.name] = field.number()
    return numbers


def generic_addresses(fields):
    """Space, width, offset, access size and address under the name of each."""
    found = {}
    for place, field in enumerate(fields):
        if field.text.startswith("[Generic Address Structure]"):
            parts = fields[place + 1:place + 6]
            names = ["Space ID", "Bit Width", "Bit Offset", "Encoded Access Width", "Address"]
            assert [part.name for part in parts] == names, field.name
            found[field.name] = [part.number() for part in parts]
    return found


def groups_from(fields, first):
    """The fields from each one of a name up to the next of that name."""
    groups = []
    for field in fields:
        if field.name == first:
            groups.append([])
        if groups:
            groups[-1].append(field)
    return groups


def mcfg_answers(text):
    windows = []
    for group in groups_from(fields_of(text), "Base Address"):
        one = numbers_by_name(group)
        windows.append([one["Base Address"], one["Segment Group Number"],
                        one["Start Bus Number"], one["End Bus Number"]])
    answers = {(20,): [len(windows)]}
    for k, window in enumerate(windows):
        answers[(21, k)] = window
        # The first function of the first bus is where the window begins.
        answers[(22, window[1], window[2], 0, 0)] = [window[0]]
    return answers


def hpet_answers(text):
    fields = fields_of(text)
    one = numbers_by_name(fields)
    block = one["Hardware Block ID"]
    base = generic_addresses(fields)["Timer Block Register"]
    protection = [value for name, value in fields[-1].bits]
    assert [name for name, _ in fields[-1].bits] == ["4K Page Protect", "64K Page Protect"]
    return {(30,): [block & 0xFF, (block >> 8 & 0x1F) + 1, block >> 13 & 1, block >> 15 & 1,
                    block >> 16, base[4], one["Sequence Number"], one["Minimum Clock Ticks"],
                    protection[0] + 2 * protection[1]]}


BLOCKS = [
    ("PM1A Event", "PM1 Event"), ("PM1B Event", "PM1 Event"),
    ("PM1A Control", "PM1 Control"), ("PM1B Control", "PM1 Control"),
    ("PM2 Control", "PM2 Control"), ("PM Timer", "PM Timer"),
    ("GPE0", "GPE0"), ("GPE1", "GPE1"),
]

# The offset and size by which question 43 names a field.
PLAIN = {
    "PM Profile": (45, 1), "SCI Interrupt": (46, 2), "SMI Command Port": (48, 4),
    "ACPI Enable Value": (52, 1), "ACPI Disable Value": (53, 1), "S4BIOS Command": (54, 1),
    "P-State Control": (55, 1), "GPE1 Base Offset": (94, 1), "_CST Support": (95, 1),
    "C2 Latency": (96, 2), "C3 Latency": (98, 2), "CPU Cache Size": (100, 2),
    "Cache Flush Stride": (102, 2), "Duty Cycle Offset": (104, 1), "Duty Cycle Width": (105, 1),
    "RTC Day Alarm Index": (106, 1), "RTC Month Alarm Index": (107, 1), "RTC Century Index": (108, 1),
    "Boot Flags (decoded below)": (109, 2), "Flags (decoded below)": (112, 4),
    "Value to cause reset": (128, 1), "ARM Flags (decoded below)": (129, 2),
}


def fadt_answers(text):
    """Only what iasl prints: a field that a revision does not have is left out."""
    fields = fields_of(text)
    one = numbers_by_name(fields)
    wide_numbers = numbers_by_name(fields, 8)
    generic = generic_addresses(fields)
    answers = {}
    for name, place in PLAIN.items():
        if name in one:
            answers[(43,) + place] = [one[name]]
    for field in fields:
        if field.bits:
            for bit, (_, value) in enumerate(field.bits):
                answers[(44, PLAIN[field.name][0], bit)] = [value]
    if one["Revision"] >= 2 and "FACS Address" not in wide_numbers:
        return answers
    for question, name in [(41, "FACS Address"), (42, "DSDT Address")]:
        value = wide_numbers.get(name, 0) or one[name]
        if value:
            answers[(question,)] = [value]
    for which, (name, length_name) in enumerate(BLOCKS):
        length = one[f"{length_name} Block Length"]
        wide = generic.get(f"{name} Block", [0] * 5)
        narrow = one[f"{name} Block Address"]
        if wide[4]:
            answers[(40, which)] = wide
        elif narrow or name in ("PM1A Event", "PM1A Control"):
            answers[(40, which)] = [1, 8 * length, 0, 0, narrow]
    for which, name in [(8, "Reset Register"), (9, "Sleep Control Register"), (10, "Sleep Status Register")]:
        if name in generic:
            answers[(40, which)] = generic[name]
    return answers


OTHER_MODELS = [6, 7, 8, 11, 12, 13, 14, 15]


def madt_answers(text):
    fields = fields_of(text)
    one = numbers_by_name(fields)
    local, flags = one["Local Apic Address"], one["Flags (decoded below)"]
    old = dict(next(field.bits for field in fields if field.bits))["PC-AT Compatibility"]
    answers = {(50,): [local, flags, old]}
    lists = [[], [], [], [], []]
    foreign = False
    for k, group in enumerate(groups_from(fields, "Subtable Type")):
        entry = numbers_by_name(group)
        bits = dict(bit for field in group for bit in field.bits)
        kind = entry["Subtable Type"]
        if kind in OTHER_MODELS:
            foreign = True
            break
        answers[(51, k)] = [kind, group[0].offset, entry["Length"]]
        if kind in (0, 9):
            number = entry["Processor ID"] if kind == 0 else entry["Processor UID"]
            controller = entry["Local Apic ID"] if kind == 0 else entry["Processor x2Apic ID"]
            state = 0 if bits["Processor Enabled"] == 0 else 1 if lists[0] else 2
            lists[0] += [number, controller, state]
        elif kind == 1:
            lists[1] += [entry["I/O Apic ID"], entry["Address"], entry["Interrupt"]]
        elif kind == 2:
            lists[2] += [entry["Source"], entry["Interrupt"], bits["Polarity"] + 4 * bits["Trigger Mode"]]
        elif kind == 3:
            lists[3] += [entry["Interrupt"], bits["Polarity"] + 4 * bits["Trigger Mode"]]
        elif kind == 4:
            number = entry["Processor ID"]
            lists[4] += [0xFFFFFFFF if number == 0xFF else number, entry["Interrupt Input LINT"]]
        elif kind == 10:
            lists[4] += [entry["Processor UID"], entry["Interrupt Input LINT"]]
        elif kind == 5:
            local = entry["APIC Address"]
    if not foreign:
        sizes = [3, 3, 3, 2, 2]
        answers[(52,)] = [1, local, old] + [len(words) // size for words, size in zip(lists, sizes)]
        answers[(53,)] = lists
    return answers


READERS = {"MCFG": mcfg_answers, "HPET": hpet_answers, "FACP": fadt_answers, "APIC": madt_answers}


def answers_of(text):
    """What iasl says: the values that go with the answer 0, by question and arguments."""
    signature = next(field for field in fields_of(text) if field.name == "Signature")
    return READERS[signature.text.split('"')[1]](text)
