#!/usr/bin/env python3
"""Write the tables in fixtures/ that iasl compiles, and the text of each.

Usage: make_fixtures.py                 write the tables and the texts
       make_fixtures.py --text-of FILE  print the text of a table

Needs iasl, from Debian's package acpica-tools. The sources are iasl's own
templates (iasl -T) with the values below in place of theirs. The tables of QEMU
machines are not made here; README.md has the commands.

A text is what `iasl -d` prints, from the first field on: the comment above it
has a date and a path, and the dump of the raw bytes at the end says nothing new.
"""

import pathlib
import re
import subprocess
import sys
import tempfile

FIXTURES = pathlib.Path(__file__).resolve().parent / "fixtures"

HEADER = [
    ("Oem ID", '"ROWANS"'),
    ("Oem Table ID", '"BLADE-07"'),
    ("Oem Revision", "00000107"),
]

MCFG = HEADER + [
    ("Base Address", "00000000B0000000"),
    ("Segment Group Number", "0000"),
    ("Start Bus Number", "00"),
    ("End Bus Number", "3F"),
]

# The template has one window. This is the second.
MCFG_WINDOW = """
[0008]                       Base Address : 0000004123400000
[0002]               Segment Group Number : 1A2B
[0001]                   Start Bus Number : 20
[0001]                     End Bus Number : DF
[0004]                           Reserved : 00000000
"""

HPET = HEADER + [
    ("Hardware Block ID", "8086A701"),
    ("Bit Width", "40"),
    ("Address", "00000000FED00000"),
    ("Sequence Number", "03"),
    ("Minimum Clock Ticks", "37EE"),
    ("4K Page Protect", "1"),
]


def generic(space, width, offset, access, address):
    return [
        ("Space ID", f"{space:02X}"),
        ("Bit Width", f"{width:02X}"),
        ("Bit Offset", f"{offset:02X}"),
        ("Encoded Access Width", f"{access:02X}"),
        ("Address", f"{address:016X}"),
    ]


# In the order of the template, since names like Address repeat.
FACP = HEADER + [
    ("FACS Address", "7FE01240"),
    ("DSDT Address", "7FE02000"),
    ("Model", "01"),
    ("PM Profile", "02"),
    ("SCI Interrupt", "0109"),
    ("SMI Command Port", "000000B2"),
    ("ACPI Enable Value", "A0"),
    ("ACPI Disable Value", "A1"),
    ("S4BIOS Command", "F2"),
    ("P-State Control", "80"),
    ("PM1A Event Block Address", "00001800"),
    ("PM1B Event Block Address", "00001810"),
    ("PM1A Control Block Address", "00001804"),
    ("PM1B Control Block Address", "00000000"),
    ("PM2 Control Block Address", "00001850"),
    ("PM Timer Block Address", "00001808"),
    ("GPE0 Block Address", "00001860"),
    ("GPE1 Block Address", "00001890"),
    ("PM1 Event Block Length", "04"),
    ("PM1 Control Block Length", "02"),
    ("PM2 Control Block Length", "01"),
    ("PM Timer Block Length", "04"),
    ("GPE0 Block Length", "20"),
    ("GPE1 Block Length", "08"),
    ("GPE1 Base Offset", "10"),
    ("_CST Support", "85"),
    ("C2 Latency", "0065"),
    ("C3 Latency", "03E9"),
    ("CPU Cache Size", "0400"),
    ("Cache Flush Stride", "0410"),
    ("Duty Cycle Offset", "01"),
    ("Duty Cycle Width", "03"),
    ("RTC Day Alarm Index", "0D"),
    ("RTC Month Alarm Index", "0E"),
    ("RTC Century Index", "32"),
    ("8042 Present on ports 60/64 (V2)", "1"),
    ("PCIe ASPM Not Supported (V4)", "1"),
    ("WBINVD instruction is operational (V1)", "1"),
    ("All CPUs support C1 (V1)", "1"),
    ("Control Method Sleep Button (V1)", "1"),
    ("32-bit PM Timer (V1)", "1"),
    ("Reset Register Supported (V2)", "1"),
    ("Use Platform Timer (V4)", "1"),
    ("Low Power S0 Idle (V5)", "1"),
] + generic(1, 8, 0, 1, 0xCF9) + [
    ("Value to cause reset", "06"),
    ("Must use HVC for PSCI", "1"),
    ("FADT Minor Revision", "03"),
    ("FACS Address", "000000017FE01280"),
    ("DSDT Address", "0000000000000000"),
]
# Event A is in memory above 4 GB; event B has only its narrow form; control B has
# only its wide form; the second GPE block is in a space of the maker's.
FACP += generic(0, 0x20, 0, 3, 0x10FE001800)
FACP += generic(1, 0x20, 0, 2, 0)
FACP += generic(1, 0x10, 0, 2, 0x1804)
FACP += generic(1, 0x10, 0, 2, 0x1814)
FACP += generic(1, 0x08, 0, 1, 0x1850)
FACP += generic(1, 0x20, 0, 3, 0x1808)
FACP += generic(1, 0xFF, 0, 1, 0x1860)
FACP += generic(0xC1, 0x40, 5, 4, 0x1122334455667788)
FACP += generic(0, 0x08, 0, 1, 0xFE0000F8)
FACP += generic(1, 0x08, 0, 1, 0x18F9)
FACP += [("Hypervisor ID", "0000000052574E20")]

# Revision and length of each FADT. iasl compiles the newest form; the older ones
# are cut out of it.
FACPS = [(1, 116), (2, 132), (3, 244), (5, 268), (6, 276)]

# Every kind that iasl can write stands in its template, in ascending order.
APIC_EVERY = HEADER + [
    ("Local Apic Address", "FEE00000"),
    ("Processor ID", "05"),
    ("Local Apic ID", "0A"),
    ("I/O Apic ID", "08"),
    ("Address", "FEC00000"),
    ("Interrupt", "00000018"),
]

# A machine of this model with more than 255 processors in mind: every kind that
# it may have, several times, and the last kind 5 entry wins.
APIC_OURS = [
    (0, "00 05 00000001"), (9, "0000 00000141 00000001 00000100"), (0, "01 07 00000000"),
    (0, "FE FD 00000003"), (9, "0000 FFFFFFFE 00000000 12345678"), (9, "0000 00000102 00000001 00000102"),
    (1, "08 00 FEC00000 00000000"), (1, "09 00 FEC01000 00000018"),
    (2, "00 00 00000002 0000"), (2, "00 09 00000009 000D"), (2, "00 0E 00000016 0007"),
    (3, "000F 00000011"), (3, "0005 80000012"),
    (5, "0000 00000000FEE10000"), (4, "FF 0005 01"), (4, "07 000A 00"), (10, "0005 FFFFFFFF 01 000000"),
    (10, "0000 000000FF 00 000000"), (5, "0000 00000A00FEE20000"),
]
APIC_FIELDS = {
    0: ["Processor ID", "Local Apic ID", "Flags (decoded below)"],
    1: ["I/O Apic ID", "Reserved", "Address", "Interrupt"],
    2: ["Bus", "Source", "Interrupt", "Flags (decoded below)"],
    3: ["Flags (decoded below)", "Interrupt"],
    4: ["Processor ID", "Flags (decoded below)", "Interrupt Input LINT"],
    5: ["Reserved", "APIC Address"],
    9: ["Reserved", "Processor x2Apic ID", "Flags (decoded below)", "Processor UID"],
    10: ["Flags (decoded below)", "Processor UID", "Interrupt Input LINT", "Reserved"],
}
APIC_LENGTHS = {0: 8, 1: 12, 2: 10, 3: 8, 4: 6, 5: 12, 9: 16, 10: 12}


def set_fields(source, fields):
    """The source with each value in place, found by name from the last one on."""
    at = 0
    for name, value in fields:
        pattern = re.compile(r"^(?:\[\d+\])? *" + re.escape(name) + r" : (.*)$", re.MULTILINE)
        found = pattern.search(source, at)
        if found is None:
            sys.exit(f"make_fixtures.py: iasl's template has no more field {name}")
        source = source[:found.start(1)] + value + source[found.end(1):]
        at = found.start(1)
    return source


def run(folder, *arguments):
    done = subprocess.run(["iasl", *arguments], cwd=folder, capture_output=True, text=True)
    if done.returncode != 0:
        sys.exit(f"make_fixtures.py: iasl {' '.join(arguments)}: {done.stdout}{done.stderr}")


def template(name):
    with tempfile.TemporaryDirectory() as folder:
        run(folder, "-T", name)
        return (pathlib.Path(folder) / f"{name.lower()}.asl").read_text(encoding="ascii")


def compiled(source):
    with tempfile.TemporaryDirectory() as folder:
        (pathlib.Path(folder) / "table.asl").write_text(source, encoding="ascii")
        run(folder, "table.asl")
        return (pathlib.Path(folder) / "table.aml").read_bytes()


def text_of(table):
    """What `iasl -d` prints of a table, without what depends on date and place."""
    with tempfile.TemporaryDirectory() as folder:
        (pathlib.Path(folder) / "table.aml").write_bytes(table)
        run(folder, "-d", "table.aml")
        text = (pathlib.Path(folder) / "table.dsl").read_text(encoding="ascii")
    text = text[text.index("*/") + 2:]
    text = text[:text.index("Raw Table Data: Length")]
    return "\n".join(line.rstrip() for line in text.strip().split("\n")) + "\n"


def cut(table, revision, length):
    """The first bytes of a table, with revision, length and sum in order."""
    data = bytearray(table[:length])
    data[4:8] = length.to_bytes(4, "little")
    data[8] = revision
    data[9] = (data[9] - sum(data)) % 256
    return bytes(data)


def apic_source(entries):
    """iasl's template up to its first entry, and then these entries."""
    source = set_fields(template("APIC"), HEADER + [("Local Apic Address", "FEE00000")])
    source = source[:source.index("[0001]                      Subtable Type")]
    for kind, values in entries:
        source += f"[0001] Subtable Type : {kind:02X}\n[0001] Length : {APIC_LENGTHS[kind]:02X}\n"
        for name, value in zip(APIC_FIELDS[kind], values.split()):
            source += f"[{len(value) // 2:04}] {name} : {value}\n"
            if name.startswith("Flags"):
                source += flag_lines(kind, int(value, 16))
    return source


def flag_lines(kind, flags):
    """iasl wants each bit on a line of its own, and makes the field out of them."""
    if kind in (0, 9):
        lines = f"Processor Enabled : {flags % 2}\n"
        if kind == 0:
            lines += f"Runtime Online Capable : {flags // 2 % 2}\n"
        return lines
    return f"Polarity : {flags % 4}\nTrigger Mode : {flags // 4 % 4}\n"


def tables():
    facp = compiled(set_fields(template("FACP"), FACP))
    made = {
        "mcfg": compiled(set_fields(template("MCFG"), MCFG) + MCFG_WINDOW),
        "hpet": compiled(set_fields(template("HPET"), HPET)),
        "apic-every-kind": compiled(set_fields(template("APIC"), APIC_EVERY)),
        "apic-x2apic": compiled(apic_source(APIC_OURS)),
    }
    for revision, length in FACPS:
        made[f"facp-{revision}"] = cut(facp, revision, length)
    return made


def main():
    arguments = sys.argv[1:]
    if len(arguments) == 2 and arguments[0] == "--text-of":
        print(text_of(pathlib.Path(arguments[1]).read_bytes()), end="")
        return 0
    if arguments:
        print("make_fixtures.py: expected no argument, or --text-of FILE", file=sys.stderr)
        return 2
    for name, table in tables().items():
        (FIXTURES / f"{name}.aml").write_bytes(table)
    for path in sorted(FIXTURES.glob("*.aml")):
        path.with_suffix(".dsl").write_text(text_of(path.read_bytes()), encoding="ascii")
        print(f"{path.name}: {path.stat().st_size} bytes")
    return 0


if __name__ == "__main__":
    sys.exit(main())
