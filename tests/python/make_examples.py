"""Write the examples that are made from the sample: python3 make_examples.py [FOLDER].

The sample and its faults come from tests/reference/sample.py, so that there is one
listing of its bytes. A test runs this and compares.
"""

import sys
from pathlib import Path

HERE = Path(__file__).resolve().parent
ROOT = HERE.parents[1]
sys.path.insert(0, str(ROOT / "tests" / "reference"))

import sample  # noqa: E402

PLACES = {
    "RSDP": sample.ROOT_POINTER,
    "XSDT": sample.ROOT_TABLE,
    "APIC": sample.MADT,
    "MCFG": sample.MCFG,
}


def dump_text(blocks, remarks=()):
    """Blocks (name, address, bytes) as acpidump writes them."""
    lines = [f"# {remark}" for remark in remarks]
    if remarks:
        lines.append("")
    for name, address, data in blocks:
        lines.append(f"{name} @ 0x{address:016X}")
        for at in range(0, len(data), 16):
            row = data[at:at + 16]
            shown = "".join(chr(b) if 32 <= b < 127 else "." for b in row)
            columns = row.hex(" ").upper().ljust(47)
            lines.append(f"{at:04X}".rjust(8) + f": {columns}  {shown}")
        lines.append("")
    return "\n".join(lines) + "\n"


def blocks_of(image, lengths=None):
    lengths = lengths or {}
    return [
        (name, sample.BASE + offset, bytes(image[offset:offset + lengths.get(name, length)]))
        for name, (offset, length) in PLACES.items()
    ]


def fix_sum(image, place, offset, length):
    image[place] = 0
    image[place] = -sum(image[offset:offset + length]) % 256


def examples():
    """Each example that is made here: its name, and its text."""
    image, _ = sample.sample_image()
    yield "sample.dump", dump_text(
        blocks_of(image),
        ["The sample board of docs/TABLES.md, section 12."],
    )

    short = bytearray(image)
    short[0x84] = 0x23
    fix_sum(short, 0x89, 0x80, 0x23)
    yield "length-below-header.dump", dump_text(
        blocks_of(short),
        ["The sample, but the MADT states a length of 35, which is below its header's 36,",
         "and these 35 bytes sum to 0."],
    )

    root = bytearray(image)
    root[0x44] = 0
    yield "root-length-zero.dump", dump_text(
        blocks_of(root),
        ["The sample, but the root table states a length of 0, and no bytes sum to 0."],
    )

    zero = bytearray(image)
    zero[0xD3] = 0
    fix_sum(zero, 0x89, 0x80, 88)
    yield "entry-of-length-zero.dump", dump_text(
        blocks_of(zero),
        ["The sample, but the last entry of the MADT states a length of 0. The sum is right."],
    )

    wrong = bytearray(image)
    wrong[0xD8] = 0x5A
    fix_sum(wrong, 0x89, 0x80, 0x60)
    yield "checksum-over-wrong-range.dump", dump_text(
        blocks_of(wrong, {"APIC": 0x60}),
        ["The sample, but the firmware made the MADT's checksum over the 96 bytes that it",
         "had set aside, and not over the 88 that the table states."],
    )


def main():
    folder = Path(sys.argv[1]) if len(sys.argv) > 1 else ROOT / "examples"
    for name, text in examples():
        (folder / name).write_text(text, encoding="ascii")


if __name__ == "__main__":
    main()
