"""The sample image: a root pointer, an XSDT, a MADT and an MCFG.

The listing below is where its bytes come from; everything that wants the sample
calls sample_image(). docs/TABLES.md prints the same listing and says what the
bytes mean, and check_sample.py fails if the two are not the same.
"""

# Physical address of the first byte.
BASE = 0x7FF00000

# Where the four structures stand in the image, by offset and length.
ROOT_POINTER = (0x000, 36)
ROOT_TABLE = (0x040, 52)
MADT = (0x080, 88)
MCFG = (0x100, 60)

# The MCFG ends exactly where the image and its one range end.
LENGTH = 0x13C

# Offset, then bytes, all in hexadecimal. What is not listed is zero.
LISTING = """
000  52 53 44 20 50 54 52 20 05 52 4f 57 41 4e 53 02 00 00 00 00 24 00 00 00 40 00 f0 7f 00 00 00 00
020  2d 00 00 00
040  58 53 44 54 34 00 00 00 01 4a 52 4f 57 41 4e 53 42 4c 41 44 45 2d 30 37 01 00 00 00 52 57 4e 20
060  01 00 00 00 80 00 f0 7f 00 00 00 00 00 01 f0 7f 00 00 00 00
080  41 50 49 43 58 00 00 00 04 ca 52 4f 57 41 4e 53 42 4c 41 44 45 2d 30 37 01 00 00 00 52 57 4e 20
0a0  01 00 00 00 00 00 e0 fe 01 00 00 00 00 08 00 00 01 00 00 00 00 08 01 02 01 00 00 00 01 0c 02 00
0c0  00 00 c0 fe 00 00 00 00 02 0a 00 00 02 00 00 00 00 00 04 06 ff 05 00 01
100  4d 43 46 47 3c 00 00 00 01 d8 52 4f 57 41 4e 53 42 4c 41 44 45 2d 30 37 01 00 00 00 52 57 4e 20
120  01 00 00 00 00 00 00 00 00 00 00 00 00 00 00 b0 00 00 00 00 00 00 00 3f 00 00 00 00
"""


def bytes_of_listing():
    image = bytearray(LENGTH)
    for row in LISTING.split("\n"):
        words = row.split()
        if not words:
            continue
        offset = int(words[0], 16)
        for place, word in enumerate(words[1:]):
            image[offset + place] = int(word, 16)
    return bytes(image)


def sample_image():
    """The sample's bytes and its list of ranges: (physical start, length, offset)."""
    image = bytes_of_listing()

    # A slip in the listing would make every later test wrong in the same way,
    # so the sums are tested here, where the bytes are made.
    for name, (offset, length) in [
        ("root pointer, first 20 bytes", (0, 20)),
        ("root pointer", ROOT_POINTER),
        ("root table", ROOT_TABLE),
        ("MADT", MADT),
        ("MCFG", MCFG),
    ]:
        total = sum(image[offset:offset + length]) % 256
        if total != 0:
            raise ValueError(f"sample: the {name} sums to {total:#04x} and not to 0")

    return image, [(BASE, LENGTH, 0)]
