#!/usr/bin/env python3
"""Count the well-formed UTF-8 strings of seven classes, with Python's own decoder.

Tablewalk's test of UTF-8 is proved against a definition. A proof does not say
that the definition is the one of the Unicode Standard, so a program of this
repository runs the test over the same strings as this one and must print the
same lines. The decoder here is the one of the Python interpreter, which shares
nothing with the code under test.

Usage: utf8.py > utf8.expected      (about a minute)

Each line names a class, how many strings it has, how many of them are well
formed, and a checksum over the answers in order: it starts at 0 and becomes
(checksum * 31 + 1) modulo 1000000007 for a well-formed string and
(checksum * 31 + 2) modulo 1000000007 for any other.
"""

import itertools

MODULUS = 1000000007

# The four-byte strings put these at every place after the first byte: each is
# the first or last value of some row of the table of well-formed sequences, or
# stands just outside of one.
BOUNDARY_BYTES = [0x00, 0x7F, 0x80, 0x8F, 0x90, 0x9F, 0xA0, 0xBF, 0xC0, 0xFF]

# Each piece is placed at each offset of a string of letters 'A': good pieces of
# every length at both ends of their rows, overlong forms, a surrogate, a number
# above 10ffff, a lone continuation byte and a cut-off piece.
PIECES = [
    bytes.fromhex(piece)
    for piece in [
        "41", "c280", "dfbf", "e0a080", "ed9fbf", "ee8080", "f0908080",
        "f48fbfbf", "c080", "eda080", "f4908080", "80", "f09080",
    ]
]


def well_formed(string):
    try:
        string.decode("utf-8")
    except UnicodeDecodeError:
        return False
    return True


def strings_of_length(length):
    """All strings of this length in counting order, the first byte slowest."""
    return map(bytes, itertools.product(range(256), repeat=length))


def four_byte_strings():
    for first in range(0xE0, 0x100):
        for rest in itertools.product(BOUNDARY_BYTES, repeat=3):
            yield bytes((first,) + rest)


def strings_with_a_piece(length):
    """Pieces in their order, each at every offset; what does not fit is cut off."""
    for piece in PIECES:
        for offset in range(length):
            string = b"A" * offset + piece + b"A" * length
            yield string[:length]


def line(name, strings):
    taken = 0
    good = 0
    checksum = 0
    for string in strings:
        taken += 1
        if well_formed(string):
            good += 1
            checksum = (checksum * 31 + 1) % MODULUS
        else:
            checksum = (checksum * 31 + 2) % MODULUS
    return f"{name}: {taken} taken, {good} well formed, checksum {checksum}"


def main():
    for length in range(4):
        print(line(f"length {length}", strings_of_length(length)), flush=True)
    print(line("four bytes", four_byte_strings()))
    print(line("six bytes", strings_with_a_piece(6)))
    print(line("eight bytes", strings_with_a_piece(8)))


if __name__ == "__main__":
    main()
