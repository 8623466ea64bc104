"""Reading what a board's dump is written in: the text of acpidump, and the list
of ranges that goes with a raw image. Nothing here interprets a table: that is
the library's work.
"""

import re
from dataclasses import dataclass, field
from typing import Dict, Iterable, List, Optional, Sequence, Tuple

from .records import Range

MOST_RANGES = 64
END_OF_MEMORY = 1 << 64

ROOT_POINTER_NAMES = ("RSDP", "RSD PTR")
ROOT_POINTER_SIGNATURE = b"RSD PTR "

# Some editors and shells write this in front of a text.
_BYTE_ORDER_MARK = b"\xef\xbb\xbf"

_HEADING = re.compile(r"(\S.{0,7}?) *@ *(?:0[xX])?([0-9A-Fa-f]{1,16})[ \t]*\r*\Z")
# The columns of a row: 16 pairs of digits, and two spaces before the characters beside them.
ROW_WIDTH = 16 * len(" 41") + 2
# A row has 16 pairs of digits or, where a block ends, fewer. A whole row stands first and
# written out, since that is matched in half the time.
_PAIR = " [0-9A-Fa-f][0-9A-Fa-f]"
_ROW = re.compile(
    r"[ \t]*([0-9A-Fa-f]{1,8}):(%s|(?:%s){1,15})(?=  |[ \t]*\r*\Z)" % (16 * _PAIR, _PAIR)
)


class DumpError(ValueError):
    """A file that can not be read as what it is meant to be. The message names
    the file, the line where there is one, and what was expected there."""

    def __init__(self, name: str, line: Optional[int], message: str) -> None:
        super().__init__(name, line, message)
        self.name = name
        self.line = line
        self.message = message

    def __str__(self) -> str:
        where = self.name if self.line is None else f"{self.name}:{self.line}"
        return f"{where}: {self.message}"


@dataclass
class Block:
    """A block of a dump: bytes at a physical address, and where they were read."""

    address: int
    data: bytes
    name: str = ""
    line: Optional[int] = None

    @property
    def end(self) -> int:
        """The address after its last byte."""
        return self.address + len(self.data)

    @property
    def is_root_pointer(self) -> bool:
        """Whether it is the root pointer, by its name or by what it begins with."""
        return self.name in ROOT_POINTER_NAMES or self.data[:8] == ROOT_POINTER_SIGNATURE

    def __str__(self) -> str:
        name = f"{printable(self.name)} " if self.name else ""
        line = f" (line {self.line})" if self.line is not None else ""
        return f"{name}at {self.address:#x}{line}"


@dataclass
class Layout:
    """An image with its ranges, the root pointer's address if it is known, and
    notes on what had to be assumed."""

    data: bytes
    ranges: List[Range]
    rsdp: Optional[int] = None
    notes: List[str] = field(default_factory=list)


def printable(text: str, most: int = 40) -> str:
    """Text that is safe on a terminal: other characters as \\xNN, and not too long."""
    cut = text[:most]
    shown = "".join(
        c if c.isprintable() else c.encode("unicode_escape").decode("ascii") for c in cut
    )
    return shown + ("..." if len(text) > most else "")


def looks_like_dump(data: bytes) -> bool:
    """Whether some line of a file is the heading of a block. A text has no zero bytes; in
    a file that has, a row must follow, since an image of memory may hold anything."""
    lines = _lines(data)
    text = b"\0" not in data
    for at, line in enumerate(lines):
        if "@" in line and _HEADING.match(line):
            if text or (at + 1 < len(lines) and _ROW.match(lines[at + 1])):
                return True
    return False


def _lines(data: bytes) -> List[str]:
    """The lines of a text. Latin-1 gives every byte a character, so that whatever
    stands in the column of characters beside the bytes can be stepped over."""
    start = len(_BYTE_ORDER_MARK) if data.startswith(_BYTE_ORDER_MARK) else 0
    return data[start:].decode("latin-1").split("\n")


def parse_acpidump(data: bytes, name: str) -> List[Block]:
    """The blocks of an acpidump text, in the order of the text."""
    blocks: List[Block] = []
    rows: List[str] = []
    length = 0
    # The block in which a row last had characters beside its bytes.
    beside: Optional[Block] = None

    lines = _lines(data)
    for number, line in enumerate(lines, 1):
        row = _ROW.match(line)
        if row is not None:
            offset, pairs = row.groups()
            if not blocks:
                raise DumpError(
                    name, number, "bytes without a heading; expected a line as 'APIC @ 0x7FF00080'"
                )
            if int(offset, 16) != length:
                raise DumpError(
                    name, number,
                    f"expected offset {length:04X} and not {offset};"
                    " the line above may be cut",
                )
            if len(line) - row.end() > ROW_WIDTH - len(pairs):
                beside = blocks[-1]
            elif beside is blocks[-1] or (beside is not None and number == len(lines)):
                # An editor may have taken away spaces at a line's end, and nothing else.
                if pairs.replace(" 20", ""):
                    raise DumpError(
                        name, number,
                        "expected characters after the bytes, as in the lines above;"
                        " this line may be cut",
                    )
            rows.append(pairs)
            length += len(pairs) // len(" 41")
            continue
        if not line.strip() or line.startswith("#"):
            continue
        heading = _HEADING.match(line)
        if heading is not None:
            if blocks:
                _close(blocks[-1], rows, name, number)
            blocks.append(Block(int(heading.group(2), 16), b"", heading.group(1), number))
            rows = []
            length = 0
            continue
        raise DumpError(
            name, number,
            "expected a heading as 'APIC @ 0x7FF00080' or bytes as '    0000: 41 50 49 43',"
            f" got '{printable(line)}'",
        )
    if not blocks:
        raise DumpError(
            name, 1, "expected an acpidump text, that is, a line as 'APIC @ 0x7FF00080'"
        )
    _close(blocks[-1], rows, name, len(lines))
    return blocks


def _close(block: Block, rows: Sequence[str], name: str, line: int) -> None:
    """Give a block its bytes, at the line where the next one begins or the text ends."""
    if not rows:
        raise DumpError(
            name, line, f"expected bytes of block {block}, as in '    0000: 41 50 49 43'"
        )
    block.data = bytes.fromhex("".join(rows))
    if block.end > END_OF_MEMORY:
        raise DumpError(
            name, block.line,
            f"block {block} has {len(block.data)} bytes, which end above 2^64",
        )


def parse_map(data: bytes, name: str) -> List[Range]:
    """The ranges of a raw image, a line START LENGTH OFFSET each, in hexadecimal."""
    ranges: List[Range] = []
    for number, line in enumerate(_lines(data), 1):
        line = line.split("#")[0].strip()
        if not line:
            continue
        words = line.split()
        try:
            if len(words) != 3:
                raise ValueError
            ranges.append(Range(*[parse_hex(word) for word in words]))
        except ValueError:
            raise DumpError(
                name, number,
                "expected START LENGTH OFFSET in hexadecimal, each below 2^64,"
                f" got '{printable(line)}'",
            ) from None
    if not ranges:
        raise DumpError(name, 1, "expected lines START LENGTH OFFSET in hexadecimal")
    return ranges


def parse_hex(text: str) -> int:
    """A hexadecimal number below 2^64, with or without 0x in front."""
    if not re.fullmatch(r"(?:0[xX])?[0-9A-Fa-f]{1,16}", text):
        raise ValueError(f"'{printable(text)}' is not a hexadecimal number below 2^64")
    return int(text, 16)


def assemble(blocks: Iterable[Block], name: str) -> Layout:
    """Lay blocks out as one image. Blocks that overlap or repeat become one range,
    if they agree on the bytes that they share; blocks that only touch stay two
    ranges, as they were taken, unless there would be too many of them."""
    merged: List[Tuple[int, bytearray]] = []
    last: List[Block] = []
    for block in sorted(blocks, key=lambda block: block.address):
        if not block.data:
            continue
        if merged and block.address < merged[-1][0] + len(merged[-1][1]):
            start, data = merged[-1]
            at = block.address - start
            shared = min(len(data) - at, len(block.data))
            if data[at:at + shared] != block.data[:shared]:
                raise DumpError(
                    name, block.line,
                    f"block {block} and block {last[-1]} overlap and differ;"
                    " expected the same bytes",
                )
            data += block.data[shared:]
            if block.end > last[-1].end:
                last[-1] = block
        else:
            merged.append((block.address, bytearray(block.data)))
            last.append(block)
    if len(merged) > MOST_RANGES:
        merged = _join_touching(merged)
    if len(merged) > MOST_RANGES:
        raise DumpError(
            name, None,
            f"{len(merged)} blocks that do not touch; expected at most {MOST_RANGES}",
        )
    image = bytearray()
    ranges: List[Range] = []
    for start, data in merged:
        ranges.append(Range(start, len(data), len(image)))
        image += data
    return Layout(bytes(image), ranges)


def _join_touching(pieces: Sequence[Tuple[int, bytearray]]) -> List[Tuple[int, bytearray]]:
    joined: List[Tuple[int, bytearray]] = []
    for start, data in pieces:
        if joined and joined[-1][0] + len(joined[-1][1]) == start:
            joined[-1][1].extend(data)
        else:
            joined.append((start, bytearray(data)))
    return joined


def layout_of_acpidump(data: bytes, name: str) -> Layout:
    """An acpidump text as an image. Where the dump has no root pointer one is made
    up, and a note says so: on a Linux of today acpidump takes the tables from the
    kernel, which keeps neither the root pointer nor the addresses."""
    blocks = parse_acpidump(data, name)
    notes: List[str] = []
    if all(block.address == 0 for block in blocks) and len(blocks) > 1:
        blocks = _spread(blocks)
        notes.append(
            "the dump holds no addresses, so the tables were laid out one after the"
            " other (acpidump -c off keeps the addresses)"
        )
    pointers = [block for block in blocks if block.is_root_pointer]
    if not pointers:
        blocks, note = _with_root_pointer(blocks)
        notes.append(note)
        pointers = blocks[-1:]
    layout = assemble(blocks, name)
    layout.rsdp = pointers[0].address
    layout.notes = notes
    if len({pointer.address for pointer in pointers}) > 1:
        layout.notes.append(
            f"the dump has {len(pointers)} root pointers; the first, block {pointers[0]}, is read"
        )
    return layout


# Where made-up structures go: a root pointer where a BIOS would leave it, and tables
# that have no address from 1 MB on.
_LOWEST_POINTER = 0xE0000
_LOWEST_TABLE = 0x100000


def _free(blocks: Iterable[Block], start: int, length: int) -> int:
    """The lowest address from `start` on at which so many bytes are in no block."""
    for block in sorted(blocks, key=lambda block: block.address):
        if start < block.end and block.address < start + length:
            start = block.end
    return start


def _number(data: bytes, offset: int, size: int) -> int:
    return int.from_bytes(data[offset:offset + size], "little")


def _spread(blocks: Sequence[Block]) -> List[Block]:
    """Blocks without addresses, one after the other. The FADT says by address where
    DSDT and FACS stand, so these two go there if nothing else does."""
    told: Dict[bytes, int] = {}
    for block in blocks:
        if block.data[:4] == b"FACP":
            for signature, narrow, wide in ((b"FACS", 36, 132), (b"DSDT", 40, 140)):
                address = _number(block.data, wide, 8) or _number(block.data, narrow, 4)
                if address >= _LOWEST_TABLE:
                    told.setdefault(signature, address)
    placed: List[Block] = []
    reserved: List[Block] = []
    rest: List[Block] = []
    for block in blocks:
        if block.is_root_pointer or block.data[:4] in (b"RSDT", b"XSDT"):
            continue
        goal = told.pop(block.data[:4], END_OF_MEMORY)
        moved = Block(goal, block.data, block.name, block.line)
        if moved.end <= END_OF_MEMORY and _free(reserved, goal, len(block.data)) == goal:
            reserved.append(moved)
            placed.append(moved)
        else:
            rest.append(block)
    at = _LOWEST_TABLE
    for block in rest:
        at = _free(reserved, at, len(block.data))
        placed.append(Block(at, block.data, block.name, block.line))
        at += len(block.data)
    return placed


def _with_root_pointer(blocks: List[Block]) -> Tuple[List[Block], str]:
    roots = [block for block in blocks if block.name == "XSDT"]
    roots += [block for block in blocks if block.name == "RSDT"]
    if roots:
        root = roots[0]
        note = f"the dump has no root pointer, so one that leads to block {root} was made up"
        blocks = list(blocks)
    else:
        listed = [b for b in blocks if b.data[:4] not in (b"DSDT", b"FACS")]
        entries = b"".join(block.address.to_bytes(8, "little") for block in listed)
        data = _made_up_xsdt(entries, listed)
        root = Block(_free(blocks, _LOWEST_TABLE, len(data)), data, "XSDT")
        note = (
            "the dump has no root pointer and no root table, so both were made up,"
            " with the blocks in their order as the entries"
        )
        blocks = list(blocks) + [root]
    data = _made_up_pointer(root)
    pointer = Block(_free(blocks, _LOWEST_POINTER, len(data)), data, "RSDP")
    return blocks + [pointer], note


def _with_sum(data: bytes, place: int) -> bytes:
    """The same bytes with the one at `place` so that they sum to 0."""
    fixed = bytearray(data)
    fixed[place] = (fixed[place] - sum(fixed)) % 256
    return bytes(fixed)


def _made_up_xsdt(entries: bytes, listed: Sequence[Block]) -> bytes:
    # Maker and table id are those of the first table, so that a summary names the board.
    maker = listed[0].data[10:24].ljust(14, b"\0") if listed else bytes(14)
    length = 36 + len(entries)
    header = b"XSDT" + length.to_bytes(4, "little") + b"\x01\x00" + maker + bytes(12)
    return _with_sum(header + entries, 9)


def _made_up_pointer(root: Block) -> bytes:
    maker = root.data[10:16].ljust(6, b"\0")
    if root.name == "RSDT":
        narrow = (root.address % (1 << 32)).to_bytes(4, "little")
        return _with_sum(b"RSD PTR \0" + maker + b"\0" + narrow, 8)
    first = _with_sum(b"RSD PTR \0" + maker + b"\x02" + bytes(4), 8)
    rest = (36).to_bytes(4, "little") + root.address.to_bytes(8, "little") + bytes(4)
    return _with_sum(first + rest, 32)
