"""Write many dumps of made-up boards, and time a summary of them.

    python3 many.py FOLDER [COUNT]       write COUNT dumps, 4,000 if not told
    python3 many.py --time FOLDER        time ./tablewalk and acpixtract on them

The boards differ in processors, controllers, windows and tables, and one in ten has
a fault. The same seed writes the same files. What was made is known of each board, so
that test_many.py can hold a summary to it.
"""

import random
import resource
import shutil
import subprocess
import sys
import time
from dataclasses import dataclass
from pathlib import Path
from typing import List, Optional, Tuple

from make_examples import dump_text

ROOT = Path(__file__).resolve().parents[2]
SEED = 4000

# How many boards are written if nobody says.
BOARDS = 4000


@dataclass
class Board:
    """A board as it was made: its blocks, what a summary must count, and the fault."""

    blocks: List[Tuple[str, int, bytes]]
    maker: str
    table_id: str
    tables: int
    processors: int
    controllers: int
    windows: Optional[int]
    # The block in which a bit was turned, and the place of its byte.
    fault: Optional[Tuple[str, int]] = None


def little(value, size):
    return value.to_bytes(size, "little")


def table(signature, body, maker, revision=1):
    head = signature + little(36 + len(body), 4) + bytes([revision, 0]) + maker
    data = bytearray(head.ljust(36, b"\x01") + body)
    data[9] = -sum(data) % 256
    return bytes(data)


def madt(choose, maker):
    body = little(0xFEE00000, 4) + little(choose.randrange(2), 4)
    processors = choose.choice([1, 2, 4, 4, 8, 8, 16, 64])
    for n in range(processors):
        body += bytes([0, 8, n, 2 * n, choose.choice([1, 1, 1, 0]) if n else 1, 0, 0, 0])
    controllers = choose.choice([1, 1, 1, 2])
    for n in range(controllers):
        body += bytes([1, 12, n, 0]) + little(0xFEC00000 + 0x1000 * n, 4) + little(24 * n, 4)
    body += bytes([2, 10, 0, 0, 2, 0, 0, 0, 0, 0, 2, 10, 0, 9, 9, 0, 0, 0, 13, 0])
    body += bytes([4, 6, 0xFF, 5, 0, 1])
    return table(b"APIC", body, maker, 4), processors, controllers


def mcfg(choose, maker):
    body = bytes(8)
    windows = choose.choice([1, 1, 1, 2])
    for n in range(windows):
        body += little(0xB0000000 + (n << 28), 8) + little(n, 2) + bytes([0, 255]) + bytes(4)
    return table(b"MCFG", body, maker), windows


def fadt(maker, dsdt):
    body = bytearray(240)
    body[40 - 36:44 - 36] = little(dsdt, 4)
    body[46 - 36:48 - 36] = little(9, 2)
    body[56 - 36:60 - 36] = little(0x600, 4)
    body[64 - 36:68 - 36] = little(0x604, 4)
    body[88 - 36:92 - 36] = bytes([4, 2, 0, 4])
    return table(b"FACP", bytes(body), maker, 5)


def hpet(maker):
    return table(b"HPET", little(0x8086A201, 4) + bytes([0, 64, 0, 0]) + little(0xFED00000, 8)
                 + bytes(4), maker)


def a_board(choose):
    """One board."""
    maker = b"BOARD" + bytes([65 + choose.randrange(26)])
    maker += b"REV-%04d" % choose.randrange(10000)
    base = 0x7F000000 + 0x1000 * choose.randrange(4096)
    interrupts, processors, controllers = madt(choose, maker)
    tables = [interrupts]
    windows = None
    if choose.random() < 0.9:
        data, windows = mcfg(choose, maker)
        tables.append(data)
    if choose.random() < 0.7:
        tables.append(hpet(maker))
    for _ in range(choose.randrange(6)):
        tables.append(table(b"SSDT", choose.randbytes(choose.randrange(64, 2000)), maker))
    dsdt = table(b"DSDT", choose.randbytes(choose.randrange(4000, 20000)), maker)
    tables.append(fadt(maker, base + 0x100000))
    choose.shuffle(tables)
    addresses = []
    at = base + 0x1000
    for data in tables:
        addresses.append(at)
        at += (len(data) + 15) // 16 * 16
    root = table(b"XSDT", b"".join(little(address, 8) for address in addresses), maker)
    pointer = bytearray(b"RSD PTR \0" + maker[:6] + b"\x02" + bytes(4) + little(36, 4)
                        + little(base + 0x40, 8) + bytes(4))
    pointer[8] = -sum(pointer[:20]) % 256
    pointer[32] = -sum(pointer) % 256
    blocks = [("RSDP", base, bytes(pointer)), ("XSDT", base + 0x40, root)]
    blocks += [(data[:4].decode(), address, data) for address, data in zip(addresses, tables)]
    blocks.append(("DSDT", base + 0x100000, dsdt))
    board = Board(blocks, maker[:6].decode(), maker[6:].decode(), len(tables), processors,
                  controllers, windows)
    if choose.random() < 0.1:
        at = choose.randrange(len(blocks) - 1)
        name, address, data = blocks[at]
        damaged = bytearray(data)
        place = choose.randrange(len(damaged))
        damaged[place] ^= 1 << choose.randrange(8)
        blocks[at] = (name, address, bytes(damaged))
        board.fault = (name, place)
    return board


def write(folder, count):
    """Write so many dumps, and give for each its file and the board."""
    folder.mkdir(parents=True, exist_ok=True)
    boards = []
    for n in range(count):
        board = a_board(random.Random(SEED + n))
        path = folder / f"board-{n:04}.dump"
        path.write_text(dump_text(board.blocks), encoding="ascii")
        boards.append((path, board))
    return boards


def timed(title, command, files=None):
    began, before = time.monotonic(), processor_seconds()
    if files is None:
        subprocess.run(command, stdout=subprocess.DEVNULL, check=False)
    else:
        for path in files:
            subprocess.run([*command, str(path)], stdout=subprocess.DEVNULL,
                           stderr=subprocess.DEVNULL, check=False)
    wall, used = time.monotonic() - began, processor_seconds() - before
    print(f"{title}: {wall:.1f} s, {used:.1f} s of processor time")


def processor_seconds():
    """What all commands run so far have used."""
    used = resource.getrusage(resource.RUSAGE_CHILDREN)
    return used.ru_utime + used.ru_stime


def time_all(folder):
    files = sorted(folder.iterdir())
    size = sum(path.stat().st_size for path in files)
    print(f"{len(files)} dumps, {size / 1e6:.0f} MB of text")
    timed("./tablewalk summary FOLDER", [str(ROOT / "tablewalk"), "summary", str(folder)])
    if shutil.which("acpixtract"):
        timed("acpixtract -l, once for each file", ["acpixtract", "-l"], files)


def main():
    words = sys.argv[1:]
    if len(words) == 2 and words[0] == "--time":
        time_all(Path(words[1]))
    elif 1 <= len(words) <= 2 and not words[0].startswith("-"):
        write(Path(words[0]), int(words[1]) if len(words) == 2 else BOARDS)
    else:
        sys.exit(__doc__)


if __name__ == "__main__":
    main()
