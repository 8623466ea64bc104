#!/usr/bin/env python3
"""Start a QEMU machine, wait for its firmware, and save tables from its memory.

Usage: dump_qemu.py NAME SECONDS QEMU-ARGUMENT..

Writes fixtures/qemu-NAME-SIGNATURE.aml for the tables APIC, FACP, HPET and MCFG.
The machine has 64 MB and no disk, so SeaBIOS lays out the tables and then finds
nothing to start.
"""

import pathlib
import struct
import subprocess
import sys
import tempfile
import time

FIXTURES = pathlib.Path(__file__).resolve().parent / "fixtures"
WANTED = [b"APIC", b"FACP", b"HPET", b"MCFG"]


def memory_of(seconds, arguments):
    with tempfile.TemporaryDirectory() as folder:
        path = pathlib.Path(folder) / "memory"
        machine = subprocess.Popen(
            ["qemu-system-x86_64", *arguments, "-m", "64", "-display", "none", "-serial", "none",
             "-net", "none", "-monitor", "stdio"],
            stdin=subprocess.PIPE, stdout=subprocess.DEVNULL, text=True)
        time.sleep(seconds)
        machine.communicate(f'pmemsave 0 0x4000000 "{path}"\nquit\n', timeout=60)
        return path.read_bytes()


def tables_in(memory):
    for place in range(0xE0000, 0x100000, 16):
        if memory[place:place + 8] == b"RSD PTR " and sum(memory[place:place + 20]) % 256 == 0:
            break
    else:
        sys.exit("dump_qemu.py: no root pointer yet; wait longer")
    root = struct.unpack_from("<I", memory, place + 16)[0]
    length = struct.unpack_from("<I", memory, root + 4)[0]
    for entry in range(root + 36, root + length, 4):
        table = struct.unpack_from("<I", memory, entry)[0]
        size = struct.unpack_from("<I", memory, table + 4)[0]
        yield memory[table:table + size]


def main():
    if len(sys.argv) < 4:
        print("dump_qemu.py: expected a name, seconds and QEMU's arguments", file=sys.stderr)
        return 2
    for table in tables_in(memory_of(float(sys.argv[2]), sys.argv[3:])):
        if table[:4] in WANTED:
            path = FIXTURES / f"qemu-{sys.argv[1]}-{table[:4].decode().lower()}.aml"
            path.write_bytes(table)
            print(f"{path.name}: {len(table)} bytes")
    return 0


if __name__ == "__main__":
    sys.exit(main())
