"""Take the ACPI tables of a QEMU machine's firmware as an acpidump text.

    python3 take_dump.py [--wait SECONDS] OUTPUT MEGABYTES QEMU OPTION..

The machine is started with that much memory and without a display; after some
seconds, in which the firmware writes its tables, its memory is saved through the
monitor, and what the root pointer leads to is written as acpidump would.
"""

import subprocess
import sys
import tempfile
import time
from pathlib import Path

from make_examples import dump_text


def number(data, offset, size):
    return int.from_bytes(data[offset:offset + size], "little")


def save_memory(command, megabytes, wait):
    """The guest's memory after `wait` seconds."""
    with tempfile.TemporaryDirectory() as folder:
        path = Path(folder) / "memory"
        machine = subprocess.Popen(
            [*command, "-m", str(megabytes), "-display", "none", "-serial", "null",
             "-monitor", "stdio", "-nic", "none"],
            stdin=subprocess.PIPE, stdout=subprocess.DEVNULL, text=True,
        )
        try:
            time.sleep(wait)
            machine.stdin.write(f'stop\npmemsave 0 {megabytes << 20:#x} "{path}"\nquit\n')
            machine.stdin.flush()
            machine.wait(60)
        finally:
            if machine.poll() is None:
                machine.kill()
        return path.read_bytes()


def root_pointers(memory):
    """Every place in memory where a root pointer with right sums stands. Firmware may
    leave one of each revision, of which a system takes the later; so do we."""
    found = []
    at = memory.find(b"RSD PTR ")
    while at >= 0:
        if at % 4 == 0 and sum(memory[at:at + 20]) % 256 == 0:
            if memory[at + 15] == 0 or sum(memory[at:at + 36]) % 256 == 0:
                found.append(at)
        at = memory.find(b"RSD PTR ", at + 1)
    return sorted(found, key=lambda place: (memory[place + 15] == 0, place))


def blocks_from(memory, pointer):
    """The blocks that one root pointer leads to."""
    revision = memory[pointer + 15]
    size = 20 if revision == 0 else 36
    yield "RSDP", pointer, memory[pointer:pointer + size]
    root = number(memory, pointer + 16, 4) if revision == 0 else number(memory, pointer + 24, 8)
    name, width = ("RSDT", 4) if revision == 0 else ("XSDT", 8)
    if memory[root:root + 4] != name.encode():
        raise ValueError(f"no {name} at {root:#x}")
    length = number(memory, root + 4, 4)
    yield name, root, memory[root:root + length]
    for at in range(root + 36, root + length - width + 1, width):
        table = number(memory, at, width)
        yield block_at(memory, table)
        if memory[table:table + 4] == b"FACP":
            # FACS and DSDT, by their wide fields if there are such and these are not zero.
            wide = number(memory, table + 4, 4) >= 148 and memory[table + 8] >= 2
            for narrow_at, wide_at in ((36, 132), (40, 140)):
                found = number(memory, table + wide_at, 8) if wide else 0
                yield block_at(memory, found or number(memory, table + narrow_at, 4))


def block_at(memory, address):
    length = number(memory, address + 4, 4)
    return memory[address:address + 4].decode("ascii"), address, memory[address:address + length]


def main():
    words = sys.argv[1:]
    wait = 5.0
    if words[:1] == ["--wait"]:
        wait = float(words[1])
        words = words[2:]
    if len(words) < 3:
        sys.exit(__doc__)
    output, megabytes, command = words[0], int(words[1]), words[2:]
    memory = save_memory(command, megabytes, wait)
    for pointer in root_pointers(memory):
        try:
            blocks = list(blocks_from(memory, pointer))
        except ValueError:
            # A copy that the firmware left behind leads nowhere.
            continue
        Path(output).write_text(dump_text(blocks), encoding="ascii")
        print(f"{output}: {len(blocks)} blocks from the root pointer at {pointer:#x}")
        return
    sys.exit(f"{output}: no root pointer in {len(memory)} bytes of memory")


if __name__ == "__main__":
    main()
