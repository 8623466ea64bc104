"""What Tablewalk makes of a board's ACPI tables, for test benches in Python.

    from tablewalk import Image, Refused

    image = Image.from_acpidump(open("board.dump", "rb").read(), "board.dump")
    for processor in image.interrupt_lists().processors:
        print(processor)

Every answer comes from the proved library libtablewalk.so; this package only
hands it bytes and gives its answers names. Only the standard library is needed.
"""

from .answers import MEANINGS, Refused, meaning_of
from .dump import DumpError
from .image import Image, Listed, TableBytes
from .library import Library, LibraryMissing
from .names import FADT_NUMBERS, REGISTERS
from .records import (
    ALL_PROCESSORS,
    AmlTable,
    FadtFixed,
    GenericAddress,
    Header,
    HpetInfo,
    InterruptLists,
    InterruptModel,
    InterruptSourceOverride,
    IoApic,
    MadtEntry,
    MadtFixed,
    NmiLine,
    NmiSource,
    PciConfigEntry,
    PlatformInfo,
    PmTimer,
    Processor,
    Range,
    RootPointer,
    RootTable,
    Table,
)

__version__ = "0.1.0"

__all__ = [
    "ALL_PROCESSORS",
    "AmlTable",
    "DumpError",
    "FADT_NUMBERS",
    "FadtFixed",
    "GenericAddress",
    "Header",
    "HpetInfo",
    "Image",
    "InterruptLists",
    "InterruptModel",
    "InterruptSourceOverride",
    "IoApic",
    "Library",
    "LibraryMissing",
    "Listed",
    "MEANINGS",
    "MadtEntry",
    "MadtFixed",
    "NmiLine",
    "NmiSource",
    "PciConfigEntry",
    "PlatformInfo",
    "PmTimer",
    "Processor",
    "REGISTERS",
    "Range",
    "Refused",
    "RootPointer",
    "RootTable",
    "Table",
    "TableBytes",
    "meaning_of",
]
