"""The questions, as methods: about an image of memory, and about one table."""

import ctypes
import os
from dataclasses import dataclass
from typing import Any, Dict, Iterable, Iterator, List, Optional, Sequence, Tuple, Union

from . import answers
from .answers import FOUND, Refused
from .dump import Block, Layout, assemble, layout_of_acpidump, parse_map
from .library import Library
from .names import FADT_NUMBERS, FIXED_PART, HEADER_LENGTH, REGISTERS
from .records import (
    AmlTable,
    FadtFixed,
    GenericAddress,
    Header,
    HpetInfo,
    InterruptLists,
    InterruptModel,
    InterruptSourceOverride,
    IoApic,
    MadtEntry,
    MadtFixed,
    NmiLine,
    NmiSource,
    PciConfigEntry,
    PlatformInfo,
    PmTimer,
    Processor,
    Range,
    RootPointer,
    RootTable,
    Table,
)

Path = Union[str, "os.PathLike[str]"]
Signature = Union[str, bytes, int]


def signature_number(signature: Signature) -> int:
    """A signature as the library takes it: `APIC` is 0x43495041."""
    if isinstance(signature, int):
        return signature
    data = signature.encode("utf-8") if isinstance(signature, str) else bytes(signature)
    if len(data) != 4:
        raise ValueError(f"a signature has 4 bytes, and {signature!r} has {len(data)}")
    return int.from_bytes(data, "little")


def text_of(data: bytes) -> str:
    """A text field without the zeros and spaces that fill it up."""
    return data.decode("utf-8", "backslashreplace").rstrip("\0 ")


def header_of(data: bytes) -> Header:
    """The fields of the header in the first 36 bytes."""
    return Header(
        data[0:4].decode("utf-8", "backslashreplace"),
        int.from_bytes(data[4:8], "little"),
        data[8],
        text_of(data[10:16]),
        text_of(data[16:24]),
        int.from_bytes(data[24:28], "little"),
        text_of(data[28:32]),
        int.from_bytes(data[32:36], "little"),
    )


@dataclass(frozen=True)
class Listed:
    """An entry of the root table, and what stands at its address. `answer` is 0
    where that is a valid table; `header` is None where no header is mapped."""

    entry: int
    address: int
    answer: int
    header: Optional[Header]
    table: Optional[Table]


class _Questions:
    """The questions that can be asked of one table, or of the image it is in."""

    _library: Library
    _prefix: str

    def _subject(self) -> Tuple[Any, ...]:
        """The arguments that every function of this kind begins with."""
        raise NotImplementedError

    def _place(self, question: str, number: int) -> Optional[str]:
        """Where the fault stands, if the library can tell by further questions."""
        return None

    def _call(self, question: str, arguments: Sequence[Any]) -> None:
        number = self._library.ask(self._prefix + question, [*self._subject(), *arguments])
        if number != FOUND:
            raise Refused(number, question, self._place(question, number))

    def _ask(self, question: str, words: int, *arguments: Any) -> List[int]:
        out = (ctypes.c_uint64 * words)()
        self._call(question, [*arguments, out])
        return list(out)

    def hpet(self) -> HpetInfo:
        """The high precision event timer."""
        v = self._ask("hpet", 10)
        return HpetInfo(v[0], v[1], v[2], bool(v[3]), bool(v[4]), *v[5:])

    def mcfg_count(self) -> int:
        """The number of windows of PCI configuration space."""
        return self._ask("mcfg_count", 1)[0]

    def mcfg_entry(self, k: int) -> PciConfigEntry:
        """The k-th window."""
        return PciConfigEntry(*self._ask("mcfg_entry", 4, k))

    def pci_address(self, segment: int, bus: int, device: int, function: int) -> int:
        """The physical address of a function's configuration space."""
        return self._ask("pci_address", 1, segment, bus, device, function)[0]

    def fadt_fixed(self) -> FadtFixed:
        """The plain fields in the first 116 bytes of the FADT."""
        return FadtFixed(*self._ask("fadt_fixed", 19))

    def fadt_register(self, which: Union[int, str]) -> GenericAddress:
        """A register of the FADT, by the library's number or by its name in REGISTERS."""
        number = REGISTERS.index(which) if isinstance(which, str) else which
        return GenericAddress(*self._ask("fadt_register", 5, number))

    def fadt_number(self, which: Union[int, str]) -> int:
        """A number of the FADT, by the library's number or by its name in FADT_NUMBERS."""
        number = FADT_NUMBERS.index(which) if isinstance(which, str) else which
        return self._ask("fadt_number", 1, number)[0]

    def madt_fixed(self) -> MadtFixed:
        """The fixed part of the MADT."""
        v = self._ask("madt_fixed", 3)
        return MadtFixed(v[0], v[1], bool(v[2]))

    def madt_entry(self, k: int) -> MadtEntry:
        """The k-th entry of the MADT."""
        return MadtEntry(*self._ask("madt_entry", 3, k))

    def interrupt_model(self) -> InterruptModel:
        """The interrupt model, with how many records each of its lists has."""
        return _model(self._ask("interrupt_model", 8))

    def interrupt_lists(self) -> InterruptLists:
        """The five lists of the interrupt model."""
        model = self.interrupt_model()
        processors = (ctypes.c_uint32 * (3 * model.processors))()
        io_apics = (ctypes.c_uint32 * (3 * model.io_apics))()
        overrides = (ctypes.c_uint32 * (3 * model.interrupt_source_overrides))()
        sources = (ctypes.c_uint32 * (2 * model.nmi_sources))()
        lines = (ctypes.c_uint32 * (2 * model.local_apic_nmi_lines))()
        self._call("interrupt_lists", [processors, io_apics, overrides, sources, lines])
        return InterruptLists(
            tuple(Processor(*r) for r in _records(processors, 3)),
            tuple(IoApic(*r) for r in _records(io_apics, 3)),
            tuple(
                InterruptSourceOverride(r[0], r[1], r[2] % 4, r[2] // 4)
                for r in _records(overrides, 3)
            ),
            tuple(NmiSource(r[0], r[1] % 4, r[1] // 4) for r in _records(sources, 2)),
            tuple(NmiLine(*r) for r in _records(lines, 2)),
        )

    def mailbox(self) -> int:
        """The mailbox address of the first multiprocessor wakeup entry."""
        return self._ask("mailbox", 1)[0]


def _model(v: Sequence[int]) -> InterruptModel:
    return InterruptModel(bool(v[0]), v[1], bool(v[2]), *v[3:])


def _records(words: Any, size: int) -> List[List[int]]:
    flat = list(words)
    return [flat[at:at + size] for at in range(0, len(flat), size)]


class TableBytes(_Questions):
    """The bytes that are meant to be exactly one table, and questions about it. No
    sum is tested here: a table that was found through an Image has been."""

    _prefix = "tablewalk_table_"

    def __init__(self, data: bytes, library: Optional[Library] = None) -> None:
        self.data = bytes(data)
        self._library = library if library is not None else Library()

    def _subject(self) -> Tuple[Any, ...]:
        return (self.data,)

    def _place(self, question: str, number: int) -> Optional[str]:
        if question in ("interrupt_model", "interrupt_lists"):
            return self._entry_at_fault(number)
        return None

    def mcfg_entries(self) -> List[PciConfigEntry]:
        """All windows, in the order of the table."""
        return [self.mcfg_entry(k) for k in range(self.mcfg_count())]

    def madt_entries(self) -> Iterator[MadtEntry]:
        """The entries of the MADT in order. Ends with Refused where an entry is
        inconsistent, after those in front of it were given."""
        # The library walks to the k-th entry from the first one. So that a table with
        # very many entries is not walked once for each, it is asked about in parts: the
        # fixed part with the entries that are left.
        start = 44
        part = self
        while True:
            end = start
            for k in range(256):
                try:
                    entry = part.madt_entry(k)
                except Refused as refused:
                    if refused.number == answers.NO_SUCH_ADDRESS:
                        return
                    raise
                at = entry.offset - 44 + start
                end = at + entry.length
                yield MadtEntry(entry.kind, at, entry.length)
            start = end
            part = self._with_entries(self.data[start:])

    def _with_entries(self, entries: bytes) -> "TableBytes":
        """This table with other entries after its first 44 bytes."""
        length = (44 + len(entries)).to_bytes(4, "little")
        return TableBytes(self.data[:4] + length + self.data[8:44] + entries, self._library)

    def _entry_at_fault(self, number: int) -> Optional[str]:
        """The first entry that gives this refusal. The walk says where it ends; for
        the other faults each entry is asked about in a table of its own, behind a
        processor, so that the library and not this package decides."""
        k = 0
        end = 44
        try:
            for entry in self.madt_entries():
                if number == answers.WRONG_BUS_LINE_OR_FLAGS:
                    alone = self.data[entry.offset:entry.offset + entry.length]
                    table = self._with_entries(_A_PROCESSOR + alone)
                    counts = (ctypes.c_uint64 * 8)()
                    answer = self._library.ask(
                        "tablewalk_table_interrupt_model", [table.data, counts]
                    )
                    if answer == number:
                        return f"MADT entry {k} at offset {entry.offset:#x}"
                end = entry.offset + entry.length
                k += 1
        except Refused as refused:
            if refused.number == number:
                return f"MADT entry {k} at offset {end:#x}"
        return None


_A_PROCESSOR = bytes([0, 8, 0, 0, 1, 0, 0, 0])


class Image(_Questions):
    """Bytes, and which part of physical memory each part of them is.

    `ranges` are Range records or triples (physical start, length, offset in the
    bytes), at most 64, ascending and not overlapping. `rsdp` is the address of the
    root pointer; without one it is searched for where a BIOS leaves it.
    """

    _prefix = "tablewalk_"

    def __init__(
        self,
        data: bytes,
        ranges: Iterable[Union[Range, Tuple[int, int, int]]],
        rsdp: Optional[int] = None,
        library: Optional[Library] = None,
    ) -> None:
        self.data = bytes(data)
        self.range_list: Tuple[Range, ...] = tuple(
            r if isinstance(r, Range) else Range(*r) for r in ranges
        )
        self.notes: Tuple[str, ...] = ()
        numbers = [n for r in self.range_list for n in (r.start, r.length, r.offset)]
        for number in numbers:
            if not 0 <= number < 1 << 64:
                raise ValueError(f"ranges: {number} does not fit in 64 bits")
        self._flat = (ctypes.c_uint64 * len(numbers))(*numbers)
        self._library = library if library is not None else Library()
        self._rsdp = rsdp

    # Constructors.

    @classmethod
    def _from_layout(cls, layout: Layout, library: Optional[Library]) -> "Image":
        image = cls(layout.data, layout.ranges, layout.rsdp, library)
        image.notes = tuple(layout.notes)
        return image

    @classmethod
    def from_acpidump(
        cls, text: Union[str, bytes], name: str = "dump", library: Optional[Library] = None
    ) -> "Image":
        """An image from the text that acpidump writes. Raises DumpError, which names
        `name` and the line. `notes` says what had to be assumed."""
        data = text.encode("latin-1", "replace") if isinstance(text, str) else text
        return cls._from_layout(layout_of_acpidump(data, name), library)

    @classmethod
    def from_pieces(
        cls,
        pieces: Iterable[Tuple[int, bytes]],
        rsdp: Optional[int] = None,
        library: Optional[Library] = None,
    ) -> "Image":
        """An image from pieces (physical address, bytes) in any order. Pieces may
        overlap where they agree; DumpError where they do not."""
        layout = assemble([Block(start, bytes(data)) for start, data in pieces], "pieces")
        layout.rsdp = rsdp
        return cls._from_layout(layout, library)

    @classmethod
    def from_raw(
        cls,
        path: Path,
        base: int = 0,
        rsdp: Optional[int] = None,
        library: Optional[Library] = None,
    ) -> "Image":
        """An image from a file that holds memory from the address `base` on."""
        with open(path, "rb") as file:
            data = file.read()
        return cls(data, [Range(base, len(data), 0)], rsdp, library)

    @classmethod
    def from_map(
        cls,
        path: Path,
        map_path: Path,
        rsdp: Optional[int] = None,
        library: Optional[Library] = None,
    ) -> "Image":
        """An image from a file, with its ranges from another: a line START LENGTH
        OFFSET each, in hexadecimal."""
        with open(map_path, "rb") as file:
            ranges = parse_map(file.read(), str(map_path))
        with open(path, "rb") as file:
            return cls(file.read(), ranges, rsdp, library)

    # What the questions are made of.

    @property
    def rsdp_address(self) -> int:
        """The root pointer's address: as given, or else as the search finds it."""
        if self._rsdp is None:
            self._rsdp = self.search()
        return self._rsdp

    def _subject(self) -> Tuple[Any, ...]:
        return (self.data, self._flat, self.rsdp_address)

    def _of_image(self, question: str, words: int, *arguments: Any) -> List[int]:
        """A question that needs no root pointer."""
        out = (ctypes.c_uint64 * words)()
        number = self._library.ask(
            self._prefix + question, [self.data, self._flat, *arguments, out]
        )
        if number != FOUND:
            raise Refused(number, question, self._place_of_address(number, arguments))
        return list(out)

    @staticmethod
    def _place_of_address(number: int, arguments: Sequence[Any]) -> Optional[str]:
        return f"at {arguments[0]:#x}" if arguments and number != answers.WRONG_RANGES else None

    def _place(self, question: str, number: int) -> Optional[str]:
        if number == answers.WRONG_RANGES:
            return None
        if number <= answers.ROOT_POINTER_CHECKSUM:
            return f"root pointer at {self.rsdp_address:#x}"
        if number <= answers.TOO_SHORT:
            root = (ctypes.c_uint64 * 6)()
            if self._library.ask("tablewalk_root", [*self._subject(), root]) == number:
                return self._place_of_root()
        if question == "dsdt":
            dsdt = (ctypes.c_uint64 * 1)()
            if not self._library.ask("tablewalk_fadt_number", [*self._subject(), 1, dsdt]):
                return f"DSDT at {dsdt[0]:#x}"
        if question in ("interrupt_model", "interrupt_lists", "platform"):
            found = (ctypes.c_uint64 * 3)()
            arguments = [*self._subject(), signature_number("APIC"), 44, 0, found]
            if self._library.ask("tablewalk_find", arguments) == FOUND:
                return self.view(Table(*found))._entry_at_fault(number)
        return None

    def _place_of_root(self) -> Optional[str]:
        pointer = self.rsdp(self.rsdp_address)
        if pointer.revision == 0:
            return f"RSDT at {pointer.rsdt_address:#x}"
        return f"XSDT at {pointer.xsdt_address:#x}"

    # Questions without a root pointer.

    def ranges(self) -> Tuple[Range, ...]:
        """The ranges, once the library has said that the list is right."""
        number = self._library.ask("tablewalk_ranges", [self.data, self._flat])
        if number != FOUND:
            raise Refused(number, "ranges")
        return self.range_list

    def rsdp(self, address: int) -> RootPointer:
        """The root pointer at an address."""
        return RootPointer(address, *self._of_image("rsdp", 4, address))

    def search(self) -> int:
        """The address of the first valid root pointer where a BIOS leaves it."""
        return self._of_image("search", 1)[0]

    def table_at(
        self, address: int, signature: Signature, least: int = HEADER_LENGTH
    ) -> Table:
        """The table of a signature at an address."""
        number = signature_number(signature)
        return Table(*self._of_image("table_at", 3, address, number, least))

    def any_table_at(self, address: int) -> Table:
        """The table at an address, whatever its signature."""
        return Table(*self._of_image("any_table_at", 3, address))

    # Questions that begin at the root pointer.

    def root(self) -> RootTable:
        """The root table."""
        v = self._ask("root", 6)
        return RootTable("XSDT" if v[0] else "RSDT", *v[1:])

    def entry(self, k: int) -> int:
        """The address in the k-th entry of the root table."""
        return self._ask("entry", 1, k)[0]

    def find(self, signature: Signature, least: int = HEADER_LENGTH, n: int = 0) -> Table:
        """The n-th valid table of a signature, counted from 0."""
        return Table(*self._ask("find", 3, signature_number(signature), least, n))

    def header(self, n: int) -> Table:
        """The n-th valid table of any signature, counted from 0."""
        return Table(*self._ask("header", 3, n))

    def platform(self) -> PlatformInfo:
        """Power profile, interrupt model and power management timer. A FADT is needed."""
        v = self._ask("platform", 16)
        timer = PmTimer(GenericAddress(*v[10:15]), bool(v[15])) if v[9] else None
        return PlatformInfo(v[0], _model(v[1:9]), timer)

    def dsdt(self) -> AmlTable:
        """The AML stream of the DSDT."""
        return AmlTable(*self._ask("dsdt", 2))

    def ssdt(self, n: int) -> AmlTable:
        """The AML stream of the n-th SSDT, counted from 0."""
        return AmlTable(*self._ask("ssdt", 2, n))

    # All answers of a kind.

    def mcfg_entries(self) -> List[PciConfigEntry]:
        """All windows of PCI configuration space, in the order of the MCFG."""
        return self.view(self.find("MCFG", FIXED_PART["MCFG"])).mcfg_entries()

    def madt_entries(self) -> Iterator[MadtEntry]:
        """The entries of the MADT in order. Ends with Refused where an entry is
        inconsistent, after those in front of it were given."""
        return self.view(self.find("APIC", FIXED_PART["APIC"])).madt_entries()

    # Plain looks at the bytes, for showing them. No answer rests on these.

    def bytes_at(self, address: int, length: int) -> Optional[bytes]:
        """The bytes at a physical address, if one range holds them all."""
        for r in self.range_list:
            if r.start <= address and address + length <= r.start + r.length:
                at = r.offset + (address - r.start)
                return self.data[at:at + length]
        return None

    def header_at(self, address: int) -> Optional[Header]:
        """The header at an address as it stands there, valid or not."""
        data = self.bytes_at(address, HEADER_LENGTH)
        return header_of(data) if data is not None and len(data) == HEADER_LENGTH else None

    def view(self, table: Table) -> TableBytes:
        """A found table by itself."""
        data = self.data[table.offset:table.offset + table.length]
        return TableBytes(data, self._library)

    def tables(self) -> List[Listed]:
        """Every entry of the root table, valid or with the number that refuses it."""
        listed: List[Listed] = []
        # An entry may repeat an address; its table is summed only once.
        known: Dict[int, Tuple[int, Optional[Table]]] = {}
        for k in range(self.root().entry_count):
            address = self.entry(k)
            if address not in known:
                try:
                    known[address] = (FOUND, self.any_table_at(address))
                except Refused as refused:
                    known[address] = (refused.number, None)
            answer, table = known[address]
            listed.append(Listed(k, address, answer, self.header_at(address), table))
        return listed
