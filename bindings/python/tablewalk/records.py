"""The values of the answers. Field names are those of the crate acpi, where it
has the field."""

from dataclasses import dataclass
from typing import Optional, Tuple


@dataclass(frozen=True)
class Range:
    """A piece of physical memory, and where in the image its bytes stand."""

    start: int
    length: int
    offset: int


@dataclass(frozen=True)
class RootPointer:
    """A valid root pointer. `xsdt_address` is 0 for revision 0."""

    address: int
    revision: int
    length: int
    rsdt_address: int
    xsdt_address: int


@dataclass(frozen=True)
class RootTable:
    """A valid root table: RSDT or XSDT."""

    kind: str
    address: int
    offset: int
    length: int
    entry_size: int
    entry_count: int


@dataclass(frozen=True)
class Table:
    """A valid table: its physical address, offset in the image and length."""

    address: int
    offset: int
    length: int


@dataclass(frozen=True)
class AmlTable:
    """Physical address and length of the AML stream after a table's header."""

    address: int
    length: int


@dataclass(frozen=True)
class Header:
    """The fields of a header as they stand in memory, valid or not. Bytes that
    are not UTF-8 are written as \\xNN."""

    signature: str
    length: int
    revision: int
    oem_id: str
    oem_table_id: str
    oem_revision: int
    creator_id: str
    creator_revision: int


@dataclass(frozen=True)
class GenericAddress:
    """A register: the numbers of its space and access size, and where it is."""

    address_space: int
    bit_width: int
    bit_offset: int
    access_size: int
    address: int


@dataclass(frozen=True)
class PciConfigEntry:
    """A window of PCI configuration space. The last bus is part of it."""

    base_address: int
    pci_segment_group: int
    bus_number_start: int
    bus_number_end: int


@dataclass(frozen=True)
class HpetInfo:
    """The high precision event timer."""

    event_timer_block_id: int
    hardware_rev: int
    num_comparators: int
    main_counter_is_64bits: bool
    legacy_irq_capable: bool
    pci_vendor_id: int
    base_address: int
    hpet_number: int
    clock_tick_unit: int
    page_protection: int


@dataclass(frozen=True)
class FadtFixed:
    """The plain fields in the first 116 bytes of the FADT."""

    sci_interrupt: int
    smi_cmd_port: int
    acpi_enable: int
    acpi_disable: int
    s4bios_req: int
    pstate_control: int
    gpe1_base: int
    c_state_control: int
    worst_c2_latency: int
    worst_c3_latency: int
    flush_size: int
    flush_stride: int
    duty_offset: int
    duty_width: int
    day_alarm: int
    month_alarm: int
    century: int
    iapc_boot_arch: int
    flags: int


@dataclass(frozen=True)
class MadtFixed:
    """The fixed part of the MADT."""

    local_apic_address: int
    flags: int
    also_has_legacy_pics: bool


@dataclass(frozen=True)
class MadtEntry:
    """An entry of the MADT; its offset is from the start of the table."""

    kind: int
    offset: int
    length: int


@dataclass(frozen=True)
class InterruptModel:
    """The interrupt model, with how many records each of its lists has."""

    known: bool
    local_apic_address: int
    also_has_legacy_pics: bool
    processors: int
    io_apics: int
    interrupt_source_overrides: int
    nmi_sources: int
    local_apic_nmi_lines: int


@dataclass(frozen=True)
class PmTimer:
    """The power management timer: its register, and whether it has 32 bits and not 24."""

    base: GenericAddress
    supports_32bit: bool


@dataclass(frozen=True)
class PlatformInfo:
    """What a kernel asks first. Without a valid MADT nothing is known of the model;
    `pm_timer` is None where there is none."""

    power_profile: int
    interrupt_model: InterruptModel
    pm_timer: Optional[PmTimer]


@dataclass(frozen=True)
class Processor:
    """A processor: state 0 is disabled, 1 waiting, 2 running."""

    processor_uid: int
    local_apic_id: int
    state: int


@dataclass(frozen=True)
class IoApic:
    """An I/O controller."""

    id: int
    address: int
    global_system_interrupt_base: int


@dataclass(frozen=True)
class InterruptSourceOverride:
    """Polarity and trigger: 0 as the bus has it; 1 high or edge; 3 low or level."""

    isa_source: int
    global_system_interrupt: int
    polarity: int
    trigger_mode: int


@dataclass(frozen=True)
class NmiSource:
    """An interrupt that is not maskable. Polarity and trigger as in an override."""

    global_system_interrupt: int
    polarity: int
    trigger_mode: int


@dataclass(frozen=True)
class NmiLine:
    """The line of a local controller at which its NMI arrives; the processor
    ALL_PROCESSORS stands for all of them."""

    processor_uid: int
    line: int


ALL_PROCESSORS = 0xFFFFFFFF


@dataclass(frozen=True)
class InterruptLists:
    """The five lists of the interrupt model, each in the order of the table. The
    first processor is the boot processor."""

    processors: Tuple[Processor, ...]
    io_apics: Tuple[IoApic, ...]
    interrupt_source_overrides: Tuple[InterruptSourceOverride, ...]
    nmi_sources: Tuple[NmiSource, ...]
    local_apic_nmi_lines: Tuple[NmiLine, ...]
