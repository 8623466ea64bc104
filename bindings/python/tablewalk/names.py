"""Names for the numbers that the answers hold; docs/TABLES.md, sections 6 to 11."""

from typing import Dict, List, Tuple

# The order of the library's numbers for `fadt_register`.
REGISTERS: Tuple[str, ...] = (
    "pm1a_event_block",
    "pm1b_event_block",
    "pm1a_control_block",
    "pm1b_control_block",
    "pm2_control_block",
    "pm_timer_block",
    "gpe0_block",
    "gpe1_block",
    "reset_register",
    "sleep_control_register",
    "sleep_status_register",
)

# The order of the library's numbers for `fadt_number`.
FADT_NUMBERS: Tuple[str, ...] = (
    "facs_address",
    "dsdt_address",
    "reset_value",
    "arm_boot_arch",
    "power_profile",
)

# The part of a table that a question about it needs; docs/TABLES.md, section 5.
FIXED_PART: Dict[str, int] = {"FACP": 116, "APIC": 44, "MCFG": 44, "HPET": 56}
HEADER_LENGTH = 36

SPACES: Dict[int, str] = {
    0x00: "system memory",
    0x01: "system I/O",
    0x02: "PCI configuration",
    0x03: "embedded controller",
    0x04: "SMBus",
    0x05: "system CMOS",
    0x06: "PCI BAR target",
    0x07: "IPMI",
    0x08: "general purpose I/O",
    0x09: "generic serial bus",
    0x0A: "platform communications channel",
    0x7F: "functional fixed hardware",
}

# Names of spaces that fit into a column; the others do as they are.
SHORT_SPACES: Dict[str, str] = {
    "system memory": "memory",
    "system I/O": "I/O",
    "PCI configuration": "PCI",
    "embedded controller": "embedded ctrl.",
    "PCI BAR target": "PCI BAR",
    "general purpose I/O": "GPIO",
    "generic serial bus": "serial bus",
    "platform communications channel": "PCC",
    "functional fixed hardware": "fixed hardware",
}

ACCESS_SIZES: Dict[int, str] = {0: "undefined", 1: "byte", 2: "word", 3: "dword", 4: "qword"}

POWER_PROFILES: Tuple[str, ...] = (
    "unspecified",
    "desktop",
    "mobile",
    "workstation",
    "enterprise server",
    "small office server",
    "appliance",
    "performance server",
    "tablet",
)

PAGE_PROTECTION: Tuple[str, ...] = ("none", "4 KB", "64 KB", "other")
STATES: Tuple[str, ...] = ("disabled", "waiting", "running")
POLARITIES: Dict[int, str] = {0: "as the bus", 1: "active high", 3: "active low"}
TRIGGERS: Dict[int, str] = {0: "as the bus", 1: "edge", 3: "level"}

KINDS: Dict[int, str] = {
    0: "processor, local APIC",
    1: "I/O APIC",
    2: "interrupt source override",
    3: "NMI source",
    4: "local APIC NMI line",
    5: "local APIC address override",
    6: "I/O SAPIC",
    7: "processor, local SAPIC",
    8: "platform interrupt source",
    9: "processor, local x2APIC",
    10: "local x2APIC NMI line",
    11: "GIC CPU interface",
    12: "GIC distributor",
    13: "GIC MSI frame",
    14: "GIC redistributor",
    15: "GIC translation service",
    16: "multiprocessor wakeup",
}

# Bit by bit from bit 0, with the names of ACPI 5.2.9.
FLAGS: Tuple[str, ...] = (
    "WBINVD",
    "WBINVD_FLUSH",
    "PROC_C1",
    "P_LVL2_UP",
    "PWR_BUTTON",
    "SLP_BUTTON",
    "FIX_RTC",
    "RTC_S4",
    "TMR_VAL_EXT",
    "DCK_CAP",
    "RESET_REG_SUP",
    "SEALED_CASE",
    "HEADLESS",
    "CPU_SW_SLP",
    "PCI_EXP_WAK",
    "USE_PLATFORM_CLOCK",
    "S4_RTC_STS_VALID",
    "REMOTE_POWER_ON_CAPABLE",
    "FORCE_APIC_CLUSTER_MODEL",
    "FORCE_APIC_PHYSICAL_DESTINATION_MODE",
    "HW_REDUCED_ACPI",
    "LOW_POWER_S0_IDLE_CAPABLE",
)
IAPC_BOOT_FLAGS: Tuple[str, ...] = (
    "LEGACY_DEVICES",
    "8042",
    "VGA_NOT_PRESENT",
    "MSI_NOT_SUPPORTED",
    "PCIE_ASPM_CONTROLS",
    "CMOS_RTC_NOT_PRESENT",
)
ARM_BOOT_FLAGS: Tuple[str, ...] = ("PSCI_COMPLIANT", "PSCI_USE_HVC")


def space_name(number: int) -> str:
    """The name of an address space."""
    if number >= 0xC0:
        return f"maker's ({number:#04x})"
    return SPACES.get(number, f"unknown ({number:#04x})")


def profile_name(number: int) -> str:
    """The name of a power profile."""
    if number < len(POWER_PROFILES):
        return POWER_PROFILES[number]
    return f"reserved ({number})"


def kind_name(number: int) -> str:
    """The name of a kind of MADT entry; those from 17 up are skipped by the model."""
    return KINDS.get(number, "another kind, skipped")


def flag_names(value: int, names: Tuple[str, ...]) -> List[str]:
    """The names of the bits that are set; a bit without a name by its number."""
    return [
        names[bit] if bit < len(names) else f"bit{bit}"
        for bit in range(value.bit_length())
        if value >> bit & 1
    ]
