//! The interrupt model.

use crate::list::{sealed::Sealed, List, Record};

/// An I/O interrupt controller.
#[derive(Debug, Clone, Copy, PartialEq, Eq)]
pub struct IoApic {
    /// Its id.
    pub id: u8,
    /// The physical address of its registers.
    pub address: u32,
    /// The interrupt at which its inputs begin.
    pub global_system_interrupt_base: u32,
}

/// A line of local interrupt controllers that is wired to the NMI.
#[derive(Debug, Clone, Copy, PartialEq, Eq)]
pub struct NmiLine {
    /// Whose local controller.
    pub processor: NmiProcessor,
    /// Which line.
    pub line: LocalInterruptLine,
}

/// A line of a local interrupt controller.
#[derive(Debug, Clone, Copy, PartialEq, Eq)]
#[allow(missing_docs)]
pub enum LocalInterruptLine {
    Lint0,
    Lint1,
}

/// Whose local interrupt controller.
#[derive(Debug, Clone, Copy, PartialEq, Eq)]
#[allow(missing_docs)]
pub enum NmiProcessor {
    All,
    ProcessorUid(u32),
}

/// Which level of the line is the active one.
#[derive(Debug, Clone, Copy, PartialEq, Eq)]
#[allow(missing_docs)]
pub enum Polarity {
    SameAsBus,
    ActiveHigh,
    ActiveLow,
}

/// Whether an interrupt comes by an edge or by a level.
#[derive(Debug, Clone, Copy, PartialEq, Eq)]
#[allow(missing_docs)]
pub enum TriggerMode {
    SameAsBus,
    Edge,
    Level,
}

/// An ISA interrupt that arrives at another input than its own number.
#[derive(Debug, Clone, Copy, PartialEq, Eq)]
#[allow(missing_docs)]
pub struct InterruptSourceOverride {
    pub isa_source: u8,
    pub global_system_interrupt: u32,
    pub polarity: Polarity,
    pub trigger_mode: TriggerMode,
}

/// An interrupt that is to be enabled as one that can not be masked.
#[derive(Debug, Clone, Copy, PartialEq, Eq)]
#[allow(missing_docs)]
pub struct NmiSource {
    pub global_system_interrupt: u32,
    pub polarity: Polarity,
    pub trigger_mode: TriggerMode,
}

/// A model of local and I/O interrupt controllers (APIC, xAPIC or x2APIC).
#[derive(Debug, Clone)]
pub struct Apic<'a> {
    /// The physical address of the local controllers.
    pub local_apic_address: u64,
    /// The I/O controllers.
    pub io_apics: List<'a, IoApic>,
    /// The lines that are wired to the NMI.
    pub local_apic_nmi_lines: List<'a, NmiLine>,
    /// The ISA interrupts that arrive elsewhere.
    pub interrupt_source_overrides: List<'a, InterruptSourceOverride>,
    /// The interrupts that can not be masked.
    pub nmi_sources: List<'a, NmiSource>,
    /// Whether there is also a pair of old controllers, whose lines are then to be remapped and masked.
    pub also_has_legacy_pics: bool,
}

/// How interrupts come to the processors.
#[derive(Debug, Clone)]
#[non_exhaustive]
pub enum InterruptModel<'a> {
    /// There is no valid MADT, or none of its entries tells the model.
    Unknown,
    /// Local and I/O interrupt controllers.
    Apic(Apic<'a>),
}

/// Bits 0 and 1 of the last word of an override or NMI source. The archive refuses the value 2.
fn polarity(word: u32) -> Polarity {
    match word & 3 {
        0 => Polarity::SameAsBus,
        1 => Polarity::ActiveHigh,
        _ => Polarity::ActiveLow,
    }
}

/// Bits 2 and 3 of the same word.
fn trigger_mode(word: u32) -> TriggerMode {
    match word >> 2 & 3 {
        0 => TriggerMode::SameAsBus,
        1 => TriggerMode::Edge,
        _ => TriggerMode::Level,
    }
}

impl Sealed for IoApic {}

impl Record for IoApic {
    const WORDS: usize = 3;

    fn from_words(words: &[u32]) -> IoApic {
        IoApic {
            id: words[0] as u8,
            address: words[1],
            global_system_interrupt_base: words[2],
        }
    }
}

impl Sealed for InterruptSourceOverride {}

impl Record for InterruptSourceOverride {
    const WORDS: usize = 3;

    fn from_words(words: &[u32]) -> InterruptSourceOverride {
        InterruptSourceOverride {
            isa_source: words[0] as u8,
            global_system_interrupt: words[1],
            polarity: polarity(words[2]),
            trigger_mode: trigger_mode(words[2]),
        }
    }
}

impl Sealed for NmiSource {}

impl Record for NmiSource {
    const WORDS: usize = 2;

    fn from_words(words: &[u32]) -> NmiSource {
        NmiSource {
            global_system_interrupt: words[0],
            polarity: polarity(words[1]),
            trigger_mode: trigger_mode(words[1]),
        }
    }
}

impl Sealed for NmiLine {}

impl Record for NmiLine {
    const WORDS: usize = 2;

    fn from_words(words: &[u32]) -> NmiLine {
        NmiLine {
            processor: match words[0] {
                u32::MAX => NmiProcessor::All,
                uid => NmiProcessor::ProcessorUid(uid),
            },
            line: match words[1] {
                0 => LocalInterruptLine::Lint0,
                _ => LocalInterruptLine::Lint1,
            },
        }
    }
}
