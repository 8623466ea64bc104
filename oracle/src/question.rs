//! The questions that all readers are asked, and the form of their answers.

/// A question about one table, which is found in the image or handed over as a slice.
#[derive(Clone, Copy, Debug, PartialEq)]
pub enum Ask {
    Hpet,
    McfgCount,
    McfgEntry(u64),
    PciAddress(u16, u8, u8, u8),
    FadtFixed,
    FadtRegister(u32),
    FadtNumber(u32),
    MadtFixed,
    MadtEntry(u64),
    Model,
    /// The five lists, into buffers of so many numbers.
    Lists([usize; 5]),
    Mailbox,
}

/// The addresses are physical. The first one of most questions is the root pointer's.
#[derive(Clone, Copy, Debug, PartialEq)]
pub enum Question {
    Ranges,
    Pointer(u64),
    Search,
    TableAt {
        address: u64,
        signature: u32,
        least: u32,
    },
    AnyTableAt(u64),
    Root(u64),
    Entry(u64, u64),
    Find {
        pointer: u64,
        signature: u32,
        least: u32,
        n: u64,
    },
    Header(u64, u64),
    Dsdt(u64),
    Ssdt(u64, u64),
    Of(u64, Ask),
    /// Offset and length of a slice of the image that is meant to be the table.
    Table(usize, usize, Ask),
    /// All entries of the MADT of kinds below 17, which is what the crate lists: kind,
    /// offset in the table and length of each.
    Entries(u64),
    /// What the crate calls platform information: the power profile; the eight numbers of the
    /// interrupt model, all zero without a MADT; whether there is a timer, the five numbers of
    /// its register, and whether it has 32 bits, all zero where there is none.
    Platform(u64),
}

/// The values, or the number that refuses.
pub type Answer = Result<Vec<u64>, u32>;

/// What became of a question to the crate.
#[derive(Clone, Debug, PartialEq)]
pub enum Outcome {
    Answer(Answer),
    /// It asked for memory that no range holds.
    Unmapped,
    Panic,
    /// It did not end.
    Hang,
    /// It read memory that the process does not have.
    Crash,
    NoCounterpart,
}

pub const fn signature(text: &[u8; 4]) -> u32 {
    u32::from_le_bytes(*text)
}

pub const FADT: u32 = signature(b"FACP");
pub const MADT: u32 = signature(b"APIC");
pub const MCFG: u32 = signature(b"MCFG");
pub const HPET: u32 = signature(b"HPET");
pub const SSDT: u32 = signature(b"SSDT");
pub const DSDT: u32 = signature(b"DSDT");

/// The signature of the table that a question is about, and its fixed part.
pub fn table_of(ask: &Ask) -> (u32, u32) {
    match ask {
        Ask::Hpet => (HPET, 56),
        Ask::McfgCount | Ask::McfgEntry(_) | Ask::PciAddress(..) => (MCFG, 44),
        Ask::FadtFixed | Ask::FadtRegister(_) | Ask::FadtNumber(_) => (FADT, 116),
        Ask::MadtFixed | Ask::MadtEntry(_) | Ask::Model | Ask::Lists(_) | Ask::Mailbox => (MADT, 44),
    }
}

/// How many numbers the answer to a question has, where that is fixed.
#[cfg(library)]
pub fn values_of(ask: &Ask) -> usize {
    match ask {
        Ask::Hpet => 10,
        Ask::McfgCount | Ask::PciAddress(..) | Ask::FadtNumber(_) | Ask::Mailbox => 1,
        Ask::McfgEntry(_) => 4,
        Ask::FadtFixed => 19,
        Ask::FadtRegister(_) => 5,
        Ask::MadtFixed | Ask::MadtEntry(_) => 3,
        Ask::Model => 8,
        Ask::Lists(_) => 0,
    }
}
