use crate::sdt::Signature;

/// What every question returns.
pub type AcpiResult<T> = Result<T, AcpiError>;

/// Why there is no answer. The number of each is that of docs/TABLES.md, section 2; it is what the
/// archive returned, and [`AcpiError::number`] gives it back.
#[derive(Clone, Copy, Debug, PartialEq, Eq)]
#[non_exhaustive]
pub enum AcpiError {
    /// 18: no root pointer in the searched areas.
    NoValidRsdp,
    /// 3: the root pointer has another signature.
    RsdpIncorrectSignature,
    /// 4: the maker's id of the root pointer is not UTF-8.
    RsdpInvalidOemId,
    /// 5: the root pointer does not sum to 0, or its stated length is not from 20 to 36.
    RsdpInvalidChecksum,

    /// 7: the table has another signature.
    SdtInvalidSignature(Signature),
    /// 8: the table's maker's id is not UTF-8.
    SdtInvalidOemId(Signature),
    /// 9: the table's id is not UTF-8.
    SdtInvalidTableId(Signature),
    /// 10: the table does not sum to 0.
    SdtInvalidChecksum(Signature),

    /// 12: there is no valid table of this signature.
    TableMissing(Signature),
    /// 13: the FADT's address of the FACS is zero.
    InvalidFacsAddress,
    /// 13: the FADT's address of the DSDT is zero.
    InvalidDsdtAddress,
    /// 15 or 16: the MADT has an entry that can not be right.
    InvalidMadt(MadtError),
    /// 14: a generic address of an unknown space or access size.
    InvalidGenericAddress,

    /// 1: the list of ranges is wrong.
    WrongRanges,
    /// 2: the root pointer is not mapped.
    RsdpNotMapped,
    /// 6: the root table is not mapped, over its whole stated length.
    RootTableNotMapped,
    /// 11: the table's length is below what it needs.
    TableTooShort(Signature),
    /// 13: there is no such entry, address or field.
    NotFound,
    /// 17: a lent buffer is too short.
    BufferTooShort,
    /// 17: memory for an owned list could not be had.
    #[cfg(feature = "alloc")]
    AllocError,
    /// Any other number. The archive has none, so this says that another archive was linked.
    Unknown(u32),
}

/// What is wrong with an entry of the MADT.
#[derive(Clone, Copy, Debug, PartialEq, Eq)]
#[non_exhaustive]
pub enum MadtError {
    /// 15: an entry of a wrong length or of another interrupt model, or no processor at all. Of the
    /// mailbox: there is no such entry.
    UnexpectedEntry,
    /// 16: a wrong bus, line, polarity or trigger. The crate `acpi` has a name for each of these; the
    /// number does not tell them apart.
    InvalidValue,
}

impl AcpiError {
    /// The number of the answer.
    pub fn number(&self) -> u32 {
        match *self {
            AcpiError::WrongRanges => 1,
            AcpiError::RsdpNotMapped => 2,
            AcpiError::RsdpIncorrectSignature => 3,
            AcpiError::RsdpInvalidOemId => 4,
            AcpiError::RsdpInvalidChecksum => 5,
            AcpiError::RootTableNotMapped => 6,
            AcpiError::SdtInvalidSignature(_) => 7,
            AcpiError::SdtInvalidOemId(_) => 8,
            AcpiError::SdtInvalidTableId(_) => 9,
            AcpiError::SdtInvalidChecksum(_) => 10,
            AcpiError::TableTooShort(_) => 11,
            AcpiError::TableMissing(_) => 12,
            AcpiError::InvalidFacsAddress | AcpiError::InvalidDsdtAddress | AcpiError::NotFound => 13,
            AcpiError::InvalidGenericAddress => 14,
            AcpiError::InvalidMadt(MadtError::UnexpectedEntry) => 15,
            AcpiError::InvalidMadt(MadtError::InvalidValue) => 16,
            AcpiError::BufferTooShort => 17,
            #[cfg(feature = "alloc")]
            AcpiError::AllocError => 17,
            AcpiError::NoValidRsdp => 18,
            AcpiError::Unknown(number) => number,
        }
    }

    /// The error of a number. The signature is that of the table that was asked for.
    pub(crate) fn from_number(number: u32, signature: Signature) -> AcpiError {
        match number {
            1 => AcpiError::WrongRanges,
            2 => AcpiError::RsdpNotMapped,
            3 => AcpiError::RsdpIncorrectSignature,
            4 => AcpiError::RsdpInvalidOemId,
            5 => AcpiError::RsdpInvalidChecksum,
            6 => AcpiError::RootTableNotMapped,
            7 => AcpiError::SdtInvalidSignature(signature),
            8 => AcpiError::SdtInvalidOemId(signature),
            9 => AcpiError::SdtInvalidTableId(signature),
            10 => AcpiError::SdtInvalidChecksum(signature),
            11 => AcpiError::TableTooShort(signature),
            12 => AcpiError::TableMissing(signature),
            13 => AcpiError::NotFound,
            14 => AcpiError::InvalidGenericAddress,
            15 => AcpiError::InvalidMadt(MadtError::UnexpectedEntry),
            16 => AcpiError::InvalidMadt(MadtError::InvalidValue),
            17 => AcpiError::BufferTooShort,
            18 => AcpiError::NoValidRsdp,
            other => AcpiError::Unknown(other),
        }
    }
}

impl core::fmt::Display for AcpiError {
    fn fmt(&self, formatter: &mut core::fmt::Formatter<'_>) -> core::fmt::Result {
        write!(formatter, "{:?} (answer {})", self, self.number())
    }
}

impl core::error::Error for AcpiError {}

/// An answer's number as a result: nothing for 0.
pub(crate) fn found(number: u32, signature: Signature) -> AcpiResult<()> {
    match number {
        0 => Ok(()),
        other => Err(AcpiError::from_number(other, signature)),
    }
}
