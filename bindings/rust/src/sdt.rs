//! The header of tables, and signatures.

use core::{fmt, str};

/// The 36 bytes that every table begins with.
#[derive(Clone, Copy, Debug, PartialEq, Eq)]
#[allow(missing_docs)]
pub struct SdtHeader {
    pub signature: Signature,
    /// Of the whole table, header included.
    pub length: u32,
    pub revision: u8,
    pub checksum: u8,
    pub oem_id: [u8; 6],
    pub oem_table_id: [u8; 8],
    pub oem_revision: u32,
    pub creator_id: u32,
    pub creator_revision: u32,
}

impl SdtHeader {
    /// The length of a header in bytes.
    pub const LENGTH: usize = 36;

    /// The fields of a header; `None` for fewer than 36 bytes.
    pub fn from_bytes(table: &[u8]) -> Option<SdtHeader> {
        let header: &[u8; SdtHeader::LENGTH] = table.get(..SdtHeader::LENGTH)?.try_into().ok()?;
        let word =
            |at: usize| u32::from_le_bytes([header[at], header[at + 1], header[at + 2], header[at + 3]]);
        let mut oem_id = [0; 6];
        oem_id.copy_from_slice(&header[10..16]);
        let mut oem_table_id = [0; 8];
        oem_table_id.copy_from_slice(&header[16..24]);
        Some(SdtHeader {
            signature: Signature::from_number(word(0)),
            length: word(4),
            revision: header[8],
            checksum: header[9],
            oem_id,
            oem_table_id,
            oem_revision: word(24),
            creator_id: word(28),
            creator_revision: word(32),
        })
    }

    /// The maker's id. It is text in every table that was found; a header that was made by hand and
    /// is not answers with nothing.
    pub fn oem_id(&self) -> &str {
        str::from_utf8(&self.oem_id).unwrap_or("")
    }

    /// The table's id, in the same way.
    pub fn oem_table_id(&self) -> &str {
        str::from_utf8(&self.oem_table_id).unwrap_or("")
    }
}

/// Four characters that say what a table is.
#[derive(Clone, Copy, PartialEq, Eq, PartialOrd, Ord, Hash)]
#[repr(transparent)]
pub struct Signature([u8; 4]);

#[allow(missing_docs)]
impl Signature {
    pub const RSDT: Signature = Signature(*b"RSDT");
    pub const XSDT: Signature = Signature(*b"XSDT");
    pub const FADT: Signature = Signature(*b"FACP");
    pub const HPET: Signature = Signature(*b"HPET");
    pub const MADT: Signature = Signature(*b"APIC");
    pub const MCFG: Signature = Signature(*b"MCFG");
    pub const SSDT: Signature = Signature(*b"SSDT");
    pub const BERT: Signature = Signature(*b"BERT");
    pub const BGRT: Signature = Signature(*b"BGRT");
    pub const DSDT: Signature = Signature(*b"DSDT");
    pub const DBG2: Signature = Signature(*b"DBG2");
    pub const DMAR: Signature = Signature(*b"DMAR");
    pub const ECDT: Signature = Signature(*b"ECDT");
    pub const EINJ: Signature = Signature(*b"EINJ");
    pub const ERST: Signature = Signature(*b"ERST");
    pub const FACS: Signature = Signature(*b"FACS");
    pub const FPDT: Signature = Signature(*b"FPDT");
    pub const GTDT: Signature = Signature(*b"GTDT");
    pub const HEST: Signature = Signature(*b"HEST");
    pub const IORT: Signature = Signature(*b"IORT");
    pub const IVRS: Signature = Signature(*b"IVRS");
    pub const NFIT: Signature = Signature(*b"NFIT");
    pub const PCCT: Signature = Signature(*b"PCCT");
    pub const SLIT: Signature = Signature(*b"SLIT");
    pub const SPCR: Signature = Signature(*b"SPCR");
    pub const SRAT: Signature = Signature(*b"SRAT");
    pub const TPM2: Signature = Signature(*b"TPM2");
    pub const WAET: Signature = Signature(*b"WAET");
}

impl Signature {
    /// A signature that has no name above.
    pub const fn new(characters: [u8; 4]) -> Signature {
        Signature(characters)
    }

    /// The four characters.
    pub const fn bytes(&self) -> [u8; 4] {
        self.0
    }

    /// The signature as the archive takes it: a number, the first character lowest.
    pub const fn number(&self) -> u32 {
        u32::from_le_bytes(self.0)
    }

    /// The signature of such a number.
    pub const fn from_number(number: u32) -> Signature {
        Signature(number.to_le_bytes())
    }

    /// The signature as text, or nothing where it is none.
    pub fn as_str(&self) -> &str {
        str::from_utf8(&self.0).unwrap_or("")
    }
}

impl fmt::Display for Signature {
    fn fmt(&self, formatter: &mut fmt::Formatter<'_>) -> fmt::Result {
        formatter.write_str(self.as_str())
    }
}

impl fmt::Debug for Signature {
    fn fmt(&self, formatter: &mut fmt::Formatter<'_>) -> fmt::Result {
        write!(formatter, "\"{}\"", self.as_str())
    }
}
