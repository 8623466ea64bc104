//! Generic addresses: registers in one of several spaces.

/// The space that a register stands in.
#[derive(PartialEq, Eq, Clone, Copy, Debug)]
#[allow(missing_docs)]
pub enum AddressSpace {
    SystemMemory,
    SystemIo,
    PciConfigSpace,
    EmbeddedController,
    SMBus,
    SystemCmos,
    PciBarTarget,
    Ipmi,
    GeneralIo,
    GenericSerialBus,
    PlatformCommunicationsChannel,
    FunctionalFixedHardware,
    OemDefined(u8),
}

/// How many bytes one access reads or writes.
#[derive(PartialEq, Eq, Clone, Copy, Debug)]
#[allow(missing_docs)]
pub enum AccessSize {
    Undefined,
    ByteAccess,
    WordAccess,
    DWordAccess,
    QWordAccess,
}

/// A register, or a block of them.
#[derive(PartialEq, Eq, Clone, Copy, Debug)]
pub struct GenericAddress {
    /// The space.
    pub address_space: AddressSpace,
    /// The width in bits. It is 8 times a length byte for a block in its narrow form, so it can be
    /// above 255, which the crate `acpi` has no room for.
    pub bit_width: u16,
    /// The first bit.
    pub bit_offset: u8,
    /// The size of an access.
    pub access_size: AccessSize,
    /// The address in its space.
    pub address: u64,
}

impl GenericAddress {
    /// From the five words of the archive, which refuses any other space or access size.
    pub(crate) fn from_words(words: &[u64; 5]) -> GenericAddress {
        GenericAddress {
            address_space: match words[0] {
                0x00 => AddressSpace::SystemMemory,
                0x01 => AddressSpace::SystemIo,
                0x02 => AddressSpace::PciConfigSpace,
                0x03 => AddressSpace::EmbeddedController,
                0x04 => AddressSpace::SMBus,
                0x05 => AddressSpace::SystemCmos,
                0x06 => AddressSpace::PciBarTarget,
                0x07 => AddressSpace::Ipmi,
                0x08 => AddressSpace::GeneralIo,
                0x09 => AddressSpace::GenericSerialBus,
                0x0a => AddressSpace::PlatformCommunicationsChannel,
                0x7f => AddressSpace::FunctionalFixedHardware,
                other => AddressSpace::OemDefined(other as u8),
            },
            bit_width: words[1] as u16,
            bit_offset: words[2] as u8,
            access_size: match words[3] {
                1 => AccessSize::ByteAccess,
                2 => AccessSize::WordAccess,
                3 => AccessSize::DWordAccess,
                4 => AccessSize::QWordAccess,
                _ => AccessSize::Undefined,
            },
            address: words[4],
        }
    }
}
