//! The root pointer.

use crate::{error::found, memory::ask, sdt::Signature, AcpiResult, Memory};

/// A root pointer that was tested.
#[derive(Clone, Copy, Debug, PartialEq, Eq)]
pub struct Rsdp {
    address: u64,
    revision: u8,
    length: u32,
    rsdt_address: u32,
    xsdt_address: u64,
}

impl Rsdp {
    /// The root pointer at a physical address.
    pub fn at(memory: Memory<'_>, address: u64) -> AcpiResult<Rsdp> {
        let mut out = [0; 4];
        found(ask!(&memory, tablewalk_rsdp, address; &mut out), Signature::XSDT)?;
        Ok(Rsdp {
            address,
            revision: out[0] as u8,
            length: out[1] as u32,
            rsdt_address: out[2] as u32,
            xsdt_address: out[3],
        })
    }

    /// Searches the areas of a classical BIOS: e0000 to fffff, then the extended BIOS data area.
    /// What is not mapped is passed over, so this touches nothing that was not lent.
    pub fn search_for_on_bios(memory: Memory<'_>) -> AcpiResult<Rsdp> {
        let mut out = [0; 1];
        found(ask!(&memory, tablewalk_search; &mut out), Signature::XSDT)?;
        Rsdp::at(memory, out[0])
    }

    /// Its physical address.
    pub fn address(&self) -> u64 {
        self.address
    }

    /// 0 leads to the RSDT, any other to the XSDT.
    pub fn revision(&self) -> u8 {
        self.revision
    }

    /// Its length: 20 for revision 0, else what it states.
    pub fn length(&self) -> u32 {
        self.length
    }

    /// The physical address of the RSDT.
    pub fn rsdt_address(&self) -> u32 {
        self.rsdt_address
    }

    /// The physical address of the XSDT, 0 for revision 0.
    pub fn xsdt_address(&self) -> u64 {
        self.xsdt_address
    }
}
