//! Windows onto the configuration space of PCI functions.

use crate::{error::found, memory::ask_table, sdt::Signature, AcpiResult, AcpiTable, AcpiTables, Table};
use core::ops::RangeInclusive;

/// The regions of physical memory by which the configuration space is accessed. Nothing is copied: the
/// MCFG is asked at each call.
#[derive(Clone, Copy, Debug)]
pub struct PciConfigRegions<'m> {
    mcfg: Mcfg<'m>,
}

impl<'m> PciConfigRegions<'m> {
    /// The regions of the first valid MCFG.
    pub fn new(tables: &AcpiTables<'m>) -> AcpiResult<PciConfigRegions<'m>> {
        Ok(PciConfigRegions {
            mcfg: tables.find_table::<Mcfg>()?,
        })
    }

    /// The physical address of the configuration space of a function, or `None` if no window holds it,
    /// the device is above 31, the function is above 7 or the address would not fit into 64 bits.
    pub fn physical_address(&self, segment_group_no: u16, bus: u8, device: u8, function: u8) -> Option<u64> {
        let mut out = [0; 1];
        let bytes = self.mcfg.table.bytes();
        let number =
            ask_table!(bytes, tablewalk_table_pci_address, segment_group_no, bus, device, function; &mut out);
        (number == 0).then_some(out[0])
    }

    /// The windows, one after the other.
    pub fn iter(&self) -> PciConfigEntryIterator<'m> {
        PciConfigEntryIterator {
            entries: self.mcfg.entries(),
        }
    }
}

/// A window: some buses of a segment group.
#[derive(Clone, Debug, PartialEq, Eq)]
pub struct PciConfigEntry {
    /// The segment group.
    pub segment_group: u16,
    /// Its buses.
    pub bus_range: RangeInclusive<u8>,
    /// The physical address of the first bus's configuration space.
    pub physical_address: usize,
}

/// The windows of a [`PciConfigRegions`].
#[derive(Clone, Debug)]
pub struct PciConfigEntryIterator<'m> {
    entries: McfgEntryIterator<'m>,
}

impl Iterator for PciConfigEntryIterator<'_> {
    type Item = PciConfigEntry;

    fn next(&mut self) -> Option<PciConfigEntry> {
        let entry = self.entries.next()?;
        Some(PciConfigEntry {
            segment_group: entry.pci_segment_group,
            bus_range: entry.bus_number_start..=entry.bus_number_end,
            physical_address: entry.base_address as usize,
        })
    }
}

/// A valid MCFG.
#[derive(Clone, Copy, Debug)]
pub struct Mcfg<'m> {
    table: Table<'m>,
}

impl<'m> Mcfg<'m> {
    /// The table as it was found.
    pub fn table(&self) -> &Table<'m> {
        &self.table
    }

    /// Its entries, one after the other.
    pub fn entries(&self) -> McfgEntryIterator<'m> {
        let mut out = [0; 1];
        let number = ask_table!(self.table.bytes(), tablewalk_table_mcfg_count; &mut out);
        McfgEntryIterator {
            table: self.table,
            next: 0,
            end: if number == 0 { out[0] as usize } else { 0 },
        }
    }
}

impl<'m> AcpiTable<'m> for Mcfg<'m> {
    const SIGNATURE: Signature = Signature::MCFG;
    const LEAST: u32 = 44;

    fn from_table(table: Table<'m>) -> AcpiResult<Mcfg<'m>> {
        Ok(Mcfg { table })
    }
}

/// An entry of the MCFG.
#[derive(Clone, Copy, Debug, PartialEq, Eq)]
#[allow(missing_docs)]
pub struct McfgEntry {
    pub base_address: u64,
    pub pci_segment_group: u16,
    pub bus_number_start: u8,
    pub bus_number_end: u8,
}

/// The entries of an MCFG.
#[derive(Clone, Debug)]
pub struct McfgEntryIterator<'m> {
    table: Table<'m>,
    next: usize,
    end: usize,
}

impl Iterator for McfgEntryIterator<'_> {
    type Item = McfgEntry;

    fn next(&mut self) -> Option<McfgEntry> {
        if self.next >= self.end {
            return None;
        }
        let mut out = [0; 4];
        let number = ask_table!(self.table.bytes(), tablewalk_table_mcfg_entry, self.next; &mut out);
        self.next += 1;
        found(number, Signature::MCFG).ok()?;
        Some(McfgEntry {
            base_address: out[0],
            pci_segment_group: out[1] as u16,
            bus_number_start: out[2] as u8,
            bus_number_end: out[3] as u8,
        })
    }
}
