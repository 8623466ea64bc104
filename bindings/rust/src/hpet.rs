//! The event timer.

use crate::{error::found, memory::ask_table, sdt::Signature, AcpiResult, AcpiTable, AcpiTables, Table};

/// What stands around the timer's registers.
#[derive(Clone, Copy, Debug, PartialEq, Eq)]
pub enum PageProtection {
    /// Nothing is said.
    None,
    /// The rest of the 4 KB can be accessed without a fault.
    Protected4K,
    /// The rest of the 64 KB can be accessed without a fault.
    Protected64K,
    /// Another value.
    Other,
}

/// The event timer, as its table describes it.
#[derive(Clone, Copy, Debug)]
pub struct HpetInfo {
    /// The first word of the table, of which the methods below give the parts.
    pub event_timer_block_id: u32,
    /// The physical address of the registers.
    pub base_address: usize,
    /// The number of this timer.
    pub hpet_number: u8,
    /// The least number of ticks that can be set in periodic mode without losing an interrupt.
    pub clock_tick_unit: u16,
    /// What stands around the registers.
    pub page_protection: PageProtection,
    hardware_rev: u8,
    num_comparators: u8,
    main_counter_is_64bits: bool,
    legacy_irq_capable: bool,
    pci_vendor_id: u16,
}

impl HpetInfo {
    /// The first valid HPET table. [`InvalidGenericAddress`](crate::AcpiError::InvalidGenericAddress)
    /// if the registers do not stand in memory.
    pub fn new(tables: &AcpiTables<'_>) -> AcpiResult<HpetInfo> {
        tables.find_table::<HpetTable>()?.info()
    }

    /// The revision of the hardware.
    pub fn hardware_rev(&self) -> u8 {
        self.hardware_rev
    }

    /// How many comparators there are.
    pub fn num_comparators(&self) -> u8 {
        self.num_comparators
    }

    /// Whether the main counter has 64 bits.
    pub fn main_counter_is_64bits(&self) -> bool {
        self.main_counter_is_64bits
    }

    /// Whether the legacy interrupts can be routed to this timer.
    pub fn legacy_irq_capable(&self) -> bool {
        self.legacy_irq_capable
    }

    /// The PCI vendor.
    pub fn pci_vendor_id(&self) -> u16 {
        self.pci_vendor_id
    }
}

/// A valid HPET table.
#[derive(Clone, Copy, Debug)]
pub struct HpetTable<'m> {
    table: Table<'m>,
}

impl<'m> HpetTable<'m> {
    /// The table as it was found.
    pub fn table(&self) -> &Table<'m> {
        &self.table
    }

    /// What it describes.
    pub fn info(&self) -> AcpiResult<HpetInfo> {
        let mut out = [0; 10];
        found(
            ask_table!(self.table.bytes(), tablewalk_table_hpet; &mut out),
            Signature::HPET,
        )?;
        Ok(HpetInfo {
            event_timer_block_id: out[0] as u32,
            hardware_rev: out[1] as u8,
            num_comparators: out[2] as u8,
            main_counter_is_64bits: out[3] != 0,
            legacy_irq_capable: out[4] != 0,
            pci_vendor_id: out[5] as u16,
            base_address: out[6] as usize,
            hpet_number: out[7] as u8,
            clock_tick_unit: out[8] as u16,
            page_protection: match out[9] {
                0 => PageProtection::None,
                1 => PageProtection::Protected4K,
                2 => PageProtection::Protected64K,
                _ => PageProtection::Other,
            },
        })
    }
}

impl<'m> AcpiTable<'m> for HpetTable<'m> {
    const SIGNATURE: Signature = Signature::HPET;
    const LEAST: u32 = 56;

    fn from_table(table: Table<'m>) -> AcpiResult<HpetTable<'m>> {
        Ok(HpetTable { table })
    }
}
