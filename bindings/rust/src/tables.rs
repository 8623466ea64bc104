use crate::{
    error::found,
    fadt::Fadt,
    memory::{ask, Memory},
    rsdp::Rsdp,
    sdt::{SdtHeader, Signature},
    AcpiError, AcpiResult, PlatformInfo,
};

/// A table that was found and is valid: its signature and ids are right and its bytes sum to 0.
#[derive(Clone, Copy, Debug)]
pub struct Table<'m> {
    physical_start: usize,
    bytes: &'m [u8],
    header: SdtHeader,
}

impl<'m> Table<'m> {
    /// The table of the three words that the archive answered: physical address, offset, length.
    fn from_words(memory: &Memory<'m>, words: &[u64; 3]) -> AcpiResult<Table<'m>> {
        let [address, offset, length] = words.map(|word| word as usize);
        let bytes = offset
            .checked_add(length)
            .and_then(|end| memory.image().get(offset..end));
        // What is found lies in the image and holds a header, so neither is ever missing.
        let bytes = bytes.ok_or(AcpiError::NotFound)?;
        let header = SdtHeader::from_bytes(bytes).ok_or(AcpiError::NotFound)?;
        Ok(Table {
            physical_start: address,
            bytes,
            header,
        })
    }

    /// The physical address of its first byte.
    pub fn physical_start(&self) -> usize {
        self.physical_start
    }

    /// Its length in bytes, header included.
    pub fn region_length(&self) -> usize {
        self.bytes.len()
    }

    /// Its bytes, header included.
    pub fn bytes(&self) -> &'m [u8] {
        self.bytes
    }

    /// Its header.
    pub fn header(&self) -> &SdtHeader {
        &self.header
    }

    /// Its AML, if it is a DSDT or an SSDT: what stands after the header.
    fn aml(&self) -> AmlTable {
        AmlTable {
            address: self.physical_start.wrapping_add(SdtHeader::LENGTH),
            length: (self.bytes.len() - SdtHeader::LENGTH) as u32,
        }
    }
}

/// A kind of table, for [`AcpiTables::find_table`]. To implement it for a kind of one's own is safe:
/// the implementation is handed nothing but the table's bytes.
pub trait AcpiTable<'m>: Sized {
    /// The signature to look for.
    const SIGNATURE: Signature;

    /// The least length in bytes, header included. A shorter table is passed over.
    const LEAST: u32;

    /// Reads a table that was found.
    fn from_table(table: Table<'m>) -> AcpiResult<Self>;
}

/// The tables that the root table leads to.
#[derive(Clone, Copy, Debug)]
pub struct AcpiTables<'m> {
    memory: Memory<'m>,
    rsdp: u64,
    revision: u8,
    entries: u64,
}

impl<'m> AcpiTables<'m> {
    /// The tables, by the physical address of the root pointer.
    pub fn from_rsdp(memory: Memory<'m>, address: usize) -> AcpiResult<AcpiTables<'m>> {
        let rsdp = Rsdp::at(memory, address as u64)?;
        let mut out = [0; 6];
        let signature = if rsdp.revision() == 0 {
            Signature::RSDT
        } else {
            Signature::XSDT
        };
        found(ask!(&memory, tablewalk_root, rsdp.address(); &mut out), signature)?;
        Ok(AcpiTables {
            memory,
            rsdp: rsdp.address(),
            revision: rsdp.revision(),
            entries: out[5],
        })
    }

    /// The tables, after a search for the root pointer as on a machine with a classical BIOS.
    pub fn search_for_rsdp_bios(memory: Memory<'m>) -> AcpiResult<AcpiTables<'m>> {
        let rsdp = Rsdp::search_for_on_bios(memory)?;
        AcpiTables::from_rsdp(memory, rsdp.address() as usize)
    }

    /// The revision of the root pointer: 0 for ACPI 1.0.
    pub const fn revision(&self) -> u8 {
        self.revision
    }

    /// The memory that was lent.
    pub fn memory(&self) -> Memory<'m> {
        self.memory
    }

    /// The physical address of the root pointer.
    pub const fn rsdp_address(&self) -> usize {
        self.rsdp as usize
    }

    /// The first valid table of a kind.
    pub fn find_table<T: AcpiTable<'m>>(&self) -> AcpiResult<T> {
        T::from_table(self.find(T::SIGNATURE, T::LEAST, 0)?)
    }

    /// The n-th valid table of a signature, counted from 0, with at least `least` bytes.
    pub fn find(&self, signature: Signature, least: u32, n: u64) -> AcpiResult<Table<'m>> {
        let mut out = [0; 3];
        let number = ask!(&self.memory, tablewalk_find, self.rsdp, signature.number(), least, n; &mut out);
        found(number, signature)?;
        Table::from_words(&self.memory, &out)
    }

    /// All valid tables, in the order of the root table.
    pub fn tables(&self) -> TableIterator<'m> {
        TableIterator {
            tables: *self,
            next: 0,
            wanted: None,
        }
    }

    /// The headers of all valid tables, in the order of the root table.
    pub fn headers(&self) -> SdtHeaderIterator<'m> {
        SdtHeaderIterator {
            tables: self.tables(),
        }
    }

    /// The AML of the DSDT, which the FADT points to.
    pub fn dsdt(&self) -> AcpiResult<AmlTable> {
        let mut out = [0; 2];
        match ask!(&self.memory, tablewalk_dsdt, self.rsdp; &mut out) {
            0 => Ok(AmlTable {
                address: out[0] as usize,
                length: out[1] as u32,
            }),
            number => {
                // The number does not say which of the two tables was refused: the FADT, if it has no
                // answer by itself, else the DSDT.
                self.find_table::<Fadt>()?.dsdt_address()?;
                Err(AcpiError::from_number(number, Signature::DSDT))
            }
        }
    }

    /// The AML of all valid SSDTs, in the order of the root table.
    pub fn ssdts(&self) -> SsdtIterator<'m> {
        SsdtIterator {
            tables: TableIterator {
                tables: *self,
                next: 0,
                wanted: Some(Signature::SSDT),
            },
        }
    }

    /// The platform's processors, interrupt controllers and timer; see [`PlatformInfo::new_in`].
    pub fn platform_info_in<'a>(&self, buffer: &'a mut [u32]) -> AcpiResult<PlatformInfo<'a>> {
        PlatformInfo::new_in(self, buffer)
    }

    /// The platform's processors, interrupt controllers and timer, with owned lists.
    #[cfg(feature = "alloc")]
    pub fn platform_info(&self) -> AcpiResult<PlatformInfo<'static>> {
        PlatformInfo::new(self)
    }

    /// The table at a physical address, of one signature or of any.
    fn table_at(&self, address: u64, wanted: Option<Signature>) -> AcpiResult<Table<'m>> {
        let mut out = [0; 3];
        let memory = &self.memory;
        let number = match wanted {
            Some(one) => {
                ask!(memory, tablewalk_table_at, address, one.number(), SdtHeader::LENGTH as u32; &mut out)
            }
            None => ask!(memory, tablewalk_any_table_at, address; &mut out),
        };
        found(number, wanted.unwrap_or(Signature::XSDT))?;
        Table::from_words(memory, &out)
    }
}

/// The AML of a DSDT or SSDT.
#[derive(Clone, Copy, Debug, PartialEq, Eq)]
pub struct AmlTable {
    /// The physical address of its first byte, after the table's header.
    pub address: usize,
    /// Its length in bytes, without the header.
    pub length: u32,
}

/// Valid tables, in the order of the root table. What is not valid is passed over.
#[derive(Clone, Debug)]
pub struct TableIterator<'m> {
    tables: AcpiTables<'m>,
    next: u64,
    wanted: Option<Signature>,
}

impl<'m> Iterator for TableIterator<'m> {
    type Item = Table<'m>;

    fn next(&mut self) -> Option<Table<'m>> {
        while self.next < self.tables.entries {
            let mut out = [0; 1];
            let number = ask!(&self.tables.memory, tablewalk_entry, self.tables.rsdp, self.next; &mut out);
            self.next += 1;
            if number == 0 {
                if let Ok(table) = self.tables.table_at(out[0], self.wanted) {
                    return Some(table);
                }
            }
        }
        None
    }
}

/// The headers of valid tables.
#[derive(Clone, Debug)]
pub struct SdtHeaderIterator<'m> {
    tables: TableIterator<'m>,
}

impl Iterator for SdtHeaderIterator<'_> {
    type Item = SdtHeader;

    fn next(&mut self) -> Option<SdtHeader> {
        self.tables.next().map(|table| *table.header())
    }
}

/// The AML of valid SSDTs.
#[derive(Clone, Debug)]
pub struct SsdtIterator<'m> {
    tables: TableIterator<'m>,
}

impl Iterator for SsdtIterator<'_> {
    type Item = AmlTable;

    fn next(&mut self) -> Option<AmlTable> {
        self.tables.next().map(|table| table.aml())
    }
}
