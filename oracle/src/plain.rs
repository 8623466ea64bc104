//! A plain reading of docs/TABLES.md: slow, obvious, and written apart from the proved
//! code and from its definitions. Every answer of the library must be this one.

use crate::question::*;

pub struct Memory<'a> {
    pub image: &'a [u8],
    /// Physical start, length and offset in the image of each range.
    pub ranges: &'a [u64],
}

pub fn number(bytes: &[u8], at: usize, size: usize) -> u64 {
    let mut value = 0;
    for place in 0..size {
        value += (bytes[at + place] as u64) << (8 * place);
    }
    value
}

pub fn sums_to_zero(bytes: &[u8]) -> bool {
    let mut sum = 0u64;
    for byte in bytes {
        sum += *byte as u64;
    }
    sum % 256 == 0
}

pub fn is_text(bytes: &[u8]) -> bool {
    std::str::from_utf8(bytes).is_ok()
}

/// Where a table was found.
#[derive(Clone, Copy, Debug, PartialEq)]
pub struct Place {
    pub address: u64,
    pub offset: usize,
    pub length: usize,
}

pub struct Pointer {
    pub revision: u8,
    pub length: u64,
    pub rsdt_address: u64,
    pub xsdt_address: u64,
}

pub struct Root {
    pub kind: u64,
    pub place: Place,
    pub entry_size: usize,
    pub entries: Vec<u64>,
}

impl<'a> Memory<'a> {
    // Section 1: memory.

    pub fn ranges_right(&self) -> bool {
        if self.ranges.len() % 3 != 0 || self.ranges.len() / 3 > 64 {
            return false;
        }
        let mut previous: Option<(u128, u128)> = None;
        for range in self.ranges.chunks(3) {
            let start = range[0] as u128;
            let length = range[1] as u128;
            let offset = range[2] as u128;
            if start + length > 1 << 64 {
                return false;
            }
            if offset + length > self.image.len() as u128 {
                return false;
            }
            if let Some((previous_start, previous_end)) = previous {
                if start <= previous_start || start < previous_end {
                    return false;
                }
            }
            previous = Some((start, start + length));
        }
        true
    }

    fn test_ranges(&self) -> Result<(), u32> {
        if self.ranges_right() {
            Ok(())
        } else {
            Err(1)
        }
    }

    /// Offset in the image of a physical address, and all bytes from there to the end of
    /// the range that holds it. No range: no bytes.
    pub fn view(&self, address: u64) -> (usize, &'a [u8]) {
        for range in self.ranges.chunks(3) {
            let (start, length, offset) = (range[0], range[1], range[2]);
            if address >= start && address - start < length {
                let from = (offset + (address - start)) as usize;
                return (from, &self.image[from..(offset + length) as usize]);
            }
        }
        (0, &[])
    }

    // Section 4: root pointer.

    pub fn pointer(&self, address: u64) -> Result<Pointer, u32> {
        let (_, seen) = self.view(address);
        if seen.len() < 20 {
            return Err(2);
        }
        let revision = seen[15];
        if revision != 0 && seen.len() < 36 {
            return Err(2);
        }
        if &seen[0..8] != b"RSD PTR " {
            return Err(3);
        }
        if !is_text(&seen[9..15]) {
            return Err(4);
        }
        let rsdt_address = number(seen, 16, 4);
        if revision == 0 {
            if !sums_to_zero(&seen[..20]) {
                return Err(5);
            }
            return Ok(Pointer {
                revision,
                length: 20,
                rsdt_address,
                xsdt_address: 0,
            });
        }
        let length = number(seen, 20, 4);
        if length < 20 || length > 36 || !sums_to_zero(&seen[..length as usize]) {
            return Err(5);
        }
        Ok(Pointer {
            revision,
            length,
            rsdt_address,
            xsdt_address: number(seen, 24, 8),
        })
    }

    /// The two areas, each by its first address and the address after its last.
    pub fn search_areas(&self) -> [(u64, u64); 2] {
        let (_, seen) = self.view(0x40e);
        let mut data_area = (0x80000, 0xa0000);
        if seen.len() >= 2 {
            let start = number(seen, 0, 2) * 16;
            if start >= 0x80000 && start < 0x9ffff {
                data_area = (start, start + 1024);
            }
        }
        [(0xe0000, 0x100000), data_area]
    }

    pub fn search(&self) -> Result<u64, u32> {
        for (first, after_last) in self.search_areas() {
            let mut address = first;
            while address + 20 <= after_last {
                if self.pointer(address).is_ok() {
                    return Ok(address);
                }
                address += 16;
            }
        }
        Err(18)
    }

    // Section 5: tables.

    pub fn root(&self, pointer: u64) -> Result<Root, u32> {
        let pointer = self.pointer(pointer)?;
        let (kind, address, signature, entry_size) = if pointer.revision == 0 {
            (0, pointer.rsdt_address, b"RSDT", 4)
        } else {
            (1, pointer.xsdt_address, b"XSDT", 8)
        };
        let (offset, seen) = self.view(address);
        if seen.len() < 36 {
            return Err(6);
        }
        let length = number(seen, 4, 4) as usize;
        if length > seen.len() {
            return Err(6);
        }
        if &seen[0..4] != signature {
            return Err(7);
        }
        if !is_text(&seen[10..16]) {
            return Err(8);
        }
        if !is_text(&seen[16..24]) {
            return Err(9);
        }
        if !sums_to_zero(&seen[..length]) {
            return Err(10);
        }
        if length < 36 {
            return Err(11);
        }
        let mut entries = Vec::new();
        let mut at = 36;
        while at + entry_size <= length {
            entries.push(number(seen, at, entry_size));
            at += entry_size;
        }
        Ok(Root {
            kind,
            place: Place {
                address,
                offset,
                length,
            },
            entry_size,
            entries,
        })
    }

    /// The table at an address. Without a signature any that is text will do.
    pub fn table_at(&self, address: u64, signature: Option<u32>, least: u32) -> Result<Place, u32> {
        let (offset, seen) = self.view(address);
        if seen.len() < 36 {
            return Err(12);
        }
        let right = match signature {
            Some(wanted) => number(seen, 0, 4) == wanted as u64,
            None => is_text(&seen[0..4]),
        };
        if !right {
            return Err(7);
        }
        if !is_text(&seen[10..16]) {
            return Err(8);
        }
        if !is_text(&seen[16..24]) {
            return Err(9);
        }
        let length = number(seen, 4, 4) as usize;
        if length <= seen.len() && !sums_to_zero(&seen[..length]) {
            return Err(10);
        }
        if length < 36 || length < least as usize {
            return Err(11);
        }
        if length > seen.len() {
            return Err(12);
        }
        Ok(Place {
            address,
            offset,
            length,
        })
    }

    pub fn find(&self, pointer: u64, signature: Option<u32>, least: u32, n: u64) -> Result<Place, u32> {
        let mut passed = 0;
        for entry in self.root(pointer)?.entries {
            if let Ok(place) = self.table_at(entry, signature, least) {
                if passed == n {
                    return Ok(place);
                }
                passed += 1;
            }
        }
        Err(12)
    }

    pub fn slice(&self, place: Place) -> &'a [u8] {
        &self.image[place.offset..place.offset + place.length]
    }

    pub fn ask(&self, question: &Question) -> Answer {
        // A slice that is a table has no ranges.
        if let Question::Table(at, length, ask) = question {
            return table(&self.image[*at..at + length], ask);
        }
        self.test_ranges()?;
        match *question {
            Question::Ranges => Ok(vec![]),
            Question::Pointer(address) => {
                let pointer = self.pointer(address)?;
                Ok(vec![
                    pointer.revision as u64,
                    pointer.length,
                    pointer.rsdt_address,
                    pointer.xsdt_address,
                ])
            }
            Question::Search => Ok(vec![self.search()?]),
            Question::TableAt {
                address,
                signature,
                least,
            } => Ok(place_values(self.table_at(address, Some(signature), least)?)),
            Question::AnyTableAt(address) => Ok(place_values(self.table_at(address, None, 36)?)),
            Question::Root(pointer) => {
                let root = self.root(pointer)?;
                let mut values = vec![root.kind];
                values.extend(place_values(root.place));
                values.push(root.entry_size as u64);
                values.push(root.entries.len() as u64);
                Ok(values)
            }
            Question::Entry(pointer, k) => {
                let root = self.root(pointer)?;
                if k >= root.entries.len() as u64 {
                    return Err(13);
                }
                Ok(vec![root.entries[k as usize]])
            }
            Question::Find {
                pointer,
                signature,
                least,
                n,
            } => Ok(place_values(self.find(pointer, Some(signature), least, n)?)),
            Question::Header(pointer, n) => Ok(place_values(self.find(pointer, None, 36, n)?)),
            Question::Dsdt(pointer) => {
                let fadt = self.find(pointer, Some(FADT), 116, 0)?;
                let address = fadt_address(self.slice(fadt), 40, 140)?;
                stream(self.table_at(address, Some(DSDT), 36)?)
            }
            Question::Ssdt(pointer, n) => stream(self.find(pointer, Some(SSDT), 36, n)?),
            Question::Of(pointer, ask) => {
                let (signature, least) = table_of(&ask);
                let place = self.find(pointer, Some(signature), least, 0)?;
                table(self.slice(place), &ask)
            }
            Question::Table(..) => unreachable!("answered above"),
            Question::Platform(pointer) => {
                let fadt = self.slice(self.find(pointer, Some(FADT), 116, 0)?);
                let model = match self.find(pointer, Some(MADT), 44, 0) {
                    Ok(madt) => table(self.slice(madt), &Ask::Model)?,
                    Err(_) => vec![0; 8],
                };
                let timer = match fadt_register(fadt, TIMER) {
                    Ok(register) => Some(register),
                    Err(13) => None,
                    Err(refusal) => return Err(refusal),
                };
                Ok(platform_values(fadt, model, timer))
            }
            Question::Entries(pointer) => {
                let place = self.find(pointer, Some(MADT), 44, 0)?;
                let (entries, consistent) = madt_entries(self.slice(place));
                if !consistent {
                    return Err(15);
                }
                let mut values = Vec::new();
                for entry in entries {
                    if entry.kind < 17 {
                        values.extend([entry.kind as u64, entry.at as u64, entry.length as u64]);
                    }
                }
                Ok(values)
            }
        }
    }
}

/// The platform information that a FADT, the numbers of a model and a timer make.
pub fn platform_values(fadt: &[u8], model: Vec<u64>, timer: Option<Vec<u64>>) -> Vec<u64> {
    let mut values = vec![fadt[45] as u64];
    values.extend(model);
    match timer {
        Some(register) => {
            values.push(1);
            values.extend(register);
            values.push(number(fadt, 112, 4) / 256 % 2);
        }
        None => values.extend([0; 7]),
    }
    values
}

fn place_values(place: Place) -> Vec<u64> {
    vec![place.address, place.offset as u64, place.length as u64]
}

/// Physical address and length of what follows the header. A header that ends where the
/// address space ends is followed by no address.
fn stream(place: Place) -> Answer {
    if place.address as u128 + 36 >= 1 << 64 {
        return Err(13);
    }
    Ok(vec![place.address + 36, place.length as u64 - 36])
}

// Section 7: questions about a slice that is meant to be one table.

pub fn table(table: &[u8], ask: &Ask) -> Answer {
    let (_, fixed_part) = table_of(ask);
    if table.len() < fixed_part as usize || number(table, 4, 4) != table.len() as u64 {
        return Err(11);
    }
    match *ask {
        Ask::Hpet => hpet(table),
        Ask::McfgCount => Ok(vec![windows(table).len() as u64]),
        Ask::McfgEntry(k) => {
            let windows = windows(table);
            if k >= windows.len() as u64 {
                return Err(13);
            }
            let window = &windows[k as usize];
            Ok(vec![window.base, window.segment, window.first, window.last])
        }
        Ask::PciAddress(segment, bus, device, function) => {
            pci_address(table, segment as u64, bus as u64, device as u64, function as u64)
        }
        Ask::FadtFixed => Ok(fadt_fixed(table)),
        Ask::FadtRegister(which) => fadt_register(table, which),
        Ask::FadtNumber(which) => fadt_number(table, which),
        Ask::MadtFixed => {
            let flags = number(table, 40, 4);
            Ok(vec![number(table, 36, 4), flags, flags % 2])
        }
        Ask::MadtEntry(k) => {
            let (entries, consistent) = madt_entries(table);
            if k < entries.len() as u64 {
                let entry = &entries[k as usize];
                return Ok(vec![entry.kind as u64, entry.at as u64, entry.length as u64]);
            }
            if k == entries.len() as u64 && !consistent {
                return Err(15);
            }
            Err(13)
        }
        Ask::Model => {
            // A model that is not known still tells the address and the flag of the fixed part.
            let known = model(table)?;
            let address = known
                .as_ref()
                .map_or(number(table, 36, 4), |model| model.local_apic_address);
            let mut values = vec![known.is_some() as u64, address, number(table, 40, 4) % 2];
            for list in &known.unwrap_or_default().lists {
                values.push(list.len() as u64);
            }
            Ok(values)
        }
        Ask::Lists(room) => {
            let lists = match model(table)? {
                Some(model) => model.lists,
                None => Default::default(),
            };
            let mut values = Vec::new();
            for (list, room) in lists.iter().zip(room) {
                let flat: Vec<u64> = list.concat();
                if flat.len() > room {
                    return Err(17);
                }
                values.push(flat.len() as u64);
                values.extend(flat);
            }
            Ok(values)
        }
        Ask::Mailbox => {
            let (entries, consistent) = madt_entries(table);
            if !consistent {
                return Err(15);
            }
            for entry in entries {
                if entry.kind == 16 {
                    return Ok(vec![number(table, entry.at + 8, 8)]);
                }
            }
            Err(15)
        }
    }
}

// Section 6: generic address.

pub fn generic_address(table: &[u8], at: usize) -> Answer {
    let (space, access_size) = (table[at], table[at + 3]);
    let space_known = space <= 0x0a || space == 0x7f || space >= 0xc0;
    if !space_known || access_size > 4 {
        return Err(14);
    }
    Ok(vec![
        space as u64,
        table[at + 1] as u64,
        table[at + 2] as u64,
        access_size as u64,
        number(table, at + 4, 8),
    ])
}

// Section 8: MCFG.

pub struct Window {
    pub base: u64,
    pub segment: u64,
    pub first: u64,
    pub last: u64,
}

pub fn windows(table: &[u8]) -> Vec<Window> {
    let mut windows = Vec::new();
    let mut at = 44;
    while at + 16 <= table.len() {
        windows.push(Window {
            base: number(table, at, 8),
            segment: number(table, at + 8, 2),
            first: table[at + 10] as u64,
            last: table[at + 11] as u64,
        });
        at += 16;
    }
    windows
}

fn pci_address(table: &[u8], segment: u64, bus: u64, device: u64, function: u64) -> Answer {
    if device > 31 || function > 7 {
        return Err(13);
    }
    for window in windows(table) {
        if window.segment == segment && window.first <= bus && bus <= window.last {
            let inside = ((bus - window.first) << 20) + (device << 15) + (function << 12);
            let address = window.base as u128 + inside as u128;
            if address >= 1 << 64 {
                return Err(13);
            }
            return Ok(vec![address as u64]);
        }
    }
    Err(13)
}

// Section 9: HPET.

pub fn hpet(table: &[u8]) -> Answer {
    if table[40] != 0 {
        return Err(14);
    }
    Ok(hpet_values(table))
}

pub fn hpet_values(table: &[u8]) -> Vec<u64> {
    let id = number(table, 36, 4);
    let protection = match table[55] % 16 {
        0 => 0,
        1 => 1,
        2 => 2,
        _ => 3,
    };
    vec![
        id,
        id % 256,
        id / 256 % 32 + 1,
        id / (1 << 13) % 2,
        id / (1 << 15) % 2,
        id / (1 << 16),
        number(table, 44, 8),
        table[52] as u64,
        number(table, 53, 2),
        protection,
    ]
}

// Section 10: FADT.

/// Offsets and sizes of the plain fields, in the order in which they are answered.
pub const FADT_FIXED: [(usize, usize); 19] = [
    (46, 2),
    (48, 4),
    (52, 1),
    (53, 1),
    (54, 1),
    (55, 1),
    (94, 1),
    (95, 1),
    (96, 2),
    (98, 2),
    (100, 2),
    (102, 2),
    (104, 1),
    (105, 1),
    (106, 1),
    (107, 1),
    (108, 1),
    (109, 2),
    (112, 4),
];

pub fn fadt_fixed(table: &[u8]) -> Vec<u64> {
    FADT_FIXED.iter().map(|(at, size)| number(table, *at, *size)).collect()
}

/// Narrow field, length byte and wide field of each register block.
pub const BLOCKS: [(usize, usize, usize); 8] = [
    (56, 88, 148),
    (60, 88, 160),
    (64, 89, 172),
    (68, 89, 184),
    (72, 90, 196),
    (76, 91, 208),
    (80, 92, 220),
    (84, 93, 232),
];
pub const PM1A_EVENT: u32 = 0;
pub const PM1A_CONTROL: u32 = 2;
pub const TIMER: u32 = 5;

fn fadt_register(table: &[u8], which: u32) -> Answer {
    let revision = table[8];
    match which {
        0..=7 => {
            let (narrow, length_byte, wide) = BLOCKS[which as usize];
            if which == TIMER && table[length_byte] != 4 {
                return Err(13);
            }
            if revision >= 2 {
                if table.len() < wide + 12 {
                    return Err(11);
                }
                if number(table, wide + 4, 8) != 0 {
                    return generic_address(table, wide);
                }
            }
            let address = number(table, narrow, 4);
            if address == 0 && which != PM1A_EVENT && which != PM1A_CONTROL {
                return Err(13);
            }
            Ok(vec![1, 8 * table[length_byte] as u64, 0, 0, address])
        }
        8 => {
            if table.len() < 128 {
                return Err(11);
            }
            generic_address(table, 116)
        }
        9 | 10 => {
            let at = if which == 9 { 244 } else { 256 };
            if revision < 2 {
                return Err(13);
            }
            if table.len() < at + 12 {
                return Err(11);
            }
            generic_address(table, at)
        }
        _ => Err(13),
    }
}

fn fadt_address(table: &[u8], narrow: usize, wide: usize) -> Result<u64, u32> {
    if table[8] >= 2 {
        if table.len() < wide + 8 {
            return Err(11);
        }
        if number(table, wide, 8) != 0 {
            return Ok(number(table, wide, 8));
        }
    }
    if number(table, narrow, 4) != 0 {
        return Ok(number(table, narrow, 4));
    }
    Err(13)
}

fn fadt_number(table: &[u8], which: u32) -> Answer {
    match which {
        0 => Ok(vec![fadt_address(table, 36, 132)?]),
        1 => Ok(vec![fadt_address(table, 40, 140)?]),
        2 => {
            if table.len() < 129 {
                return Err(11);
            }
            Ok(vec![table[128] as u64])
        }
        3 => {
            if table.len() < 131 {
                return Err(11);
            }
            Ok(vec![number(table, 129, 2)])
        }
        4 => Ok(vec![table[45] as u64]),
        _ => Err(13),
    }
}

// Section 11: MADT.

pub struct Entry {
    pub kind: u8,
    pub at: usize,
    pub length: usize,
}

pub fn is_of_another_model(kind: u8) -> bool {
    matches!(kind, 6 | 7 | 8 | 11..=15)
}

pub fn is_of_this_model(kind: u8) -> bool {
    matches!(kind, 0..=5 | 9 | 10)
}

pub fn least_length(kind: u8) -> usize {
    match kind {
        0 => 8,
        1 => 12,
        2 => 10,
        3 => 8,
        4 => 6,
        5 => 12,
        9 => 16,
        10 => 12,
        16 => 16,
        _ => 2,
    }
}

/// The entries in order, and whether all of them are consistent. The list ends in front of
/// the first one that is not.
pub fn madt_entries(table: &[u8]) -> (Vec<Entry>, bool) {
    let mut entries = Vec::new();
    let mut at = 44;
    while at < table.len() {
        if at + 2 > table.len() {
            return (entries, false);
        }
        let kind = table[at];
        let length = table[at + 1] as usize;
        if is_of_another_model(kind) || length < least_length(kind) || at + length > table.len() {
            return (entries, false);
        }
        entries.push(Entry { kind, at, length });
        at += length;
    }
    (entries, true)
}

#[derive(Default)]
pub struct Model {
    pub local_apic_address: u64,
    /// Processors, controllers, overrides, NMI sources, NMI lines: a record each.
    pub lists: [Vec<Vec<u64>>; 5],
}

/// Whether bus, line, polarity and trigger of an entry are right.
pub fn entry_right(table: &[u8], kind: u8, at: usize) -> bool {
    let flags_right = |flags: u64| flags % 4 != 2 && flags / 4 % 4 != 2;
    match kind {
        2 => table[at + 2] == 0 && flags_right(number(table, at + 8, 2)),
        3 => flags_right(number(table, at + 2, 2)),
        4 => table[at + 5] <= 1,
        10 => table[at + 8] <= 1,
        _ => true,
    }
}

/// Adds what one entry says to the model.
pub fn add_entry(model: &mut Model, table: &[u8], kind: u8, at: usize) {
    let [processors, controllers, overrides, sources, lines] = &mut model.lists;
    let byte = |offset: usize| table[at + offset] as u64;
    match kind {
        0 | 9 => {
            let (uid, id, flags) = if kind == 0 {
                (byte(2), byte(3), number(table, at + 4, 4))
            } else {
                (
                    number(table, at + 12, 4),
                    number(table, at + 4, 4),
                    number(table, at + 8, 4),
                )
            };
            let state = if flags % 2 == 0 {
                0
            } else if processors.is_empty() {
                2
            } else {
                1
            };
            processors.push(vec![uid, id, state]);
        }
        1 => controllers.push(vec![byte(2), number(table, at + 4, 4), number(table, at + 8, 4)]),
        2 => overrides.push(vec![byte(3), number(table, at + 4, 4), number(table, at + 8, 2) % 16]),
        3 => sources.push(vec![number(table, at + 4, 4), number(table, at + 2, 2) % 16]),
        4 => {
            let uid = if byte(2) == 0xff { 0xffff_ffff } else { byte(2) };
            lines.push(vec![uid, byte(5)]);
        }
        10 => lines.push(vec![number(table, at + 4, 4), byte(8)]),
        5 => model.local_apic_address = number(table, at + 4, 8),
        _ => {}
    }
}

fn model(table: &[u8]) -> Result<Option<Model>, u32> {
    let (entries, consistent) = madt_entries(table);
    if !consistent {
        return Err(15);
    }
    let mut known = false;
    let mut right = true;
    let mut model = Model {
        local_apic_address: number(table, 36, 4),
        ..Default::default()
    };
    for entry in entries {
        known = known || is_of_this_model(entry.kind);
        right = right && entry_right(table, entry.kind, entry.at);
        add_entry(&mut model, table, entry.kind, entry.at);
    }
    if !known {
        return Ok(None);
    }
    if model.lists[0].is_empty() {
        return Err(15);
    }
    if !right {
        return Err(16);
    }
    Ok(Some(model))
}
