//! The listed differences as a program. Each number of docs/DIFFERENCES.md is a switch: off,
//! the reading is the plain one; on, it does at that place what the crate does. With all
//! switches off it must equal the plain reading, and with all of them on it must foretell
//! the crate, on every image. A disagreement between the two readers is explained if and
//! only if switching on listed differences makes the one into the other.

use crate::{
    plain::{self, is_text, number, sums_to_zero, Memory, Model, Place},
    question::*,
};

/// The numbers that a switch has. 21 has none, since it is about this library's interface,
/// and 22 none, since it needs a machine with addresses of 32 bits.
pub const NUMBERS: [u32; 22] = [
    1, 2, 3, 4, 5, 6, 7, 8, 9, 10, 11, 12, 13, 14, 15, 16, 17, 18, 19, 20, 23, 24,
];

/// The list that is held to the switches and to docs/DIFFERENCES.md.
const LIST: &str = include_str!("../differences.txt");

/// What is wrong with the list: a number that has no switch, a switch that it does not have,
/// or a difference of docs/DIFFERENCES.md that is missing here.
pub fn faults() -> Vec<String> {
    let numbers: Vec<u32> = LIST
        .lines()
        .filter(|line| !line.starts_with('#'))
        .filter_map(|line| line.split('|').next()?.trim().parse().ok())
        .collect();
    let mut faults = Vec::new();
    for number in NUMBERS.iter().chain(&[21, 22]) {
        if !numbers.contains(number) {
            faults.push(format!("oracle/differences.txt has no number {number}"));
        }
    }
    for number in &numbers {
        if !NUMBERS.contains(number) && ![21, 22].contains(number) {
            faults.push(format!("number {number} of oracle/differences.txt has no switch"));
        }
    }
    let text = std::fs::read_to_string("docs/DIFFERENCES.md").unwrap_or_default();
    for line in text.lines() {
        let Some(heading) = line.strip_prefix("### D") else {
            continue;
        };
        let number = heading.split('.').next().and_then(|number| number.parse::<u32>().ok());
        if !number.is_some_and(|number| numbers.contains(&number)) {
            faults.push(format!(
                "'{line}' of docs/DIFFERENCES.md is not in oracle/differences.txt"
            ));
        }
    }
    faults
}

/// A set of differences, one bit for each number.
#[derive(Clone, Copy, PartialEq, Eq, Debug)]
pub struct Switches(pub u32);

impl Switches {
    pub const NONE: Switches = Switches(0);

    pub fn all() -> Switches {
        NUMBERS.iter().fold(Switches::NONE, |set, number| set.with(*number))
    }

    pub fn with(self, number: u32) -> Switches {
        Switches(self.0 | 1 << number)
    }

    pub fn without(self, number: u32) -> Switches {
        Switches(self.0 & !(1 << number))
    }

    pub fn has(self, number: u32) -> bool {
        self.0 >> number & 1 == 1
    }

    pub fn numbers(self) -> Vec<u32> {
        NUMBERS.into_iter().filter(|number| self.has(*number)).collect()
    }
}

/// Why a reading ends before it has a value.
#[derive(Clone, Copy, Debug, PartialEq)]
enum Stop {
    Refused(u32),
    Unmapped,
    Panic,
    Hang,
    Crash,
}

use Stop::Refused;

type Read<T> = Result<T, Stop>;

pub struct Listed<'a> {
    /// The image, and behind it the bytes of zero that the crate sees there.
    pub bytes: &'a [u8],
    pub memory: Memory<'a>,
    pub on: Switches,
}

struct Root {
    kind: u64,
    place: Place,
    entry_size: usize,
}

impl<'a> Listed<'a> {
    pub fn ask(&self, question: &Question) -> Outcome {
        match self.answer(question) {
            Ok(Some(values)) => Outcome::Answer(Ok(values)),
            Ok(None) => Outcome::NoCounterpart,
            Err(Refused(number)) => Outcome::Answer(Err(number)),
            Err(Stop::Unmapped) => Outcome::Unmapped,
            Err(Stop::Panic) => Outcome::Panic,
            Err(Stop::Hang) => Outcome::Hang,
            Err(Stop::Crash) => Outcome::Crash,
        }
    }

    /// What stands at an offset, also where it isn't part of the structure or of its range.
    fn beyond(&self, offset: usize, length: usize) -> Read<&'a [u8]> {
        self.bytes.get(offset..offset + length).ok_or(Stop::Crash)
    }

    /// The refusal of unmapped bytes: a number of ours, or the end of the question.
    fn unmapped(&self, difference: u32, refusal: u32) -> Stop {
        if self.on.has(difference) {
            Stop::Unmapped
        } else {
            Refused(refusal)
        }
    }

    fn answer(&self, question: &Question) -> Read<Option<Vec<u64>>> {
        let values = match *question {
            Question::Ranges | Question::Table(..) | Question::Of(_, Ask::MadtEntry(_)) => return Ok(None),
            Question::Find { n: 1.., .. } => return Ok(None),
            Question::TableAt { signature, .. } if !is_text(&signature.to_le_bytes()) => return Ok(None),
            Question::Of(_, Ask::FadtRegister(11..)) | Question::Of(_, Ask::FadtNumber(5..)) => return Ok(None),
            Question::Find { signature, .. } if !KNOWN.contains(&&signature.to_le_bytes()) => return Ok(None),
            Question::Pointer(address) => self.pointer(address)?,
            Question::Search => vec![self.search()?],
            Question::TableAt {
                address,
                signature,
                least,
            } => place_values(self.table_at(address, Some(signature), least)?),
            Question::AnyTableAt(address) => place_values(self.table_at(address, None, 36)?),
            Question::Root(pointer) => {
                let root = self.root(pointer)?;
                let mut values = vec![root.kind];
                values.extend(place_values(root.place));
                values.push(root.entry_size as u64);
                values
            }
            Question::Entry(pointer, k) => {
                let entries = self.entries(&self.root(pointer)?)?;
                vec![*entries.get(k as usize).ok_or(Refused(13))?]
            }
            Question::Find {
                pointer,
                signature,
                least,
                ..
            } => place_values(self.find(pointer, signature, least)?),
            Question::Header(pointer, n) => place_values(self.header(pointer, n)?),
            Question::Dsdt(pointer) => {
                let fadt = self.find(pointer, FADT, 116)?;
                self.dsdt(self.fadt_address(fadt, 40, 140)?)?
            }
            Question::Ssdt(pointer, n) => self.ssdt(pointer, n)?,
            Question::Platform(pointer) => {
                let fadt = self.find(pointer, FADT, 116)?;
                let model = match self.find(pointer, MADT, 44) {
                    Ok(madt) => self.of(madt, &Ask::Model)?,
                    Err(Refused(_)) => vec![0; 8],
                    Err(end) => return Err(end),
                };
                let timer = match self.fadt_register(fadt, plain::TIMER) {
                    Ok(register) => Some(register),
                    Err(Refused(13)) => None,
                    Err(end) => return Err(end),
                };
                plain::platform_values(self.beyond(fadt.offset, fadt.length.max(276))?, model, timer)
            }
            Question::Entries(pointer) => {
                let place = self.find(pointer, MADT, 44)?;
                let (entries, end) = self.walk(place)?;
                let foreign = entries.iter().any(|(kind, _, _)| plain::is_of_another_model(*kind));
                if foreign && !self.on.has(20) {
                    return Err(Refused(15));
                }
                end?;
                entries
                    .iter()
                    .flat_map(|(kind, at, length)| [*kind as u64, *at as u64, *length as u64])
                    .collect()
            }
            Question::Of(pointer, ask) => {
                let (signature, least) = table_of(&ask);
                let place = self.find(pointer, signature, least)?;
                self.of(place, &ask)?
            }
        };
        Ok(Some(values))
    }

    // Root pointer.

    fn pointer(&self, address: u64) -> Read<Vec<u64>> {
        let (offset, seen) = self.memory.view(address);
        if seen.len() < 20 {
            return Err(self.unmapped(23, 2));
        }
        if seen[15] == 0 && seen.len() < 36 && self.on.has(2) {
            return Err(Stop::Unmapped);
        }
        if seen[15] != 0 && seen.len() < 36 {
            return Err(self.unmapped(23, 2));
        }
        self.pointer_at(offset)
    }

    fn pointer_at(&self, offset: usize) -> Read<Vec<u64>> {
        let seen = self.beyond(offset, 36)?;
        let revision = seen[15];
        if &seen[0..8] != b"RSD PTR " {
            return Err(Refused(3));
        }
        if !is_text(&seen[9..15]) {
            return Err(Refused(4));
        }
        let length = if revision == 0 {
            20
        } else {
            number(seen, 20, 4) as usize
        };
        if !self.on.has(1) && !(20..=36).contains(&length) {
            return Err(Refused(5));
        }
        if !sums_to_zero(self.beyond(offset, length)?) {
            return Err(Refused(5));
        }
        let xsdt_address = if revision == 0 { 0 } else { number(seen, 24, 8) };
        Ok(vec![revision as u64, length as u64, number(seen, 16, 4), xsdt_address])
    }

    fn search(&self) -> Read<u64> {
        if self.on.has(3) && self.memory.view(0x40e).1.len() < 2 {
            return Err(Stop::Unmapped);
        }
        for (first, after_last) in self.memory.search_areas() {
            if self.on.has(3) && (self.memory.view(first).1.len() as u64) < after_last - first + 16 {
                return Err(Stop::Unmapped);
            }
            let mut address = first;
            while address + 20 <= after_last {
                match self.pointer(address) {
                    Ok(_) => return Ok(address),
                    Err(Stop::Crash) => return Err(Stop::Crash),
                    Err(_) => {}
                }
                address += 16;
            }
        }
        Err(Refused(18))
    }

    // Tables.

    fn root(&self, pointer: u64) -> Read<Root> {
        let pointer = self.pointer(pointer)?;
        let (kind, address, signature, entry_size) = if pointer[0] == 0 {
            (0, pointer[2], b"RSDT", 4)
        } else {
            (1, pointer[3], b"XSDT", 8)
        };
        let (offset, seen) = self.memory.view(address);
        if seen.len() < 36 {
            return Err(self.unmapped(23, 6));
        }
        let length = number(seen, 4, 4) as usize;
        let cut_off = length > seen.len();
        if cut_off && !self.on.has(4) {
            return Err(self.unmapped(23, 6));
        }
        if &seen[0..4] != signature {
            return Err(Refused(7));
        }
        if !is_text(&seen[10..16]) {
            return Err(Refused(8));
        }
        if !is_text(&seen[16..24]) {
            return Err(Refused(9));
        }
        if cut_off {
            return Err(self.unmapped(23, 6));
        }
        if !sums_to_zero(&seen[..length]) {
            return Err(Refused(10));
        }
        if length < 36 && !self.on.has(5) {
            return Err(Refused(11));
        }
        Ok(Root {
            kind,
            place: Place {
                address,
                offset,
                length,
            },
            entry_size,
        })
    }

    fn entries(&self, root: &Root) -> Read<Vec<u64>> {
        // The crate subtracts the header's length.
        if root.place.length < 36 {
            return Err(Stop::Panic);
        }
        let listed = &self.memory.slice(root.place)[36..];
        let mut entries = Vec::new();
        for entry in listed.chunks(root.entry_size) {
            if entry.len() == root.entry_size || self.on.has(6) {
                entries.push(number(entry, 0, entry.len()));
            }
        }
        Ok(entries)
    }

    /// The table at an address, or why there is none. The crate reads what is not mapped.
    fn table_at(&self, address: u64, signature: Option<u32>, least: u32) -> Read<Place> {
        let (_, seen) = self.memory.view(address);
        if self.on.has(8) && (seen.len() < 36 || number(seen, 4, 4) as usize > seen.len()) {
            return Err(Stop::Unmapped);
        }
        self.table_lazily(address, signature, least, 7, 8)
    }

    /// The same, in the order of the crate's find: the header is tested before the table is
    /// mapped. `short` and `unmapped` are the differences that act on lengths and mapping.
    fn table_lazily(&self, address: u64, signature: Option<u32>, least: u32, short: u32, unmapped: u32) -> Read<Place> {
        let (offset, seen) = self.memory.view(address);
        if seen.len() < 36 {
            return Err(self.unmapped(unmapped, 12));
        }
        let right = match signature {
            Some(wanted) => number(seen, 0, 4) == wanted as u64,
            None => is_text(&seen[0..4]),
        };
        if !right {
            return Err(Refused(7));
        }
        if !is_text(&seen[10..16]) {
            return Err(Refused(8));
        }
        if !is_text(&seen[16..24]) {
            return Err(Refused(9));
        }
        let length = number(seen, 4, 4) as usize;
        let cut_off = length > seen.len();
        if cut_off && self.on.has(unmapped) {
            return Err(Stop::Unmapped);
        }
        if !cut_off && !sums_to_zero(&seen[..length]) {
            return Err(Refused(10));
        }
        if (length < 36 || length < least as usize) && !self.on.has(short) {
            return Err(Refused(11));
        }
        if cut_off {
            return Err(Refused(12));
        }
        Ok(Place {
            address,
            offset,
            length,
        })
    }

    fn find(&self, pointer: u64, signature: u32, least: u32) -> Read<Place> {
        for entry in self.entries(&self.root(pointer)?)? {
            match self.table_lazily(entry, Some(signature), least, 7, 8) {
                Err(Refused(_)) => {}
                found_or_end => return found_or_end,
            }
        }
        Err(Refused(12))
    }

    fn header(&self, pointer: u64, n: u64) -> Read<Place> {
        let mut passed = 0;
        for entry in self.entries(&self.root(pointer)?)? {
            let found = if self.on.has(10) {
                self.header_alone(entry)
            } else {
                self.table_lazily(entry, None, 36, 10, 8)
            };
            match found {
                Err(Refused(_)) => {}
                Ok(_) if passed < n => passed += 1,
                found_or_end => return found_or_end,
            }
        }
        Err(Refused(12))
    }

    /// A header whose table is summed over its stated length, whether that is mapped or not.
    fn header_alone(&self, address: u64) -> Read<Place> {
        let (offset, seen) = self.memory.view(address);
        if seen.len() < 36 {
            return Err(self.unmapped(8, 12));
        }
        if !is_text(&seen[0..4]) || !is_text(&seen[10..16]) || !is_text(&seen[16..24]) {
            return Err(Refused(12));
        }
        let length = number(seen, 4, 4) as usize;
        if !sums_to_zero(self.beyond(offset, length)?) {
            return Err(Refused(12));
        }
        Ok(Place {
            address,
            offset,
            length,
        })
    }

    // The streams behind the headers of DSDT and SSDTs.

    fn stream(&self, place: Place) -> Read<Vec<u64>> {
        // The crate adds to the address, and takes from the length, in numbers that panic.
        if self.on.has(9) && (place.length < 36 || place.address.checked_add(36).is_none()) {
            return Err(Stop::Panic);
        }
        match place.address.checked_add(36) {
            Some(address) => Ok(vec![address, place.length as u64 - 36]),
            None => Err(Refused(13)),
        }
    }

    fn dsdt(&self, address: u64) -> Read<Vec<u64>> {
        self.stream(self.table_lazily(address, Some(DSDT), 36, 9, 9)?)
    }

    fn ssdt(&self, pointer: u64, n: u64) -> Read<Vec<u64>> {
        let mut passed = 0;
        for entry in self.entries(&self.root(pointer)?)? {
            match self.table_lazily(entry, Some(SSDT), 36, 9, 8) {
                Err(Refused(_)) => {}
                Err(end) => return Err(end),
                Ok(place) => {
                    let stream = self.stream(place);
                    if passed == n || stream == Err(Stop::Panic) {
                        return stream;
                    }
                    passed += 1;
                }
            }
        }
        Err(Refused(12))
    }

    // One table that was found.

    fn of(&self, place: Place, ask: &Ask) -> Read<Vec<u64>> {
        // A table may be shorter than its fixed part, where difference 7 lets it pass; the
        // crate then reads what follows it.
        let table = self.beyond(place.offset, place.length.max(276))?;
        match *ask {
            Ask::Hpet => {
                if table[40] != 0 {
                    return Err(if self.on.has(12) { Stop::Panic } else { Refused(14) });
                }
                Ok(plain::hpet_values(table))
            }
            Ask::McfgCount => Ok(vec![self.windows(place)?.len() as u64]),
            Ask::McfgEntry(k) => {
                let windows = self.windows(place)?;
                let window = windows.get(k as usize).ok_or(Refused(13))?;
                Ok(vec![window.base, window.segment, window.first, window.last])
            }
            Ask::PciAddress(segment, bus, device, function) => {
                let windows = self.windows(place)?;
                let bus = bus as u64;
                let mut held = windows
                    .iter()
                    .filter(|window| window.segment == segment as u64 && window.first <= bus && bus <= window.last);
                let window = held.next().ok_or(Refused(13))?;
                if !self.on.has(11) && (device > 31 || function > 7) {
                    return Err(Refused(13));
                }
                let inside = (bus - window.first) << 20 | (device as u64) << 15 | (function as u64) << 12;
                match window.base.checked_add(inside) {
                    Some(address) => Ok(vec![address]),
                    None if self.on.has(11) => Err(Stop::Panic),
                    None => Err(Refused(13)),
                }
            }
            Ask::FadtFixed => Ok(plain::fadt_fixed(table)),
            Ask::FadtRegister(which) => self.fadt_register(place, which),
            Ask::FadtNumber(0) => Ok(vec![self.fadt_address(place, 36, 132)?]),
            Ask::FadtNumber(1) => Ok(vec![self.fadt_address(place, 40, 140)?]),
            Ask::FadtNumber(2) => Ok(vec![self.field(place, 128, 1, 15)?]),
            Ask::FadtNumber(3) => Ok(vec![self.field(place, 129, 2, 15)?]),
            Ask::FadtNumber(_) => Ok(vec![table[45] as u64]),
            Ask::MadtFixed => {
                let flags = number(table, 40, 4);
                Ok(vec![number(table, 36, 4), flags, flags % 2])
            }
            Ask::MadtEntry(_) => unreachable!("the crate numbers no entries"),
            Ask::Model => {
                let (address, old) = (number(table, 36, 4), number(table, 40, 4) % 2);
                let Some(model) = self.model(place)? else {
                    return Ok(if self.on.has(24) {
                        vec![0; 8]
                    } else {
                        vec![0, address, old, 0, 0, 0, 0, 0]
                    });
                };
                let mut values = vec![1, model.local_apic_address, old];
                values.extend(model.lists.iter().map(|list| list.len() as u64));
                Ok(values)
            }
            Ask::Lists(_) => {
                let lists = self.model(place)?.map_or(Default::default(), |model| model.lists);
                let mut values = Vec::new();
                for list in lists {
                    let flat = list.concat();
                    values.push(flat.len() as u64);
                    values.extend(flat);
                }
                Ok(values)
            }
            Ask::Mailbox => {
                let (entries, end) = self.walk(place)?;
                let foreign = entries.iter().any(|(kind, _, _)| plain::is_of_another_model(*kind));
                if foreign && !self.on.has(20) || end == Err(Refused(15)) {
                    return Err(Refused(15));
                }
                // The crate stops at the first one, in front of whatever comes behind it.
                if let Some((_, at, _)) = entries.iter().find(|(kind, _, _)| *kind == 16) {
                    return Ok(vec![number(self.beyond(place.offset + at, 16)?, 8, 8)]);
                }
                end?;
                Err(Refused(15))
            }
        }
    }

    fn windows(&self, place: Place) -> Read<Vec<plain::Window>> {
        // The crate subtracts the length of the fixed part.
        if place.length < 44 {
            return Err(Stop::Panic);
        }
        Ok(plain::windows(self.memory.slice(place)))
    }

    /// A field past the fixed part of the FADT.
    fn field(&self, place: Place, at: usize, size: usize, difference: u32) -> Read<u64> {
        if at + size > place.length && !self.on.has(difference) {
            return Err(Refused(11));
        }
        Ok(number(self.beyond(place.offset + at, size)?, 0, size))
    }

    fn generic(&self, place: Place, at: usize, difference: u32) -> Read<Vec<u64>> {
        self.field(place, at + 4, 8, difference)?;
        plain::generic_address(self.beyond(place.offset + at, 12)?, 0).map_err(Refused)
    }

    fn fadt_address(&self, place: Place, narrow: usize, wide: usize) -> Read<u64> {
        let table = self.beyond(place.offset, place.length.max(276))?;
        if table[8] >= 2 {
            let address = self.field(place, wide, 8, 14)?;
            if address != 0 {
                return Ok(address);
            }
        }
        match number(table, narrow, 4) {
            0 => Err(Refused(13)),
            address => Ok(address),
        }
    }

    fn fadt_register(&self, place: Place, which: u32) -> Read<Vec<u64>> {
        let table = self.beyond(place.offset, place.length.max(276))?;
        let revision = table[8];
        match which {
            8 => self.generic(place, 116, 15),
            9 | 10 if revision < 2 => Err(Refused(13)),
            9 => self.generic(place, 244, 16),
            10 => self.generic(place, 256, 16),
            _ => {
                let (narrow, length_byte, wide) = plain::BLOCKS[which as usize];
                if which == plain::TIMER && table[length_byte] != 4 {
                    return Err(Refused(13));
                }
                if revision >= 2 && self.field(place, wide + 4, 8, 14)? != 0 {
                    return self.generic(place, wide, 14);
                }
                let address = number(table, narrow, 4);
                if address == 0 && which != plain::PM1A_EVENT && which != plain::PM1A_CONTROL {
                    return Err(Refused(13));
                }
                let width = 8 * table[length_byte] as u64;
                if width > 255 && self.on.has(13) {
                    return Err(Stop::Panic);
                }
                Ok(vec![1, width, 0, 0, address])
            }
        }
    }

    /// The entries of kinds below 17 (kind, offset, length), and how the walk ends.
    fn walk(&self, place: Place) -> Read<(Vec<(u8, usize, usize)>, Read<()>)> {
        // The crate subtracts the length of the fixed part.
        if place.length < 44 {
            return Err(Stop::Panic);
        }
        let mut entries = Vec::new();
        let mut at = 44;
        while at < place.length {
            let head = self.beyond(place.offset + at, 2)?;
            let (kind, length) = (head[0], head[1] as usize);
            let left = place.length - at;
            if !self.on.has(19) && (left < 2 || length < plain::least_length(kind) || length > left) {
                return Ok((entries, Err(Refused(15))));
            }
            if length > left {
                return Ok((entries, Err(Stop::Panic)));
            }
            if kind < 17 {
                entries.push((kind, at, length));
            }
            if length == 0 {
                return Ok((entries, Err(Stop::Hang)));
            }
            at += length;
        }
        Ok((entries, Ok(())))
    }

    fn model(&self, place: Place) -> Read<Option<Model>> {
        let (entries, end) = self.walk(place)?;
        let of_ours = |kind: u8| plain::is_of_this_model(kind);
        let foreign = |kind: u8| plain::is_of_another_model(kind);

        // The crate goes through the entries to see whose model this is, then to count.
        match entries.iter().find(|(kind, _, _)| of_ours(*kind) || foreign(*kind)) {
            Some((kind, _, _)) if foreign(*kind) && self.on.has(20) => return Err(Stop::Panic),
            Some((kind, _, _)) if foreign(*kind) => return Err(Refused(15)),
            Some(_) => end?,
            None => {
                end?;
                return Ok(None);
            }
        }

        let table = self.beyond(place.offset, place.length + 276)?;
        let mut first = None;
        let mut refusals = Vec::new();
        let mut model = Model {
            local_apic_address: number(table, 36, 4),
            ..Default::default()
        };
        for (kind, at, _) in entries {
            if foreign(kind) {
                refusals.push(15);
            } else if !plain::entry_right(table, kind, at) {
                refusals.push(16);
            } else {
                plain::add_entry(&mut model, table, kind, at);
            }
            first = first.or(refusals.first().copied());
        }
        // With a refusal on the way the crate does not come to the end, where it notices
        // that there is no processor.
        if let (Some(first), true) = (first, self.on.has(17)) {
            return Err(Refused(first));
        }
        if refusals.contains(&15) {
            return Err(Refused(15));
        }
        if model.lists[0].is_empty() {
            return Err(if self.on.has(18) { Stop::Panic } else { Refused(15) });
        }
        if refusals.contains(&16) {
            return Err(Refused(16));
        }
        Ok(Some(model))
    }
}

/// The signatures for which the crate is asked to find a table.
pub const KNOWN: [&[u8; 4]; 10] = [
    b"FACP", b"APIC", b"MCFG", b"HPET", b"BGRT", b"SPCR", b"SSDT", b"DSDT", b"OEM1", b"XSDT",
];

fn place_values(place: Place) -> Vec<u64> {
    vec![place.address, place.offset as u64, place.length as u64]
}

/// A set of differences that foretells what the crate did, and none of which can be left
/// out. The set that explained the question before is tried first, since questions about
/// one image mostly differ for one reason.
pub fn explain(
    bytes: &[u8],
    image: &[u8],
    ranges: &[u64],
    question: &Question,
    outcome: &Outcome,
    before: Switches,
) -> Option<Switches> {
    let foretells = |on: Switches| {
        Listed {
            bytes,
            memory: Memory { image, ranges },
            on,
        }
        .ask(question)
            == *outcome
    };
    if foretells(before)
        && before
            .numbers()
            .iter()
            .all(|number| !foretells(before.without(*number)))
    {
        return Some(before);
    }
    let mut set = Switches::all();
    if !foretells(set) {
        return None;
    }
    for number in NUMBERS {
        if foretells(set.without(number)) {
            set = set.without(number);
        }
    }
    Some(set)
}
