//! Makes images: a machine is described at random, its tables are written, and one image
//! in two and more is then damaged. A seed and a case number make the same image always.

use crate::{
    plain::{least_length, number},
    random::Random,
};

/// How many cases share one description, each with another damage.
pub const BLOCK: u64 = 16;

#[derive(Clone, Copy, PartialEq, Debug)]
pub enum Role {
    Pointer,
    Root,
    Table,
}

/// A structure that stands in the image.
#[derive(Clone, Debug)]
pub struct Piece {
    pub role: Role,
    pub address: u64,
    pub offset: usize,
    pub length: usize,
}

#[derive(Clone)]
pub struct Case {
    pub image: Vec<u8>,
    pub ranges: Vec<u64>,
    /// The root pointer's address.
    pub pointer: u64,
    pub pieces: Vec<Piece>,
    /// Whether this is an image of the areas that the search goes through.
    pub search: bool,
}

pub fn case(seed: u64, number: u64) -> Case {
    let mut random = Random::new(seed, number.wrapping_mul(2));
    let slot = number % BLOCK;
    if slot == BLOCK - 1 && random.once_in(8) {
        return low_memory(&mut random);
    }
    let mut case = describe(&mut Random::new(seed, (number / BLOCK).wrapping_mul(2) + 1));
    match slot {
        0 | 1 => {}
        2..=7 => damage_byte(&mut case, &mut random),
        8 | 9 => damage_length(&mut case, &mut random),
        10 | 11 => damage_entry(&mut case, &mut random),
        12 => damage_root_entry(&mut case, &mut random),
        13 => damage_ranges(&mut case, &mut random),
        _ => {
            for _ in 0..2 + random.below(2) {
                match random.below(8) {
                    0 | 1 => damage_byte(&mut case, &mut random),
                    2 | 3 => damage_length(&mut case, &mut random),
                    4 | 5 => damage_entry(&mut case, &mut random),
                    6 => damage_root_entry(&mut case, &mut random),
                    _ => damage_ranges(&mut case, &mut random),
                }
            }
        }
    }
    case
}

// Writing.

fn put(bytes: &mut [u8], at: usize, size: usize, value: u64) {
    bytes[at..at + size].copy_from_slice(&value.to_le_bytes()[..size]);
}

/// Sets a byte so that all of them sum to 0.
pub fn fix_sum(bytes: &mut [u8], at: usize) {
    bytes[at] = 0;
    let sum = bytes.iter().fold(0u8, |sum, byte| sum.wrapping_add(*byte));
    bytes[at] = sum.wrapping_neg();
}

fn text(random: &mut Random, bytes: &mut [u8]) {
    let choice = random.below(6);
    for byte in bytes.iter_mut() {
        *byte = match choice {
            0 => 0,
            1 => b' ',
            _ => b'A' + random.below(26) as u8,
        };
    }
    if random.once_in(8) {
        let piece: &[u8] = random
            .of(&["\u{e9}", "\u{20ac}", "\u{1f600}", "\u{7ff}", "\u{ffff}"])
            .as_bytes();
        let at = random.below(bytes.len() - piece.len() + 1);
        bytes[at..at + piece.len()].copy_from_slice(piece);
    }
}

fn table(random: &mut Random, signature: &[u8; 4], length: usize, revision: u8) -> Vec<u8> {
    let mut bytes = vec![0; length];
    bytes[..4].copy_from_slice(signature);
    put(&mut bytes, 4, 4, length as u64);
    bytes[8] = revision;
    text(random, &mut bytes[10..16]);
    text(random, &mut bytes[16..24]);
    let creator = random.next();
    put(&mut bytes, 24, 8, creator);
    put(&mut bytes, 32, 4, creator >> 20);
    bytes
}

fn other_table(random: &mut Random) -> Vec<u8> {
    let signature = random.of(&[
        b"SSDT",
        b"SSDT",
        b"OEM1",
        b"BGRT",
        b"SPCR",
        b"DSDT",
        b"XSDT",
        b"ZZZZ",
        b"\xc3\xa9\xc3\xa9",
    ]);
    let length = 36 + random.of(&[0, 0, 1, 4, 20, 52, 52, 100]);
    let revision = random.byte();
    let mut bytes = table(random, signature, length, revision);
    for byte in &mut bytes[36..] {
        *byte = random.byte();
    }
    bytes
}

/// Mostly one that is known.
fn generic(random: &mut Random, bytes: &mut [u8]) {
    if random.once_in(3) {
        return;
    }
    bytes[0] = random.of(&[0, 1, 1, 1, 2, 3, 10, 0x7f, 0xc0, 0xff, 11, 0x7e, 0x80, 0xbf]);
    bytes[1] = random.of(&[8, 16, 32, 64, 255]);
    bytes[2] = random.of(&[0, 0, 0, 1, 255]);
    bytes[3] = random.of(&[0, 1, 2, 3, 4, 4, 3, 2, 1, 0, 5, 255]);
    let address = random.of(&[0, 0, 1, 0x600, 0x1808, 0xfed0_0000, 0x1_0000_0000, u64::MAX]);
    put(bytes, 4, 8, address);
}

fn fadt(random: &mut Random, tame: bool) -> Vec<u8> {
    let revision = random.of(&[1, 1, 2, 3, 4, 5, 6, 6, 0, 255]);
    let length = match (random.below(4), revision) {
        (_, 0 | 1) if tame => 132,
        _ if tame => 276,
        (0, _) => 116 + random.below(170),
        (_, 0 | 1) => 116,
        (_, 2) => 132,
        (_, 3 | 4) => 244,
        (_, 5) => 268,
        _ => 276,
    };
    let mut bytes = table(random, b"FACP", length, revision);
    for at in (36..116).step_by(4) {
        if !random.once_in(3) {
            let value = random.next();
            put(&mut bytes, at, 4, value);
        }
    }
    bytes[45] = random.of(&[0, 1, 2, 3, 4, 5, 6, 7, 8, 9, 255]);
    for at in 88..94 {
        bytes[at] = if tame {
            random.of(&[0, 2, 4, 8, 31])
        } else {
            random.of(&[0, 2, 4, 4, 4, 8, 16, 31, 31, 32, 255])
        };
    }
    if !random.once_in(4) {
        bytes[91] = 4;
    }
    let mut wide = vec![0; 276];
    generic(random, &mut wide[116..128]);
    wide[128] = random.byte();
    let flags = random.next();
    put(&mut wide, 129, 3, flags);
    for at in [132, 140] {
        let address = random.of(&[0, 0, 1, 0x7ff0_0000, u64::MAX]);
        put(&mut wide, at, 8, address);
    }
    for at in (148..268).step_by(12) {
        generic(random, &mut wide[at..at + 12]);
    }
    let end = length.min(276);
    bytes[116..end].copy_from_slice(&wide[116..end]);
    bytes
}

fn hpet(random: &mut Random, tame: bool) -> Vec<u8> {
    let length = 56 + random.of(&[0, 0, 0, 1, 8]);
    let mut bytes = table(random, b"HPET", length, 1);
    let id = random.next();
    put(&mut bytes, 36, 4, id);
    generic(random, &mut bytes[40..52]);
    if tame || !random.once_in(6) {
        bytes[40] = 0;
    }
    bytes[52] = random.byte();
    put(&mut bytes, 53, 2, id >> 40);
    bytes[55] = random.of(&[0, 1, 2, 3, 15, 16, 0x31, 0xf2]);
    bytes
}

fn mcfg(random: &mut Random, tame: bool) -> Vec<u8> {
    let windows = random.of(&[0, 1, 1, 2, 3, 6]);
    let length = 44 + 16 * windows + random.of(&[0, 0, 0, 0, 1, 8, 15]);
    let mut bytes = table(random, b"MCFG", length, 1);
    for byte in &mut bytes[36..] {
        *byte = random.byte();
    }
    for window in 0..windows {
        let at = 44 + 16 * window;
        let high = if tame {
            0xffff_ffff_0000_0000
        } else {
            random.of(&[0xffff_ffff_f000_0000, u64::MAX])
        };
        let base = random.of(&[0xb000_0000, 0xe000_0000, 0x10_0000_0000, 0, high]);
        put(&mut bytes, at, 8, base);
        let segment = random.of(&[0, 0, 1, 2, 0xffff]);
        put(&mut bytes, at + 8, 2, segment);
        let first = random.of(&[0, 0, 0, 1, 64, 128, 255]);
        bytes[at + 10] = first;
        bytes[at + 11] = random.of(&[first, 63, 127, 255, 255, 0]);
    }
    bytes
}

fn madt_entry(random: &mut Random, kind: u8, bytes: &mut Vec<u8>) {
    let length = least_length(kind) + random.of(&[0, 0, 0, 0, 0, 0, 0, 1, 2, 4]);
    let at = bytes.len();
    bytes.push(kind);
    bytes.push(length as u8);
    for _ in 2..length {
        bytes.push(random.byte());
    }
    let entry = &mut bytes[at..];
    let wrong = if random.once_in(3) {
        random.of(&[0x2, 0x8, 0xa])
    } else {
        0
    };
    let flags = random.of(&[0, 1, 3, 4, 5, 7, 12, 13, 15, 0xfff0, 0xffff, wrong]);
    match kind {
        2 => {
            entry[2] = random.once_in(40) as u8;
            put(entry, 8, 2, flags);
        }
        3 => put(entry, 2, 2, flags),
        4 => {
            entry[2] = random.of(&[0xff, 0, 1, 254]);
            entry[5] = random.of(&[0, 1, 1, 1, 0, 1, 0, 1, 1, 1, 1, 2]);
        }
        10 => {
            let uid = random.of(&[0xffff_ffff, 255, 0, 256]);
            put(entry, 4, 4, uid);
            entry[8] = random.of(&[0, 1, 1, 1, 0, 1, 0, 1, 1, 1, 1, 255]);
        }
        0 => put(entry, 4, 4, random.of(&[1, 1, 1, 1, 0, 2, 3, 0xffff_fffe])),
        9 => put(entry, 8, 4, random.of(&[1, 1, 1, 1, 0, 2, 3, 0xffff_fffe])),
        _ => {}
    }
}

fn madt(random: &mut Random, tame: bool) -> Vec<u8> {
    let mut bytes = table(random, b"APIC", 44, 4);
    let flags = random.next();
    put(&mut bytes, 36, 8, flags);
    let processors = match random.below(40) {
        0 => random.below(601),
        1..=6 => random.below(33),
        _ => random.below(5),
    };
    let others = random.of(&[0, 1, 2, 4, 8]);
    let processors = if tame && others > 0 {
        processors.max(1)
    } else {
        processors
    };
    let mut kinds: Vec<u8> = (0..processors).map(|_| random.of(&[0, 0, 9])).collect();
    for _ in 0..others {
        kinds.push(match random.below(30) {
            0 if !tame => random.of(&[6, 7, 8, 11, 12, 13, 14, 15]),
            1..=3 => random.of(&[17, 18, 0x7f, 0x80, 0xff]),
            4..=5 => 16,
            _ => random.of(&[1, 1, 2, 2, 3, 4, 4, 5, 10]),
        });
    }
    random.shuffle(&mut kinds);
    for kind in kinds {
        madt_entry(random, kind, &mut bytes);
    }
    let length = bytes.len() as u64;
    put(&mut bytes, 4, 4, length);
    bytes
}

/// A table like this one that is not valid.
fn twin(random: &mut Random, bytes: &[u8], tame: bool) -> Vec<u8> {
    let mut twin = bytes.to_vec();
    match random.below(4) {
        0 => twin[10 + random.below(6)] = 0xff,
        1 => twin[16 + random.below(8)] = 0xc0,
        2 if !tame => put(&mut twin, 4, 4, random.of(&[0, 35, 0x0010_0000])),
        _ => {}
    }
    fix_sum(&mut twin, 9);
    if twin[10..24] == bytes[10..24] {
        twin[9] ^= 1 << random.below(8);
    }
    twin
}

type Maker = fn(&mut Random, bool) -> Vec<u8>;

fn describe(random: &mut Random) -> Case {
    // Half of the machines have consistent tables; damage may still come to them.
    let tame = random.once_in(2);
    let revision = random.of(&[0, 0, 1, 2, 2, 2, 3, 255]);
    let wide = revision != 0;

    // The tables in the order of the root table, then those that it does not list.
    let mut tables = Vec::new();
    for make in [madt as Maker, fadt, mcfg, hpet] {
        if !random.once_in(6) {
            tables.push(make(random, tame));
        }
    }
    let more = match random.below(20) {
        0 => random.below(57),
        1..=4 => random.below(10),
        _ => random.below(4),
    };
    for _ in 0..more {
        tables.push(match random.below(12) {
            0 => random.of(&[madt as Maker, fadt, mcfg, hpet])(random, tame),
            _ => other_table(random),
        });
    }
    random.shuffle(&mut tables);
    for place in 0..tables.len() {
        fix_sum(&mut tables[place], 9);
    }
    for place in (0..tables.len()).rev() {
        if random.once_in(8) && tables.len() < 60 {
            let twin = twin(random, &tables[place], tame);
            tables.insert(random.below(place + 1), twin);
        }
    }
    let listed = tables.len();
    let signature = random.of(&[b"DSDT", b"DSDT", b"DSDT", b"DSDT", b"SSDT"]);
    let length = 36 + random.of(&[0, 1, 64]);
    let mut dsdt = table(random, signature, length, 2);
    fix_sum(&mut dsdt, 9);
    if random.once_in(6) {
        dsdt = twin(random, &dsdt, tame);
    }
    tables.push(dsdt);

    // A root pointer of a later revision may state a shorter length, down to 20.
    let mut pointer = vec![0; 36];
    pointer[..8].copy_from_slice(b"RSD PTR ");
    text(random, &mut pointer[9..15]);
    pointer[15] = revision;
    let pointer_length = if wide {
        random.of(&[36, 36, 36, 36, 33, 20, 35])
    } else {
        36
    };
    put(&mut pointer, 20, 4, pointer_length);

    let entry_size = if wide { 8 } else { 4 };
    let rest = if tame {
        0
    } else {
        random.of(&[0, 0, 0, 0, 0, 0, 0, 1, entry_size - 1, entry_size / 2])
    };
    let root_signature = if wide { b"XSDT" } else { b"RSDT" };
    let root = table(random, root_signature, 36 + entry_size * listed + rest, 1);

    // Pointer and root first, then the tables.
    let mut bytes = vec![pointer, root];
    bytes.extend(tables);
    let one_range = bytes.len() > 60 || random.once_in(2);
    let mut base = random.of(&[
        0x7ff0_0000,
        0x1000,
        0xe_0000,
        0xfff0_0000,
        0x1_0000_0000,
        0xffff_ffff_fff0_0000,
        0xffff_ffff_fff0_0000,
    ]);
    if !wide {
        base %= 1 << 32;
    }
    let mut pieces = Vec::new();
    let mut ranges: Vec<[u64; 3]> = Vec::new();
    let mut image = Vec::new();
    let mut order: Vec<usize> = (0..bytes.len()).collect();
    random.shuffle(&mut order);
    pieces.resize(
        bytes.len(),
        Piece {
            role: Role::Table,
            address: 0,
            offset: 0,
            length: 0,
        },
    );
    let mut address = base;
    for place in order {
        // With one range the addresses follow the image; with many they have gaps, and some
        // ranges touch.
        let gap = random.of(&[0, 0, 1, 7, 16, 64]);
        image.resize(image.len() + gap, 0);
        address += if one_range { gap } else { random.of(&[0, 1, 64, 0x1000]) } as u64;
        let role = [Role::Pointer, Role::Root, Role::Table][place.min(2)];
        let length = bytes[place].len();
        pieces[place] = Piece {
            role,
            address,
            offset: image.len(),
            length,
        };
        image.extend(&bytes[place]);
        if !one_range {
            ranges.push([address, length as u64, pieces[place].offset as u64]);
        }
        address += length as u64;
    }
    if one_range {
        image.resize(image.len() + random.of(&[0, 0, 1, 64]), 0);
        ranges.push([base, image.len() as u64, 0]);
    }
    // Some images end where the address space ends.
    if base > 1 << 63 && random.once_in(2) {
        let end = ranges.last().map_or(0, |range| range[0].wrapping_add(range[1]));
        let shift = end.wrapping_neg();
        for range in &mut ranges {
            range[0] = range[0].wrapping_add(shift);
        }
        for piece in &mut pieces {
            piece.address = piece.address.wrapping_add(shift);
        }
    }

    // The addresses in pointer, root and FADT, then the sums that they change.
    let (pointer_place, root_place) = (pieces[0].clone(), pieces[1].clone());
    let root_address = root_place.address;
    let at = pointer_place.offset;
    put(&mut image, at + 16, 4, if wide { random.next() } else { root_address });
    put(&mut image, at + 24, 8, root_address);
    fix_sum(&mut image[at..at + 20], 8);
    if wide {
        // The second checksum stands at 32; a shorter pointer has only the first one.
        let fix = if pointer_length > 32 { 32 } else { 8 };
        fix_sum(&mut image[at..at + pointer_length as usize], fix);
    }
    for k in 0..listed {
        let entry = pieces[2 + k].address;
        put(&mut image, root_place.offset + 36 + k * entry_size, entry_size, entry);
    }
    if rest > 0 && random.once_in(2) {
        let entry = pieces[2 + random.below(listed + 1)].address;
        put(&mut image, root_place.offset + 36 + listed * entry_size, rest, entry);
    }
    fix_sum(&mut image[root_place.offset..root_place.offset + root_place.length], 9);
    let dsdt_address = pieces[pieces.len() - 1].address;
    for piece in &pieces[2..] {
        let table = &mut image[piece.offset..piece.offset + piece.length];
        if &table[..4] == b"FACP" && (tame || !random.once_in(6)) {
            let valid = table.iter().fold(0u8, |sum, byte| sum.wrapping_add(*byte)) == 0;
            put(table, 40, 4, if dsdt_address < 1 << 32 { dsdt_address } else { 0 });
            if table.len() >= 148 {
                put(
                    table,
                    140,
                    8,
                    if dsdt_address < 1 << 32 && random.once_in(2) {
                        0
                    } else {
                        dsdt_address
                    },
                );
            }
            if valid {
                fix_sum(table, 9);
            }
        }
    }
    Case {
        image,
        ranges: ranges.concat(),
        pointer: pointer_place.address,
        pieces,
        search: false,
    }
}

// Damage.

/// Makes the bytes of the stated length sum to 0, where that is possible.
fn fix_piece(case: &mut Case, piece: &Piece) {
    let seen = &mut case.image[piece.offset..];
    let (length, at) = match piece.role {
        Role::Pointer if seen[15] == 0 => (20, 8),
        Role::Pointer => (number(seen, 20, 4) as usize, 8),
        _ => (number(seen, 4, 4) as usize, 9),
    };
    if length > at && length <= seen.len() {
        fix_sum(&mut seen[..length], at);
    }
}

fn any_piece(case: &Case, random: &mut Random) -> Piece {
    let place = if random.once_in(6) {
        random.below(2)
    } else {
        random.below(case.pieces.len())
    };
    case.pieces[place].clone()
}

/// One of the first 64 bytes of a structure.
fn damage_byte(case: &mut Case, random: &mut Random) {
    let piece = any_piece(case, random);
    let byte = &mut case.image[piece.offset + random.below(piece.length.min(64))];
    *byte = match random.below(8) {
        0 => 0,
        1 => 1,
        2 => 0xff,
        3 => byte.wrapping_add(1),
        4 => byte.wrapping_sub(1),
        5 => *byte ^ 1 << random.below(8),
        _ => random.byte(),
    };
    if !random.once_in(3) {
        fix_piece(case, &piece);
    }
}

fn damage_length(case: &mut Case, random: &mut Random) {
    let piece = any_piece(case, random);
    let exact = piece.length as u64;
    if piece.role == Role::Pointer {
        let length = random.of(&[
            0,
            1,
            8,
            19,
            20,
            21,
            32,
            33,
            35,
            36,
            37,
            40,
            64,
            255,
            0x0100_0000,
            0xffff_ffff,
        ]);
        put(&mut case.image, piece.offset + 20, 4, length);
        if random.once_in(2) {
            case.image[piece.offset + 15] = 2;
        }
    } else {
        let length = random.of(&[
            0,
            1,
            2,
            9,
            10,
            35,
            36,
            37,
            43,
            44,
            55,
            56,
            115,
            116,
            127,
            128,
            129,
            131,
            147,
            148,
            243,
            244,
            267,
            268,
            exact - 1,
            exact,
            exact + 1,
            exact + 7,
            2 * exact,
            0xffff,
            0x7fff_ffff,
            0xffff_ffff,
        ]);
        put(&mut case.image, piece.offset + 4, 4, length);
    }
    if !random.once_in(3) {
        fix_piece(case, &piece);
    }
}

fn damage_entry(case: &mut Case, random: &mut Random) {
    let madts: Vec<Piece> = case
        .pieces
        .iter()
        .filter(|piece| &case.image[piece.offset..piece.offset + 4] == b"APIC")
        .cloned()
        .collect();
    if madts.is_empty() {
        return damage_length(case, random);
    }
    let piece = madts[random.below(madts.len())].clone();
    let mut entries = Vec::new();
    let mut at = 44;
    while at + 2 <= piece.length {
        entries.push(at);
        at += case.image[piece.offset + at + 1].max(2) as usize;
    }
    if entries.is_empty() {
        return damage_byte(case, random);
    }
    // The last entry is the one that can reach past the end.
    let at = if random.once_in(3) {
        entries[entries.len() - 1]
    } else {
        entries[random.below(entries.len())]
    };
    let left = (piece.length - at) as u8;
    let entry = &mut case.image[piece.offset + at..piece.offset + piece.length];
    let least = least_length(entry[0]) as u8;
    match random.below(4) {
        0 => {
            entry[0] = random.of(&[
                0, 1, 2, 3, 4, 5, 6, 7, 8, 9, 10, 11, 12, 13, 14, 15, 16, 17, 0x7f, 0x80, 0xff,
            ])
        }
        1 => entry[0] = random.byte(),
        _ => {
            let short = if random.once_in(4) { 0 } else { 3 };
            entry[1] = random.of(&[
                short,
                1,
                2,
                least - 1,
                least,
                least + 1,
                255,
                left,
                left.wrapping_add(1),
                entry[1].wrapping_add(1),
            ]);
        }
    }
    if !random.once_in(8) {
        fix_piece(case, &piece);
    }
}

fn damage_root_entry(case: &mut Case, random: &mut Random) {
    let root = case.pieces[1].clone();
    let size = if case.image[case.pieces[0].offset + 15] == 0 {
        4
    } else {
        8
    };
    if root.length < 36 + size {
        return damage_length(case, random);
    }
    let k = random.below((root.length - 36) / size);
    let near = case.pieces[random.below(case.pieces.len())].address;
    let entry = random.of(&[
        0,
        case.pointer,
        root.address,
        near,
        near.wrapping_add(1),
        near.wrapping_sub(1),
        u64::MAX,
        u64::MAX - 35,
        u64::MAX - 36,
    ]);
    put(&mut case.image, root.offset + 36 + k * size, size, entry);
    if !random.once_in(6) {
        fix_piece(case, &root);
    }
}

fn damage_ranges(case: &mut Case, random: &mut Random) {
    let count = case.ranges.len() / 3;
    if count == 0 {
        return;
    }
    let place = 3 * random.below(count);
    let (start, length, offset) = (case.ranges[place], case.ranges[place + 1], case.ranges[place + 2]);
    let cut = match random.below(3) {
        0 => random.below(40) as u64,
        // A border in the middle of a structure, or right at its end.
        _ => {
            let piece = &case.pieces[random.below(case.pieces.len())];
            let inside = random.of(&[0, 1, 19, 20, 35, 36, piece.length - 1, piece.length, piece.length + 1]) as u64;
            piece.address.wrapping_sub(start).wrapping_add(inside)
        }
    };
    let cut = cut.min(length);
    match random.below(12) {
        0..=3 => case.ranges[place + 1] = cut,
        4..=6 => {
            let rest = [start.wrapping_add(cut), length - cut, offset.wrapping_add(cut)];
            case.ranges[place + 1] = cut;
            case.ranges.splice(place + 3..place + 3, rest);
        }
        7 => {
            case.ranges.drain(place..place + 3);
        }
        8 => case.ranges[place + 1] = length.wrapping_add(random.of(&[1, 64, u64::MAX >> 1])),
        9 => case.ranges[place + 2] = random.of(&[1, offset.wrapping_add(1), u64::MAX, case.image.len() as u64]),
        10 => {
            if random.once_in(2) {
                case.ranges.pop();
            } else {
                let again = [start, length, offset];
                case.ranges.splice(place..place, again);
            }
        }
        // Empty ranges in front, up to 64 ranges or one more.
        _ => {
            let wanted = random.of(&[64, 64, 65]);
            let mut front = Vec::new();
            for k in 0..wanted - count.min(wanted) {
                front.extend([k as u64, 0, 0]);
            }
            case.ranges.splice(0..0, front);
        }
    }
}

// The areas of the search.

fn low_memory(random: &mut Random) -> Case {
    const DATA_AREA: u64 = 0x20800;
    const BIOS_AREA: u64 = 0x20010;
    let mut ranges = vec![
        0x400,
        0x100,
        0,
        0x80000,
        DATA_AREA,
        0x100,
        0xe0000,
        BIOS_AREA,
        0x100 + DATA_AREA,
    ];
    let mut image = vec![0; (0x100 + DATA_AREA + BIOS_AREA) as usize];
    let segment = random.of(&[0, 0x7fff, 0x8000, 0x8001, 0x9fc0, 0x9ffe, 0x9fff, 0xa000, 0xffff]);
    put(&mut image, 0xe, 2, segment);

    let offset_of = |address: u64| -> usize {
        let from = if address >= 0xe0000 {
            address - 0xe0000 + 0x100 + DATA_AREA
        } else {
            address - 0x80000 + 0x100
        };
        from as usize
    };
    let mut pieces = Vec::new();
    for _ in 0..random.of(&[0, 1, 1, 2, 2, 4]) {
        let start = if (0x8000..0xa000).contains(&segment) {
            segment * 16
        } else {
            0x80000
        };
        let address = match random.below(10) {
            0 => 0xe0000,
            1 => random.of(&[0xfffc0, 0xfffd0, 0xfffe0]),
            2 | 3 => 0xe0000 + 16 * random.below(0x1ff0) as u64,
            4 => start,
            5 => start + random.of(&[0x3c0, 0x3d0, 0x3e0]),
            6 => start + 16 * random.below(64) as u64,
            7 => random.of(&[0x80000, 0x9ffd0, 0x9ffe0]),
            8 => 0x80000 + 16 * random.below(0x1ff0) as u64,
            // Not a multiple of 16: never a candidate.
            _ => 0xe0008 + 16 * random.below(0x1ff0) as u64,
        };
        let offset = offset_of(address);
        let pointer = &mut image[offset..offset + 36];
        pointer.fill(0);
        pointer[..8].copy_from_slice(b"RSD PTR ");
        text(random, &mut pointer[9..15]);
        pointer[15] = random.of(&[0, 0, 2, 2, 1]);
        let length = random.of(&[36, 36, 36, 20, 33, 0, 19, 37, 48]);
        put(pointer, 20, 4, length);
        if pointer[15] == 0 {
            fix_sum(&mut pointer[..20], 8);
        } else if length > 8 {
            fix_sum(&mut image[offset..offset + length as usize], 8);
        }
        match random.below(6) {
            0 => image[offset + random.below(36)] ^= 1 << random.below(8),
            1 => image[offset + 9] = 0xff,
            _ => {}
        }
        pieces.push(Piece {
            role: Role::Pointer,
            address,
            offset,
            length: 36,
        });
    }
    match random.below(8) {
        // No word at 40e.
        0 => {
            ranges.drain(0..3);
        }
        // An area that is cut off, or not there.
        1 => ranges[7] = random.of(&[0, 20, 36, 0x1000, BIOS_AREA - 1, BIOS_AREA - 16, BIOS_AREA - 17]),
        2 => ranges[4] = random.of(&[0, 20, 36, 0x1000, 0x20000, 0x2000f, 0x20010]),
        // One byte of the word at 40e.
        3 => ranges[1] = random.of(&[0xe, 0xf, 0x10]),
        _ => {}
    }
    let pointer = pieces.first().map_or(0xe0000, |piece| piece.address);
    Case {
        image,
        ranges,
        pointer,
        pieces,
        search: true,
    }
}
