//! The two images of the tests: the sample of docs/TABLES.md, read from that page, and a board with
//! every kind of table, built here.
#![allow(dead_code)]

use tablewalk::Range;

pub const SAMPLE: u64 = 0x7ff0_0000;
pub const BOARD: u64 = 0x7fe0_0000;
pub const BOARD_ROOT_POINTER: u64 = 0xf_6010;

/// The sample's bytes, from the listing of docs/TABLES.md.
pub fn sample() -> Vec<u8> {
    let page = include_str!("../../../../docs/TABLES.md");
    let (_, section) = page
        .split_once("Sample\n")
        .expect("docs/TABLES.md has the sample");
    let mut image = vec![0; 316];
    let mut rows = 0;
    for row in section.lines().filter(|line| line.starts_with("    ")) {
        let mut words = row.split_whitespace();
        let offset = usize::from_str_radix(words.next().unwrap(), 16).unwrap();
        for (place, word) in words.enumerate() {
            image[offset + place] = u8::from_str_radix(word, 16).unwrap();
        }
        rows += 1;
    }
    assert_eq!(rows, 9);
    image
}

pub fn sample_ranges() -> [Range; 1] {
    [Range {
        physical_start: SAMPLE,
        length: 316,
        offset: 0,
    }]
}

/// Changes the byte at `checksum` so that the bytes sum to 0.
pub fn fix_sum(bytes: &mut [u8], checksum: usize) {
    bytes[checksum] = 0;
    let sum = bytes.iter().fold(0u8, |sum, byte| sum.wrapping_add(*byte));
    bytes[checksum] = 0u8.wrapping_sub(sum);
}

fn put(bytes: &mut [u8], at: usize, value: &[u8]) {
    bytes[at..at + value.len()].copy_from_slice(value);
}

/// A table with these pieces after its header, summed.
pub fn table(signature: &[u8; 4], revision: u8, length: usize, pieces: &[(usize, &[u8])]) -> Vec<u8> {
    let mut table = vec![0; length];
    put(&mut table, 0, signature);
    put(&mut table, 4, &(length as u32).to_le_bytes());
    table[8] = revision;
    put(&mut table, 10, b"ROWANSBLADE-07");
    for (at, piece) in pieces {
        put(&mut table, *at, piece);
    }
    fix_sum(&mut table, 9);
    table
}

#[rustfmt::skip]
pub const MADT_ENTRIES: [u8; 123] = [
    0, 8, 0, 0, 1, 0, 0, 0,
    0, 8, 1, 4, 0, 0, 0, 0,
    9, 16, 0, 0, 0, 1, 0, 0, 1, 0, 0, 0, 44, 1, 0, 0,
    1, 12, 8, 0, 0, 0, 0xc0, 0xfe, 0, 0, 0, 0,
    1, 12, 9, 0, 0, 0x10, 0xc0, 0xfe, 24, 0, 0, 0,
    2, 10, 0, 9, 9, 0, 0, 0, 13, 0,
    3, 8, 7, 0, 2, 0, 0, 0,
    4, 6, 1, 0, 0, 0,
    10, 12, 0, 0, 0xff, 0xff, 0xff, 0xff, 1, 0, 0, 0,
    5, 12, 0, 0, 0, 0, 0, 0, 1, 0, 0, 0,
    0x80, 3, 0,
    16, 16, 1, 0, 0, 0, 0, 0, 0, 0x20, 0xfe, 7, 0, 0, 0, 0,
];

/// The FADT of the board. Its DSDT stands at the end.
pub fn fadt() -> Vec<u8> {
    let dsdt = (BOARD + 0x500).to_le_bytes();
    table(
        b"FACP",
        6,
        276,
        &[
            (36, &[0, 0x10, 0xfe, 7]),
            (45, &[2, 9, 0, 0xb2, 0, 0, 0, 0xa0, 0xa1, 0xa2, 0xa3]),
            (64, &[4, 6]),
            (76, &[8, 6]),
            (88, &[4, 32, 0, 4]),
            (
                94,
                &[
                    0x10, 0x11, 0x13, 0x12, 0x15, 0x14, 0x17, 0x16, 0x19, 0x18, 0x1a, 0x1b, 0x1c, 0x1d, 0x32,
                ],
            ),
            (109, &[2, 0]),
            (112, &[5, 5, 0, 0]),
            (116, &[1, 8, 0, 1, 0xf9, 0x0c]),
            (128, &[0xf, 3, 0]),
            (140, &dsdt),
            (148, &[0, 32, 0, 3, 0, 6, 0, 0, 0xd0, 0x0f]),
            (220, &[11, 8, 0, 1, 0, 16]),
            (244, &[0x7f, 8, 1, 0]),
            (256, &[0xc1, 8, 2, 4, 5]),
        ],
    )
}

pub fn madt() -> Vec<u8> {
    table(
        b"APIC",
        5,
        44 + MADT_ENTRIES.len(),
        &[(36, &[0, 0, 0xe0, 0xfe]), (44, &MADT_ENTRIES)],
    )
}

/// The image with these tables, each at a multiple of 256 and in the root table, and its DSDT.
pub fn board_of(tables: &[Vec<u8>]) -> (Vec<u8>, [Range; 2]) {
    let mut image = vec![0; 0x100 * (tables.len() + 2)];
    image.resize(image.len().max(0x600), 0);
    let mut entries = Vec::new();
    for (k, table) in tables.iter().enumerate() {
        let at = 0x100 * (k + 1) + if k >= 4 { 0x100 } else { 0 };
        image.resize(image.len().max(at + 0x200), 0);
        put(&mut image, at, table);
        entries.extend_from_slice(&((BOARD + at as u64) as u32).to_le_bytes());
    }
    entries.extend_from_slice(&[1, 2, 3]);
    put(
        &mut image,
        0x40,
        &table(b"RSDT", 1, 36 + entries.len(), &[(36, &entries)]),
    );
    put(&mut image, 0x500, &table(b"DSDT", 2, 40, &[(36, &[1, 2, 3, 4])]));

    let mut pointer = [0; 20];
    put(&mut pointer, 0, b"RSD PTR ");
    put(&mut pointer, 9, b"ROWANS");
    put(&mut pointer, 16, &((BOARD + 0x40) as u32).to_le_bytes());
    fix_sum(&mut pointer, 8);
    put(&mut image, 16, &pointer);

    let length = image.len() as u64;
    let ranges = [
        Range {
            physical_start: BOARD_ROOT_POINTER - 16,
            length: 36,
            offset: 0,
        },
        Range {
            physical_start: BOARD,
            length,
            offset: 0,
        },
    ];
    (image, ranges)
}

/// The image with one table of every kind and three SSDTs, the first of them broken.
pub fn board() -> (Vec<u8>, [Range; 2]) {
    let mut broken = table(b"SSDT", 2, 40, &[]);
    broken[39] += 1;
    // A FADT has more than 256 bytes, so it comes last.
    let mcfg: [(usize, &[u8]); 2] = [
        (44, &[0, 0, 0, 0xe0, 0, 0, 0, 0, 0, 0, 0, 127]),
        (60, &[0, 0, 0, 0, 0x80, 0, 0, 0, 1, 0, 16, 255]),
    ];
    let hpet: [(usize, &[u8]); 2] = [
        (36, &[0x01, 0xa2, 0x86, 0x80, 0, 64, 0, 0, 0, 0, 0xd0, 0xfe]),
        (52, &[3, 0x80, 0, 0x52]),
    ];
    board_of(&[
        madt(),
        table(b"MCFG", 1, 81, &mcfg),
        table(b"HPET", 1, 56, &hpet),
        broken,
        table(b"SSDT", 2, 41, &[]),
        table(b"SSDT", 2, 36, &[]),
        fadt(),
    ])
}
