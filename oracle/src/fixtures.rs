//! For each listed difference the smallest image that shows it, with what the crate does
//! there and what the library does. docs/DIFFERENCES.md describes the same images.

use crate::{
    apart::{self, Arena},
    compare::{ask, Counts, Seen},
    describe::{fix_sum, Case, Piece, Role},
    listed::{self, Switches},
    plain::Memory,
    question::*,
    sample::sample,
    shrink,
};

pub struct Fixture {
    pub number: u32,
    pub case: Case,
    pub question: Question,
    pub ours: Answer,
    pub crates: Outcome,
}

fn put(image: &mut [u8], at: usize, value: u64, size: usize) {
    image[at..at + size].copy_from_slice(&value.to_le_bytes()[..size]);
}

/// The sample with some bytes changed and the sum of one structure put right.
fn changed(changes: &[(usize, u8)], fixed: Option<usize>) -> Case {
    let mut case = sample();
    for (at, byte) in changes {
        case.image[*at] = *byte;
    }
    if let Some(place) = fixed {
        let piece = case.pieces[place].clone();
        let field = if piece.role == Role::Pointer { 20 } else { 4 };
        let length = crate::plain::number(&case.image, piece.offset + field, 4) as usize;
        let sum = if piece.role == Role::Pointer { 8 } else { 9 };
        if length > sum {
            fix_sum(&mut case.image[piece.offset..piece.offset + length], sum);
        }
    }
    case
}

const BASE: u64 = 0x7ff0_0000;

/// A root pointer and an XSDT that lists these tables, one range over all.
fn machine(tables: &[Vec<u8>]) -> Case {
    let mut case = sample();
    case.image.truncate(0x40);
    case.pieces.truncate(1);
    let root_length = 36 + 8 * tables.len();
    let mut root = vec![0; root_length];
    root[..4].copy_from_slice(b"XSDT");
    put(&mut root, 4, root_length as u64, 4);
    let mut at = (0x40 + root_length).next_multiple_of(16);
    let mut rest = Vec::new();
    case.pieces.push(Piece {
        role: Role::Root,
        address: BASE + 0x40,
        offset: 0x40,
        length: root_length,
    });
    for (k, table) in tables.iter().enumerate() {
        put(&mut root, 36 + 8 * k, BASE + at as u64, 8);
        let mut table = table.clone();
        let length = crate::plain::number(&table, 4, 4) as usize;
        if length > 9 && length <= table.len() {
            fix_sum(&mut table[..length], 9);
        }
        case.pieces.push(Piece {
            role: Role::Table,
            address: BASE + at as u64,
            offset: at,
            length: table.len(),
        });
        rest.push((at, table.clone()));
        at = (at + table.len()).next_multiple_of(16);
    }
    fix_sum(&mut root, 9);
    case.image.extend(root);
    for (at, table) in rest {
        case.image.resize(at, 0);
        case.image.extend(table);
    }
    case.ranges = vec![BASE, case.image.len() as u64, 0];
    case
}

fn table(signature: &[u8; 4], length: usize, revision: u8, fields: &[(usize, u64, usize)]) -> Vec<u8> {
    let mut bytes = vec![0; length];
    bytes[..4].copy_from_slice(signature);
    put(&mut bytes, 4, length as u64, 4);
    bytes[8] = revision;
    for (at, value, size) in fields {
        put(&mut bytes, *at, *value, *size);
    }
    bytes
}

fn madt(entries: &[&[u8]]) -> Vec<u8> {
    let mut bytes = table(b"APIC", 44, 4, &[]);
    bytes.extend(entries.concat());
    let length = bytes.len() as u64;
    put(&mut bytes, 4, length, 4);
    bytes
}

pub fn fixtures() -> Vec<Fixture> {
    let found = |values: &[u64]| Outcome::Answer(Ok(values.to_vec()));
    let refused = |number| Outcome::Answer(Err(number));
    let of = |ask| Question::Of(BASE, ask);
    let find = |signature, least| Question::Find {
        pointer: BASE,
        signature,
        least,
        n: 0,
    };
    let mut list = Vec::new();
    let mut add = |number, case: Case, question, ours: Answer, crates| {
        list.push(Fixture {
            number,
            case,
            question,
            ours,
            crates,
        });
    };

    add(
        1,
        changed(&[(0x14, 0)], None),
        Question::Pointer(BASE),
        Err(5),
        found(&[2, 0, 0, BASE + 0x40]),
    );

    // A root pointer of revision 0 in a range of 20 bytes.
    let mut short = sample();
    short.image.truncate(20);
    short.image[15] = 0;
    fix_sum(&mut short.image, 8);
    short.pieces.truncate(1);
    short.ranges = vec![BASE, 20, 0];
    add(
        2,
        short.clone(),
        Question::Pointer(BASE),
        Ok(vec![0, 20, 0, 0]),
        Outcome::Unmapped,
    );

    let mut low = short;
    low.ranges = vec![0xe0000, 20, 0];
    low.pointer = 0xe0000;
    low.pieces[0].address = 0xe0000;
    add(3, low, Question::Search, Ok(vec![0xe0000]), Outcome::Unmapped);

    let mut cut = changed(&[(0x40, 0)], None);
    cut.ranges[1] = 0x73;
    add(4, cut, Question::Root(BASE), Err(6), refused(7));

    add(
        5,
        changed(&[(0x44, 0)], None),
        Question::Root(BASE),
        Err(11),
        found(&[1, BASE + 0x40, 0x40, 0, 8]),
    );
    add(
        6,
        changed(&[(0x44, 0x30)], Some(1)),
        find(MCFG, 44),
        Err(12),
        found(&[BASE + 0x100, 0x100, 60]),
    );
    add(
        7,
        changed(&[(0x84, 0x23)], Some(2)),
        find(MADT, 44),
        Err(12),
        found(&[BASE + 0x80, 0x80, 0x23]),
    );

    let mut lost = sample();
    lost.image[0x64..0x6c].fill(0xff);
    fix_sum(&mut lost.image[0x40..0x74], 9);
    add(
        8,
        lost,
        find(MCFG, 44),
        Ok(vec![BASE + 0x100, 0x100, 60]),
        Outcome::Unmapped,
    );

    // An FADT whose DSDT has length 0. The DSDT stands behind the tables of the root.
    let mut empty = machine(&[table(b"FACP", 116, 1, &[])]);
    let dsdt = empty.image.len().next_multiple_of(16);
    let fadt = empty.pieces[2].clone();
    put(&mut empty.image, fadt.offset + 40, BASE + dsdt as u64, 4);
    fix_sum(&mut empty.image[fadt.offset..fadt.offset + 116], 9);
    empty.image.resize(dsdt, 0);
    empty.image.extend(table(b"DSDT", 36, 2, &[(4, 0, 4)]));
    empty.ranges[1] = empty.image.len() as u64;
    add(9, empty, Question::Dsdt(BASE), Err(11), Outcome::Panic);

    add(
        10,
        changed(&[(0x84, 0)], None),
        Question::Header(BASE, 0),
        Ok(vec![BASE + 0x100, 0x100, 60]),
        found(&[BASE + 0x80, 0x80, 0]),
    );
    add(
        11,
        sample(),
        of(Ask::PciAddress(0, 1, 32, 0)),
        Err(13),
        found(&[0xb010_0000]),
    );
    add(
        12,
        machine(&[table(b"HPET", 56, 1, &[(40, 1, 1)])]),
        of(Ask::Hpet),
        Err(14),
        Outcome::Panic,
    );

    let gpe0 = table(b"FACP", 116, 1, &[(80, 0x600, 4), (92, 32, 1)]);
    add(
        13,
        machine(&[gpe0]),
        of(Ask::FadtRegister(6)),
        Ok(vec![1, 256, 0, 0, 0x600]),
        Outcome::Panic,
    );
    let wide = table(b"FACP", 116, 2, &[(40, 0x7000, 4)]);
    add(14, machine(&[wide]), of(Ask::FadtNumber(1)), Err(11), found(&[0x7000]));
    let reset = table(b"FACP", 116, 1, &[]);
    add(
        15,
        machine(&[reset]),
        of(Ask::FadtRegister(8)),
        Err(11),
        found(&[0, 0, 0, 0, 0]),
    );
    let sleep = table(b"FACP", 244, 2, &[]);
    add(
        16,
        machine(&[sleep]),
        of(Ask::FadtRegister(9)),
        Err(11),
        found(&[0, 0, 0, 0, 0]),
    );

    let controller: &[u8] = &[1, 12, 0, 0, 0, 0, 0xc0, 0xfe, 0, 0, 0, 0];
    let wrong_bus: &[u8] = &[2, 10, 1, 0, 0, 0, 0, 0, 0, 0];
    let foreign: &[u8] = &[6, 2];
    add(
        17,
        machine(&[madt(&[wrong_bus, foreign])]),
        of(Ask::Model),
        Err(15),
        refused(16),
    );
    add(
        18,
        machine(&[madt(&[controller])]),
        of(Ask::Model),
        Err(15),
        Outcome::Panic,
    );
    add(
        19,
        changed(&[(0xd3, 0)], Some(2)),
        of(Ask::Model),
        Err(15),
        Outcome::Hang,
    );
    add(
        20,
        machine(&[madt(&[&[11, 2]])]),
        of(Ask::Model),
        Err(15),
        Outcome::Panic,
    );
    add(
        23,
        Case {
            ranges: vec![],
            ..sample()
        },
        Question::Pointer(BASE),
        Err(2),
        Outcome::Unmapped,
    );
    // A MADT without entries.
    let unknown = table(b"APIC", 44, 4, &[(36, 0xfee0_0000, 4), (40, 1, 4)]);
    add(
        24,
        machine(&[unknown]),
        of(Ask::Model),
        Ok(vec![0, 0xfee0_0000, 1, 0, 0, 0, 0, 0]),
        found(&[0; 8]),
    );
    list
}

/// Tests each fixture, and prints the images where that is wished. Says how many do not
/// show what the list says.
pub fn check(print: bool) -> u64 {
    let mut arena = Arena::new();
    let mut failures = 0;
    for fixture in fixtures() {
        let Fixture {
            number,
            case,
            question,
            ours,
            crates,
        } = &fixture;
        let bytes = arena.load(&case.image);
        let plain = Memory {
            image: &case.image,
            ranges: &case.ranges,
        }
        .ask(question);
        let outcome = apart::ask(bytes, &case.ranges, question);
        let why = listed::explain(bytes, &case.image, &case.ranges, question, &outcome, Switches::NONE);
        let mut counts = Counts::default();
        let compared = ask(&case.image, bytes, &case.ranges, question, &mut counts, false, 0);
        let right = plain == *ours
            && outcome == *crates
            && why == Some(Switches::NONE.with(*number))
            && matches!(compared, Ok(Seen::Explained(_)));
        if print {
            println!("D{number}: {question:x?}, the crate: {crates:x?}, ours: {ours:x?}");
            shrink::print_image(case);
        }
        if !right {
            failures += 1;
            println!(
                "D{number} is not as listed: plain {plain:x?}, crate {outcome:x?}, explained by {why:?}, {compared:x?}"
            );
        }
    }
    failures
}
