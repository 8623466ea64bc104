//! The sample image of docs/TABLES.md, and each of its bytes damaged.

use crate::describe::{fix_sum, Case, Piece, Role};

const LISTING: &str = include_str!("../sample.txt");
const BASE: u64 = 0x7ff0_0000;
const LENGTH: usize = 0x13c;

pub fn sample() -> Case {
    let mut image = vec![0; LENGTH];
    for row in LISTING.lines() {
        let mut words = row
            .split_whitespace()
            .map(|word| usize::from_str_radix(word, 16).expect("a number"));
        if let Some(offset) = words.next() {
            for (place, byte) in words.enumerate() {
                image[offset + place] = byte as u8;
            }
        }
    }
    let piece = |role, offset: usize, length| Piece {
        role,
        address: BASE + offset as u64,
        offset,
        length,
    };
    let pieces = vec![
        piece(Role::Pointer, 0x000, 36),
        piece(Role::Root, 0x040, 52),
        piece(Role::Table, 0x080, 88),
        piece(Role::Table, 0x100, 60),
    ];
    Case {
        image,
        ranges: vec![BASE, LENGTH as u64, 0],
        pointer: BASE,
        pieces,
        search: false,
    }
}

/// The sample, and every byte of its four structures set to some other values, with the sum
/// put right and not.
pub fn cases() -> Vec<Case> {
    let sample = sample();
    let mut cases = vec![sample.clone()];
    for piece in &sample.pieces {
        for at in 0..piece.length {
            let old = sample.image[piece.offset + at];
            for new in [
                0,
                1,
                2,
                0x23,
                0xff,
                old.wrapping_add(1),
                old.wrapping_sub(1),
                old ^ 0x80,
            ] {
                for fixed in [false, true] {
                    let mut case = sample.clone();
                    case.image[piece.offset + at] = new;
                    let sum = if piece.role == Role::Pointer { 8 } else { 9 };
                    if fixed && at != sum {
                        fix_sum(&mut case.image[piece.offset..piece.offset + piece.length], sum);
                    }
                    cases.push(case);
                }
            }
        }
    }
    cases
}
