//! Makes an image on which the readers disagree smaller, as long as they still disagree,
//! and prints it.

use crate::{
    apart::Arena,
    compare::{ask, Counts, Disagreement},
    describe::{fix_sum, Case, Role},
    plain::number,
    question::Question,
};

/// Whether the same reader still disagrees about the same question.
fn still(case: &Case, found: &Disagreement, arena: &mut Arena) -> bool {
    if let Question::Table(at, length, _) = found.question {
        if at + length > case.image.len() {
            return false;
        }
    }
    let bytes = arena.load(&case.image);
    match ask(
        &case.image,
        bytes,
        &case.ranges,
        &found.question,
        &mut Counts::default(),
        false,
        0,
    ) {
        Err(again) => again.who == found.who,
        Ok(_) => false,
    }
}

/// Makes every structure sum to 0 whose stated length is in the image.
fn fix_all(case: &mut Case) {
    for piece in &case.pieces {
        let seen = &mut case.image[piece.offset..];
        let (length, at) = match piece.role {
            Role::Pointer if seen[15] == 0 => (20, 8),
            Role::Pointer => (number(seen, 20, 4) as usize, 8),
            _ => (number(seen, 4, 4) as usize, 9),
        };
        if length > at && length <= seen.len() {
            fix_sum(&mut seen[..length], at);
        }
    }
}

pub fn shrink(case: &Case, found: &Disagreement, arena: &mut Arena) -> Case {
    let mut best = case.clone();
    let mut accept = |best: &mut Case, smaller: Case| {
        let keeps = still(&smaller, found, arena);
        if keeps {
            *best = smaller;
        }
        keeps
    };

    // Fewer ranges.
    let mut place = 0;
    while place + 3 <= best.ranges.len() {
        let mut smaller = best.clone();
        smaller.ranges.drain(place..place + 3);
        if !accept(&mut best, smaller) {
            place += 3;
        }
    }
    // A shorter image.
    let mut step = best.image.len() / 2;
    while step > 0 {
        let reach = |case: &Case| case.pieces.iter().map(|piece| piece.offset + 36).max().unwrap_or(0);
        if best.image.len() >= reach(&best) + step {
            let mut smaller = best.clone();
            smaller.image.truncate(best.image.len() - step);
            if accept(&mut best, smaller) {
                continue;
            }
        }
        step /= 2;
    }
    // Fewer root entries: the root table loses its last ones.
    let size = if best.pieces.is_empty() || best.image[best.pieces[0].offset + 15] == 0 {
        4
    } else {
        8
    };
    while best.pieces.len() > 1 && best.pieces[1].role == Role::Root {
        let at = best.pieces[1].offset;
        let length = number(&best.image, at + 4, 4);
        if length < 36 + size as u64 || length > 4096 {
            break;
        }
        let mut smaller = best.clone();
        smaller.image[at + 4..at + 8].copy_from_slice(&(length as u32 - size as u32).to_le_bytes());
        fix_all(&mut smaller);
        if !accept(&mut best, smaller) {
            break;
        }
    }
    // Zeros instead of bytes, with the sums as they come out or put right.
    let mut block = 64;
    while block > 0 {
        for at in (0..best.image.len()).step_by(block) {
            let end = (at + block).min(best.image.len());
            if best.image[at..end].iter().all(|byte| *byte == 0) {
                continue;
            }
            let mut smaller = best.clone();
            smaller.image[at..end].fill(0);
            if !accept(&mut best, smaller.clone()) {
                fix_all(&mut smaller);
                accept(&mut best, smaller);
            }
        }
        block /= 4;
    }
    best
}

pub fn print(case: &Case, found: &Disagreement) {
    println!("  question  {:x?}", found.question);
    println!("  plain     {:x?}", found.plain);
    println!("  {:9} {}", found.who, found.what);
    print_image(case);
}

pub fn print_image(case: &Case) {
    println!("  ranges    start, length, offset:");
    for range in case.ranges.chunks(3) {
        println!("            {range:x?}");
    }
    println!("  image     {:#x} bytes, the rest zero:", case.image.len());
    for (row, bytes) in case.image.chunks(16).enumerate() {
        if bytes.iter().any(|byte| *byte != 0) {
            let hex: Vec<String> = bytes.iter().map(|byte| format!("{byte:02x}")).collect();
            println!("            {:05x}  {}", row * 16, hex.join(" "));
        }
    }
}
