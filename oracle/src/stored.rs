//! Images that stand in files: the cases of tests/reference/make_cases.py, with the answers
//! of the reading there, and dumps that `acpidump` writes.

use crate::{
    apart::{self, Arena},
    compare::{self, Counts, Disagreement},
    describe::{Case, Piece, Role},
    plain::Memory,
    question::{Answer, Question},
    random::Random,
};

/// Reads numbers one after the other, lowest byte first.
struct Words<'a>(&'a [u8]);

impl Words<'_> {
    fn take(&mut self, size: usize) -> Result<u64, String> {
        if self.0.len() < size {
            return Err("the file ends too early".into());
        }
        let (front, rest) = self.0.split_at(size);
        self.0 = rest;
        Ok(crate::plain::number(front, 0, size))
    }

    fn list(&mut self, size: usize) -> Result<Vec<u64>, String> {
        let count = self.take(4)?;
        (0..count).map(|_| self.take(size)).collect()
    }
}

fn question(number: u64, arguments: &[u64]) -> Result<Question, String> {
    Ok(match (number, arguments) {
        (1, []) => Question::Ranges,
        (2, [address]) => Question::Pointer(*address),
        (3, []) => Question::Search,
        (4, [pointer]) => Question::Root(*pointer),
        (5, [pointer, k]) => Question::Entry(*pointer, *k),
        (6, [pointer, signature, least]) => Question::Find {
            pointer: *pointer,
            signature: *signature as u32,
            least: *least as u32,
            n: 0,
        },
        (7, [pointer, signature, least, n]) => Question::Find {
            pointer: *pointer,
            signature: *signature as u32,
            least: *least as u32,
            n: *n,
        },
        (8, [pointer, n]) => Question::Header(*pointer, *n),
        (9, [address, signature, least]) => Question::TableAt {
            address: *address,
            signature: *signature as u32,
            least: *least as u32,
        },
        (10, [address]) => Question::AnyTableAt(*address),
        _ => {
            return Err(format!(
                "question {number} with {} arguments is not known",
                arguments.len()
            ))
        }
    })
}

/// Asks every stored question, and holds the plain reading to the stored answer too.
pub fn replay(bytes: &[u8], counts: &mut Counts) -> Result<(), String> {
    let mut arena = Arena::new();
    let mut words = Words(bytes);
    let mut image = Vec::new();
    let mut ranges = Vec::new();
    loop {
        match words.take(4)? {
            0 => return Ok(()),
            1 => {
                ranges = words.list(8)?;
                image = words.list(1)?.iter().map(|byte| *byte as u8).collect();
                words.take(image.len().wrapping_neg() % 4)?;
            }
            2 => {
                let number = words.take(4)?;
                let patches: Vec<(u64, u64)> = {
                    let count = words.take(4)?;
                    (0..count)
                        .map(|_| Ok((words.take(4)?, words.take(4)?)))
                        .collect::<Result<_, String>>()?
                };
                let arguments = words.list(8)?;
                let answer = words.take(4)? as u32;
                let values = words.list(8)?;
                let stored: Answer = if answer == 0 { Ok(values) } else { Err(answer) };

                let question = question(number, &arguments)?;
                let mut image = image.clone();
                for (offset, byte) in patches {
                    image[offset as usize] = byte as u8;
                }
                apart::budget(crate::BUDGET);
                counts.cases += 1;
                let plain = Memory {
                    image: &image,
                    ranges: &ranges,
                }
                .ask(&question);
                if plain != stored {
                    counts.failures += 1;
                    println!("{question:x?}: stored {stored:x?}, plain {plain:x?}");
                }
                let bytes = arena.load(&image);
                let sparingly = counts.cases % crate::ASK_ONE_IN != 0;
                let turn = counts.cases;
                if let Err(Disagreement { what, who, .. }) =
                    compare::ask(&image, bytes, &ranges, &question, counts, sparingly, turn)
                {
                    counts.failures += 1;
                    println!("{question:x?}: plain {plain:x?}, {who}: {what}");
                }
            }
            kind => return Err(format!("there is no record of kind {kind}")),
        }
    }
}

/// A dump as `acpidump` writes it: each block is a range.
fn dump(text: &str) -> Result<Case, String> {
    let mut blocks: Vec<(String, u64, Vec<u8>)> = Vec::new();
    for line in text.lines() {
        if let Some((name, address)) = line.split_once(" @ 0x") {
            let address = u64::from_str_radix(address.trim(), 16).map_err(|_| format!("no address in '{line}'"))?;
            blocks.push((name.trim().to_string(), address, Vec::new()));
        } else if let (Some((_, bytes)), Some(block)) = (line.split_once(": "), blocks.last_mut()) {
            // The bytes, up to the column of the text beside them.
            for byte in bytes.get(..47).unwrap_or(bytes).split_whitespace() {
                let value = u8::from_str_radix(byte, 16).map_err(|_| format!("no byte '{byte}' in '{line}'"))?;
                block.2.push(value);
            }
        }
    }
    blocks.sort_by_key(|block| block.1);
    blocks.dedup_by_key(|block| block.1);
    let mut case = Case {
        image: vec![],
        ranges: vec![],
        pointer: 0,
        pieces: vec![],
        search: false,
    };
    for (name, address, bytes) in blocks {
        let pointer = name.starts_with("RSD");
        if pointer {
            case.pointer = address;
        }
        let role = if pointer { Role::Pointer } else { Role::Table };
        let piece = Piece {
            role,
            address,
            offset: case.image.len(),
            length: bytes.len(),
        };
        case.ranges
            .extend([address, bytes.len() as u64, case.image.len() as u64]);
        case.image.extend(bytes);
        case.pieces.push(piece);
    }
    if case.pieces.iter().all(|piece| piece.role != Role::Pointer) {
        return Err("there is no root pointer in it".into());
    }
    Ok(case)
}

/// Compares the image of a file, whichever of the two kinds it is.
pub fn compare_file(path: &str, counts: &mut Counts) -> Result<(), String> {
    let bytes = std::fs::read(path).map_err(|fault| fault.to_string())?;
    let Some(text) = std::str::from_utf8(&bytes).ok().filter(|text| text.contains(" @ 0x")) else {
        return replay(&bytes, counts);
    };
    let case = dump(text)?;
    let mut arena = Arena::new();
    // The arguments are chosen at random, so a dump is asked about more than once.
    for round in 0..64 {
        let mut random = Random::new(0, round);
        crate::compare_one(&case, path, round != 0, &mut arena, counts, &mut random);
    }
    Ok(())
}
