//! Asks all readers the same questions about one image and says where they disagree.

use crate::{
    apart::{self, Arena},
    describe::Case,
    listed::{self, Listed, Switches},
    plain::Memory,
    published::Machine,
    question::*,
    random::Random,
};

/// How many cases that failed are printed.
pub const PRINT: usize = 5;

/// What a comparison counts. It stands in memory that processes share.
#[derive(Clone, Copy, Default)]
#[repr(C)]
pub struct Counts {
    pub cases: u64,
    pub questions: u64,
    pub library_same: u64,
    pub crate_asked: u64,
    pub crate_same: u64,
    pub crate_consistent_cases: u64,
    pub no_counterpart: u64,
    pub panics: u64,
    pub unmapped: u64,
    pub hangs: u64,
    pub crashes: u64,
    /// Not asked, since enough questions that hang or crash were.
    pub foretold: u64,
    pub failures: u64,
    pub by_difference: [u64; 32],
    /// The differences that explained the last question about this case.
    pub reason: u64,
    /// The next case of a worker, and where its share of the cases ends.
    pub next: u64,
    pub end: u64,
    /// The first cases at which this worker failed, and how many of them are listed here.
    pub failed: [u64; PRINT],
    pub listed: usize,
}

impl Counts {
    pub fn add(&mut self, other: &Counts) {
        self.cases += other.cases;
        self.questions += other.questions;
        self.library_same += other.library_same;
        self.crate_asked += other.crate_asked;
        self.crate_same += other.crate_same;
        self.crate_consistent_cases += other.crate_consistent_cases;
        self.no_counterpart += other.no_counterpart;
        self.panics += other.panics;
        self.unmapped += other.unmapped;
        self.hangs += other.hangs;
        self.crashes += other.crashes;
        self.foretold += other.foretold;
        self.failures += other.failures;
        for (mine, other) in self.by_difference.iter_mut().zip(other.by_difference) {
            *mine += other;
        }
    }

    /// Lists a case that failed.
    pub fn fail_at(&mut self, number: u64) {
        if self.listed < PRINT {
            self.failed[self.listed] = number;
            self.listed += 1;
        }
    }
}

/// A disagreement that no listed difference explains.
#[derive(Clone, Debug)]
pub struct Disagreement {
    pub question: Question,
    pub plain: Answer,
    pub what: String,
    /// Who is at odds: the library, the list of differences or the crate.
    pub who: &'static str,
}

/// What a question showed where nothing is left to be explained.
#[derive(Clone, Copy, Debug, PartialEq)]
pub enum Seen {
    /// The crate's answer is the plain reading's.
    Same,
    /// The crate has no such question.
    NoCounterpart,
    /// These listed differences explain what the crate did.
    Explained(Switches),
}

/// The questions about one image. Some arguments are chosen at random, some from what the
/// plain reading says is there.
pub fn questions(case: &Case, random: &mut Random) -> Vec<Question> {
    let pointer = case.pointer;
    let mut list = vec![Question::Ranges, Question::Pointer(pointer)];
    if case.search {
        list.push(Question::Search);
        list.extend(case.pieces.iter().map(|piece| Question::Pointer(piece.address)));
        return list;
    }
    let memory = Memory {
        image: &case.image,
        ranges: &case.ranges,
    };
    let of = |ask| Question::Of(pointer, ask);
    list.push(Question::Root(pointer));

    let entries = if memory.ranges_right() {
        memory.root(pointer).map_or(0, |root| root.entries.len())
    } else {
        0
    };
    for k in [0, random.below(entries + 1), entries.max(1) - 1, entries, entries + 1] {
        list.push(Question::Entry(pointer, k as u64));
    }
    list.push(Question::Entry(pointer, u64::MAX));
    for signature in listed::KNOWN {
        let signature = u32::from_le_bytes(*signature);
        let least = match signature {
            FADT => 116,
            MADT | MCFG => 44,
            HPET => 56,
            _ => 36,
        };
        list.push(Question::Find {
            pointer,
            signature,
            least,
            n: 0,
        });
    }
    for n in [1, 2, u64::MAX] {
        let signature = random.of(&[SSDT, MADT, FADT]);
        list.push(Question::Find {
            pointer,
            signature,
            least: random.of(&[0, 36, 100, 0xffff_ffff]),
            n,
        });
    }
    for n in [0, 1, random.below(entries + 1) as u64, u64::MAX] {
        list.push(Question::Header(pointer, n.min(1 << 40)));
    }
    list.push(Question::Dsdt(pointer));
    for n in [0, 1, 2] {
        list.push(Question::Ssdt(pointer, n));
    }
    for _ in 0..3 {
        let piece = &case.pieces[random.below(case.pieces.len())];
        let address = piece.address.wrapping_add(random.once_in(64) as u64);
        let seen = memory_signature(case, piece.offset);
        list.push(Question::TableAt {
            address,
            signature: seen,
            least: random.of(&[0, 36, 44, 300]),
        });
        list.push(Question::AnyTableAt(address));
    }

    // One table, found and handed over.
    let mut asks = vec![
        Ask::Hpet,
        Ask::McfgCount,
        Ask::FadtFixed,
        Ask::MadtFixed,
        Ask::Model,
        Ask::Mailbox,
    ];
    for k in [0, 1, random.below(8) as u64, u64::MAX] {
        asks.push(Ask::McfgEntry(k.min(1 << 40)));
        asks.push(Ask::MadtEntry(k));
    }
    for _ in 0..4 {
        asks.push(Ask::PciAddress(
            random.of(&[0, 0, 0, 1, 2, 0xffff]),
            random.of(&[0, 1, 63, 64, 127, 128, 255]),
            if random.once_in(32) {
                random.of(&[32, 255])
            } else {
                random.of(&[0, 3, 31])
            },
            if random.once_in(32) {
                random.of(&[8, 255])
            } else {
                random.of(&[0, 1, 7])
            },
        ));
    }
    for which in 0..=11 {
        asks.push(Ask::FadtRegister(which));
    }
    for which in 0..=5 {
        asks.push(Ask::FadtNumber(which));
    }
    for ask in &asks {
        list.push(of(*ask));
    }
    list.push(Question::Entries(pointer));
    list.push(Question::Platform(pointer));
    // The lists, into buffers that are just long enough, longer, and too short.
    let needed = match memory.ask(&of(Ask::Lists([usize::MAX; 5]))) {
        Ok(values) => lengths(&values),
        Err(_) => [8; 5],
    };
    let which = random.below(5);
    let mut short = needed;
    short[which] = short[which].saturating_sub(1 + random.below(3));
    let more = needed.map(|length| length + random.below(3));
    for rooms in [needed, more, short] {
        list.push(of(Ask::Lists(rooms)));
    }

    for _ in 0..2 {
        let piece = &case.pieces[random.below(case.pieces.len())];
        let room = case.image.len() - piece.offset;
        let length = random.of(&[
            0,
            35,
            36,
            43,
            44,
            55,
            56,
            115,
            116,
            piece.length,
            piece.length,
            piece.length,
            piece.length + 1,
        ]);
        let length = length.min(room);
        for ask in &asks {
            if table_of(ask).0 == memory_signature(case, piece.offset) || random.once_in(16) {
                list.push(Question::Table(piece.offset, length, *ask));
            }
        }
        list.push(Question::Table(piece.offset, length, Ask::Lists(needed)));
    }
    list
}

fn memory_signature(case: &Case, offset: usize) -> u32 {
    crate::plain::number(&case.image, offset, 4) as u32
}

/// The length of each of the five lists of an answer.
fn lengths(values: &[u64]) -> [usize; 5] {
    let mut lengths = [0; 5];
    let mut at = 0;
    for length in &mut lengths {
        *length = values[at] as usize;
        at += 1 + *length;
    }
    lengths
}

/// How the plain answer looks to one who sees what the crate tells.
fn as_the_crate_tells(question: &Question, answer: &Answer) -> Outcome {
    match (question, answer) {
        // It does not tell how many entries the root table has.
        (Question::Root(_), Ok(values)) => Outcome::Answer(Ok(values[..5].to_vec())),
        _ => Outcome::Answer(answer.clone()),
    }
}

/// Asks all readers one question. `sparingly` says whether a question that will hang or
/// crash is not worth a process of its own this time. Some tests are made at some turns
/// only: at turn 0 all of them.
pub fn ask(
    image: &[u8],
    bytes: &[u8],
    ranges: &[u64],
    question: &Question,
    counts: &mut Counts,
    sparingly: bool,
    turn: u64,
) -> Result<Seen, Disagreement> {
    let memory = || Memory { image, ranges };
    let plain = memory().ask(question);
    counts.questions += 1;
    let disagree = |who: &'static str, what: String| Disagreement {
        question: *question,
        plain: plain.clone(),
        what,
        who,
    };

    #[cfg(library)]
    if !matches!(question, Question::Entries(_)) {
        // A buffer that is one number short is refused with 17 where nothing smaller applies.
        for short in [false, true] {
            let full = match question {
                Question::Ranges | Question::Of(_, Ask::Lists(_)) | Question::Table(_, _, Ask::Lists(_)) if short => {
                    continue
                }
                _ => plain.as_ref().map_or(1, |values| values.len()),
            };
            if short && turn % 8 != 0 {
                continue;
            }
            let room = if short { Some(full - 1) } else { None };
            let wanted = match &plain {
                Ok(_) if short => Err(17),
                Err(number) if short && *number > 17 => continue,
                other => other.clone(),
            };
            match crate::library::ask(image, ranges, question, room) {
                Ok(answer) if answer == wanted => {}
                Ok(answer) => return Err(disagree("library", format!("library {answer:x?}, wanted {wanted:x?}"))),
                Err(fault) => return Err(disagree("library", fault)),
            }
        }
        counts.library_same += 1;
    }

    if !memory().ranges_right() {
        counts.no_counterpart += 1;
        return Ok(Seen::NoCounterpart);
    }
    // The crate has no lent buffers.
    if let Question::Of(_, Ask::Lists(_)) = question {
        if plain == Err(17) {
            counts.no_counterpart += 1;
            return Ok(Seen::NoCounterpart);
        }
    }
    let foretold = Listed {
        bytes,
        memory: memory(),
        on: Switches::all(),
    }
    .ask(question);
    if foretold == Outcome::NoCounterpart {
        counts.no_counterpart += 1;
        return Ok(Seen::NoCounterpart);
    }
    let told = as_the_crate_tells(question, &plain);
    // The list is held to the plain reading in one question of four, which is often enough.
    if turn % 4 == 0 {
        let none = Listed {
            bytes,
            memory: memory(),
            on: Switches::NONE,
        }
        .ask(question);
        if none != told {
            return Err(disagree(
                "list",
                format!("with no difference switched on the list says {none:x?}"),
            ));
        }
    }
    let outcome = match foretold {
        Outcome::Hang | Outcome::Crash if sparingly => {
            counts.foretold += 1;
            foretold.clone()
        }
        Outcome::Hang | Outcome::Crash => apart::ask(bytes, ranges, question),
        _ => Machine::new(bytes, ranges).ask(question),
    };
    counts.crate_asked += 1;
    match outcome {
        Outcome::Panic => counts.panics += 1,
        Outcome::Unmapped => counts.unmapped += 1,
        Outcome::Hang => counts.hangs += 1,
        Outcome::Crash => counts.crashes += 1,
        _ => {}
    }
    if outcome == told {
        counts.crate_same += 1;
        // A reader that is foretold to differ must differ.
        if foretold != outcome {
            return Err(disagree("crate", format!("crate {outcome:x?}, foretold {foretold:x?}")));
        }
        return Ok(Seen::Same);
    }
    match listed::explain(bytes, image, ranges, question, &outcome, Switches(counts.reason as u32)) {
        Some(set) => {
            counts.reason = set.0 as u64;
            for number in set.numbers() {
                counts.by_difference[number as usize] += 1;
            }
            Ok(Seen::Explained(set))
        }
        None => Err(disagree("crate", format!("crate {outcome:x?}, foretold {foretold:x?}"))),
    }
}

/// Asks everything about one case. The disagreements are those that nothing explains.
pub fn compare(
    case: &Case,
    arena: &mut Arena,
    random: &mut Random,
    counts: &mut Counts,
    sparingly: bool,
) -> Vec<Disagreement> {
    let bytes = arena.load(&case.image);
    let mut disagreements = Vec::new();
    let mut consistent = true;
    counts.reason = 0;
    let questions = questions(case, random);
    let first = random.below(8);
    for (place, question) in questions.iter().enumerate() {
        let turn = (first + place) as u64;
        match ask(&case.image, bytes, &case.ranges, question, counts, sparingly, turn) {
            Ok(seen) => consistent &= !matches!(seen, Seen::Explained(_)),
            Err(disagreement) => {
                counts.failures += 1;
                disagreements.push(disagreement);
            }
        }
    }
    counts.cases += 1;
    counts.crate_consistent_cases += consistent as u64;
    disagreements
}
