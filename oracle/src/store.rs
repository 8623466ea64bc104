//! Writes a fixed list of questions and answers of the comparison, in the records of
//! tests/reference/make_cases.py. Programs in Rattle ask the proved functions the same
//! questions, where there is no Rust: crates/replay those about images, and
//! crates/replay_tables those about a slice that is one table.

use crate::{
    apart::{self, Arena},
    compare::{self, Counts, Seen},
    describe::{self, Case},
    plain::{self, Memory},
    question::*,
    random::Random,
};
use std::collections::HashSet;

/// Machines whose image is longer are left out, so that the files stay small.
const LARGEST: usize = 640;
/// A question about another image changes at most so many bytes of the last one, or brings
/// its own image.
const MOST_CHANGES: usize = 12;
/// What crates/replay_tables writes into a lent buffer before it is filled.
const UNTOUCHED: u64 = 0xa5a5_a5a5;

/// One of the two files, and where the answers in it come from.
#[derive(Default)]
struct Book {
    bytes: Vec<u8>,
    image: Vec<u8>,
    ranges: Vec<u64>,
    images: HashSet<(Vec<u8>, Vec<u64>)>,
    questions: u64,
    of_the_crate: u64,
    no_counterpart: u64,
    explained: u64,
}

impl Book {
    fn put(&mut self, value: usize) {
        self.bytes.extend((value as u32).to_le_bytes());
    }

    fn put_list(&mut self, values: &[u64]) {
        self.put(values.len());
        for value in values {
            self.bytes.extend(value.to_le_bytes());
        }
    }

    /// The bytes in which an image differs from the last one that was written, if it can be
    /// told by few of them.
    fn changes(&self, image: &[u8], ranges: &[u64]) -> Option<Vec<usize>> {
        if self.bytes.is_empty() || self.image.len() != image.len() || self.ranges != ranges {
            return None;
        }
        let changes: Vec<usize> = (0..image.len()).filter(|at| image[*at] != self.image[*at]).collect();
        Some(changes).filter(|changes| changes.len() <= MOST_CHANGES)
    }

    fn write_image(&mut self, image: &[u8], ranges: &[u64]) {
        self.put(1);
        self.put_list(ranges);
        self.put(image.len());
        self.bytes.extend(image);
        self.bytes.resize(self.bytes.len().next_multiple_of(4), 0);
        self.image = image.to_vec();
        self.ranges = ranges.to_vec();
    }

    fn write(&mut self, image: &[u8], ranges: &[u64], asked: &Asked, answer: &Answer, seen: Seen) {
        let changes = self.changes(image, ranges).unwrap_or_else(|| {
            self.write_image(image, ranges);
            vec![]
        });
        self.put(2);
        self.put(asked.0);
        self.put(changes.len());
        for at in changes {
            self.put(at);
            self.put(image[at] as usize);
        }
        self.put_list(&asked.1);
        self.put(*answer.as_ref().err().unwrap_or(&0) as usize);
        self.put_list(answer.as_ref().map_or(&[], |values| values));

        self.images.insert((image.to_vec(), ranges.to_vec()));
        self.questions += 1;
        match seen {
            Seen::Same => self.of_the_crate += 1,
            Seen::NoCounterpart => self.no_counterpart += 1,
            Seen::Explained(_) => self.explained += 1,
        }
    }

    fn end(&mut self, path: &str) -> Result<(), String> {
        self.put(0);
        std::fs::write(path, &self.bytes).map_err(|fault| format!("{path}: {fault}"))?;
        println!("{path}: {} bytes, {} images", self.bytes.len(), self.images.len());
        println!("{:>8}  questions", self.questions);
        println!("{:>8}  answers of the crate", self.of_the_crate);
        println!("{:>8}  of the plain reading, by a listed difference", self.explained);
        println!(
            "{:>8}  of the plain reading, since the crate has no such question",
            self.no_counterpart
        );
        Ok(())
    }
}

/// A question as it stands in a file: its number and its arguments.
type Asked = (usize, Vec<u64>);

/// The number and the arguments of a question about an image.
fn about_image(question: &Question) -> Option<Asked> {
    Some(match *question {
        Question::Ranges => (1, vec![]),
        Question::Pointer(address) => (2, vec![address]),
        Question::Search => (3, vec![]),
        Question::Root(pointer) => (4, vec![pointer]),
        Question::Entry(pointer, k) => (5, vec![pointer, k]),
        Question::Find {
            pointer,
            signature,
            least,
            n,
        } => {
            let mut arguments = vec![pointer, signature as u64, least as u64];
            if n == 0 {
                (6, arguments)
            } else {
                arguments.push(n);
                (7, arguments)
            }
        }
        Question::Header(pointer, n) => (8, vec![pointer, n]),
        Question::TableAt {
            address,
            signature,
            least,
        } => (9, vec![address, signature as u64, least as u64]),
        Question::AnyTableAt(address) => (10, vec![address]),
        _ => return None,
    })
}

/// The number and the arguments of a question about a table, and the answer in the form that
/// it has there: of the plain fields of the FADT one or a bit of one, and of a model that is
/// not known no more than that.
fn about_table(ask: &Ask, answer: &Answer, random: &mut Random) -> Option<(Asked, Answer)> {
    let only = |place: usize| answer.clone().map(|values| vec![values[place]]);
    let whole = || answer.clone();
    Some(match *ask {
        Ask::McfgCount => ((20, vec![]), whole()),
        Ask::McfgEntry(k) => ((21, vec![k]), whole()),
        Ask::PciAddress(segment, bus, device, function) => (
            (22, vec![segment as u64, bus as u64, device as u64, function as u64]),
            whole(),
        ),
        Ask::Hpet => ((30, vec![]), answer.clone().map(|values| values[1..].to_vec())),
        Ask::FadtRegister(which @ 0..=10) => ((40, vec![which as u64]), whole()),
        Ask::FadtNumber(0) => ((41, vec![]), whole()),
        Ask::FadtNumber(1) => ((42, vec![]), whole()),
        Ask::FadtNumber(2) => ((43, vec![128, 1]), whole()),
        Ask::FadtNumber(3) => ((43, vec![129, 2]), whole()),
        Ask::FadtNumber(4) => ((43, vec![45, 1]), whole()),
        Ask::FadtFixed => {
            let place = random.below(plain::FADT_FIXED.len());
            let (at, size) = plain::FADT_FIXED[place];
            // Of the two fields of flags, which come last, one bit is asked for.
            if place < plain::FADT_FIXED.len() - 2 {
                ((43, vec![at as u64, size as u64]), only(place))
            } else {
                let bit = random.below(8 * size) as u64;
                let flag = only(place).map(|values| vec![values[0] >> bit & 1]);
                ((44, vec![at as u64, bit]), flag)
            }
        }
        Ask::MadtFixed => ((50, vec![]), whole()),
        Ask::MadtEntry(k) => ((51, vec![k]), whole()),
        Ask::Model => {
            let told = answer.clone().map(|values| match values[0] {
                0 => vec![0; 8],
                _ => values,
            });
            ((52, vec![]), told)
        }
        Ask::Lists(rooms) => {
            if answer.as_ref().is_ok_and(|values| values.contains(&UNTOUCHED)) {
                return None;
            }
            ((53, rooms.map(|room| room as u64).to_vec()), whole())
        }
        Ask::Mailbox => ((54, vec![]), whole()),
        // Which refusal comes first is a matter of the exported questions.
        Ask::FadtRegister(_) | Ask::FadtNumber(_) => return None,
    })
}

/// Asks the readers a question. The answer is the plain reading's, and says whether the crate
/// gave it too.
fn ask(case: &Case, question: &Question, arena: &mut Arena) -> Result<(Answer, Seen), String> {
    let bytes = arena.load(&case.image);
    let mut counts = Counts::default();
    let seen = compare::ask(&case.image, bytes, &case.ranges, question, &mut counts, true, 0)
        .map_err(|found| format!("{:x?}: plain {:x?}, {}", found.question, found.plain, found.what))?;
    let memory = Memory {
        image: &case.image,
        ranges: &case.ranges,
    };
    Ok((memory.ask(question), seen))
}

/// So many of the questions by chance: first what is asked, then which question of that kind,
/// since there are many more of some kinds than of others.
fn some<T>(mut questions: Vec<T>, kind: impl Fn(&T) -> usize, count: usize, random: &mut Random) -> Vec<T> {
    let mut chosen = Vec::new();
    while chosen.len() < count && !questions.is_empty() {
        let mut kinds: Vec<usize> = questions.iter().map(&kind).collect();
        kinds.sort_unstable();
        kinds.dedup();
        let wanted = random.of(&kinds);
        let places: Vec<usize> = (0..questions.len())
            .filter(|place| kind(&questions[*place]) == wanted)
            .collect();
        chosen.push(questions.remove(random.of(&places)));
    }
    chosen
}

/// So many of the questions whose answer the damage changed, and one of the others if there
/// is none.
fn telling<T>(
    questions: Vec<T>,
    kind: impl Fn(&T) -> usize,
    is_changed: impl Fn(&T) -> bool,
    count: usize,
    random: &mut Random,
) -> Vec<T> {
    let (changed, others): (Vec<T>, Vec<T>) = questions.into_iter().partition(is_changed);
    if changed.is_empty() {
        some(others, kind, 1, random)
    } else {
        some(changed, kind, count, random)
    }
}

/// Questions about the image of one case.
fn store_image(
    book: &mut Book,
    case: &Case,
    sound: Option<&Case>,
    questions: &[Question],
    arena: &mut Arena,
    random: &mut Random,
) -> Result<(), String> {
    let mut asked: Vec<Question> = questions
        .iter()
        .filter(|question| about_image(question).is_some())
        .copied()
        .collect();
    if (0xe0000..0x100000).contains(&case.pointer) {
        asked.push(Question::Search);
    }
    let kind = |question: &Question| about_image(question).map_or(0, |asked| asked.0);
    let chosen = match sound {
        None => some(asked, kind, 8, random),
        Some(sound) => {
            let of = |case: &Case, question: &Question| {
                Memory {
                    image: &case.image,
                    ranges: &case.ranges,
                }
                .ask(question)
            };
            let is_changed = |question: &Question| of(case, question) != of(sound, question);
            telling(asked, kind, is_changed, 2, random)
        }
    };
    for question in chosen {
        let (answer, seen) = ask(case, &question, arena)?;
        let asked = about_image(&question).expect("only such questions were chosen");
        book.write(&case.image, &case.ranges, &asked, &answer, seen);
    }
    Ok(())
}

/// Questions about the tables that are found in the image of one case, and about a slice of it
/// that may be none. A table that the file has already is left out.
fn store_tables(
    book: &mut Book,
    case: &Case,
    sound: Option<&Case>,
    questions: &[Question],
    arena: &mut Arena,
    random: &mut Random,
) -> Result<(), String> {
    let kind = |ask: &Ask| match ask {
        Ask::McfgCount | Ask::FadtFixed => 0,
        Ask::McfgEntry(_) | Ask::FadtNumber(_) => 1,
        Ask::PciAddress(..) | Ask::FadtRegister(_) => 2,
        Ask::Hpet | Ask::MadtFixed => 3,
        Ask::MadtEntry(_) => 4,
        Ask::Model => 5,
        Ask::Lists(_) => 6,
        Ask::Mailbox => 7,
    };
    for signature in [FADT, MADT, MCFG, HPET] {
        let asks: Vec<Ask> = questions
            .iter()
            .filter_map(|question| match question {
                Question::Of(_, ask) if table_of(ask).0 == signature => Some(*ask),
                _ => None,
            })
            .collect();
        let (_, least) = table_of(&asks[0]);
        let found = |case: &Case| {
            let memory = Memory {
                image: &case.image,
                ranges: &case.ranges,
            };
            let place = Some(case.pointer)
                .filter(|_| memory.ranges_right())
                .and_then(|pointer| memory.find(pointer, Some(signature), least, 0).ok())?;
            Some(memory.slice(place).to_vec())
        };
        let Some(table) = found(case) else { continue };
        if book.images.contains(&(table.clone(), vec![])) {
            continue;
        }
        let chosen = match sound.and_then(|sound| found(sound)) {
            None => some(asks, kind, 5, random),
            Some(sound) => {
                let is_changed = |ask: &Ask| plain::table(&table, ask) != plain::table(&sound, ask);
                telling(asks, kind, is_changed, 2, random)
            }
        };
        for one in chosen {
            let (answer, seen) = ask(case, &Question::Of(case.pointer, one), arena)?;
            if let Some((asked, answer)) = about_table(&one, &answer, random) {
                book.write(&table, &[], &asked, &answer, seen);
            }
        }
    }
    let slices: Vec<Question> = questions
        .iter()
        .filter(|question| matches!(question, Question::Table(..)))
        .copied()
        .collect();
    let wanted = random.once_in(4) as usize;
    for question in some(slices, |_| 0, wanted, random) {
        let Question::Table(at, length, one) = question else {
            continue;
        };
        let (answer, seen) = ask(case, &question, arena)?;
        if let Some((asked, answer)) = about_table(&one, &answer, random) {
            book.write(&case.image[at..at + length], &[], &asked, &answer, seen);
        }
    }
    Ok(())
}

pub fn store(cases: u64, seed: u64, paths: &[String]) -> Result<(), String> {
    let mut arena = Arena::new();
    let mut images = Book::default();
    let mut tables = Book::default();
    let blocks = cases / describe::BLOCK;
    for block in 0..blocks {
        apart::budget(crate::BUDGET);
        let first = block * describe::BLOCK;
        let sound = describe::case(seed, first);
        if sound.image.len() > LARGEST {
            continue;
        }
        // The second case of a block is the first one again. Images of the areas of the
        // search are too large.
        let mut rest: Vec<u64> = (2..describe::BLOCK).map(|slot| first + slot).collect();
        rest.sort_by_key(|number| describe::case(seed, *number).ranges != sound.ranges);
        for number in [first].into_iter().chain(rest) {
            let case = describe::case(seed, number);
            if case.search {
                continue;
            }
            let other = Some(&sound).filter(|_| number != first);
            let mut random = Random::new(seed ^ 0x5bd1_e995, number);
            let questions = compare::questions(&case, &mut random);
            store_image(&mut images, &case, other, &questions, &mut arena, &mut random)?;
            store_tables(&mut tables, &case, other, &questions, &mut arena, &mut random)?;
        }
    }
    images.end(&paths[0])?;
    tables.end(&paths[1])
}
