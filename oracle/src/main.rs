//! Compares the crate acpi 5.2.0, the proved library and a plain reading of docs/TABLES.md
//! on generated images. docs/ORACLE.md says how, and what came of it.
#![feature(allocator_api)]

mod apart;
mod compare;
mod describe;
mod fixtures;
#[cfg(library)]
mod library;
mod listed;
mod plain;
mod published;
mod question;
mod random;
mod sample;
mod shrink;
mod store;
mod stored;

use apart::{Arena, End};
use compare::{Counts, Disagreement, PRINT};
use describe::Case;
use random::Random;
use std::{
    process::ExitCode,
    sync::atomic::{AtomicU64, Ordering},
    time::Instant,
};

const USAGE: &str = "\
Usage: oracle/run [--cases N] [--seed S] [--from K] [--workers W] [FILE..]
       oracle/run --seed S --case K
       oracle/run --store IMAGES TABLES [--cases N] [--seed S]
       oracle/run --fixtures

Compares the readers on N generated images (100000), by seed S (1), beginning with
case K (0), in W processes (as many as there are processors), and before that on the
images in the files: dumps of acpidump, or what tests/reference/make_cases.py writes.
What it prints, but for the time, does not depend on the number of processes.
  --case K     compares case K alone and prints every disagreement about it.
  --store      writes questions about the small ones of these images, with their
               answers, for crates/replay and crates/replay_tables, into two files.
  --fixtures   prints the smallest image of each listed difference.";

/// How often a question that hangs or crashes is asked: in one case of so many.
const ASK_ONE_IN: u64 = 64;
/// How many cases a worker takes at once.
const SHARE: u64 = 64;
/// What one case may take, in microseconds of computing.
const BUDGET: i64 = 20_000_000;

struct Wishes {
    cases: u64,
    seed: u64,
    from: u64,
    workers: usize,
    one: Option<u64>,
    fixtures: bool,
    store: bool,
    files: Vec<String>,
}

fn wishes() -> Result<Wishes, String> {
    let workers = std::thread::available_parallelism().map_or(1, |count| count.get());
    let mut wishes = Wishes {
        cases: 100_000,
        seed: 1,
        from: 0,
        workers,
        one: None,
        fixtures: false,
        store: false,
        files: vec![],
    };
    let mut words = std::env::args().skip(1);
    while let Some(word) = words.next() {
        if word == "--help" || word == "-h" {
            println!("{USAGE}");
            std::process::exit(0);
        }
        if word == "--fixtures" {
            wishes.fixtures = true;
            continue;
        }
        if word == "--store" {
            wishes.store = true;
            continue;
        }
        if !word.starts_with('-') {
            wishes.files.push(word);
            continue;
        }
        let value = words.next().ok_or(format!("{word} needs a number"))?;
        let number: u64 = value
            .parse()
            .map_err(|_| format!("{word} needs a number and not '{value}'"))?;
        match word.as_str() {
            "--cases" => wishes.cases = number,
            "--seed" => wishes.seed = number,
            "--from" => wishes.from = number,
            "--workers" => wishes.workers = (number as usize).clamp(1, 64),
            "--case" => wishes.one = Some(number),
            _ => return Err(format!("unknown argument '{word}'")),
        }
    }
    if wishes.store && wishes.files.len() != 2 {
        return Err("--store needs the names of two files".into());
    }
    Ok(wishes)
}

/// Prints the first disagreement about a case, on the smallest image that still shows it.
fn print_first(case: &Case, name: &str, disagreements: &[Disagreement], arena: &mut Arena) {
    if let Some(first) = disagreements.first() {
        println!("{name}: {} disagreements, the first one:", disagreements.len());
        apart::budget(4 * BUDGET);
        shrink::print(&shrink::shrink(case, first, arena), first);
    }
}

/// Compares one case that is not generated, and prints what nothing explains.
fn compare_one(case: &Case, name: &str, sparingly: bool, arena: &mut Arena, counts: &mut Counts, random: &mut Random) {
    let before = counts.failures;
    apart::budget(BUDGET);
    let disagreements = compare::compare(case, arena, random, counts, sparingly);
    if before < PRINT as u64 {
        print_first(case, name, &disagreements, arena);
    }
}

/// Compares one generated case. The random arguments of the questions are reproduced by the
/// case number too.
fn generated(seed: u64, number: u64, arena: &mut Arena, counts: &mut Counts) -> (Case, Vec<Disagreement>) {
    apart::budget(BUDGET);
    let case = describe::case(seed, number);
    let mut random = Random::new(seed ^ 0x5bd1_e995, number);
    let sparingly = number / 16 % ASK_ONE_IN != 0;
    let disagreements = compare::compare(&case, arena, &mut random, counts, sparingly);
    (case, disagreements)
}

/// Runs through the cases in several processes, each of which takes a share of them when it
/// is done with one. A process that dies is started again behind the case at which it died.
fn run(wishes: &Wishes, shared: &mut [Counts]) {
    // SAFETY: zero is a number.
    let taken = unsafe { &apart::shared::<AtomicU64>(1)[0] };
    let work = |counts: &mut Counts| {
        let mut arena = Arena::new();
        loop {
            while counts.next < counts.end {
                let number = counts.next;
                counts.next += 1;
                let (_, disagreements) = generated(wishes.seed, number, &mut arena, counts);
                if !disagreements.is_empty() {
                    counts.fail_at(number);
                }
            }
            let share = taken.fetch_add(SHARE, Ordering::Relaxed);
            if share >= wishes.cases {
                return 0;
            }
            counts.next = wishes.from + share;
            counts.end = wishes.from + wishes.cases.min(share + SHARE);
        }
    };
    let mut processes = Vec::new();
    for counts in shared.iter_mut() {
        processes.push(apart::start(|| work(counts)));
    }
    let mut left = processes.len();
    while left > 0 {
        let (process, end) = apart::wait(-1);
        let worker = processes
            .iter()
            .position(|one| *one == process)
            .expect("a worker of ours");
        if end == End::Status(0) {
            left -= 1;
            continue;
        }
        let counts = &mut shared[worker];
        counts.failures += 1;
        counts.fail_at(counts.next - 1);
        processes[worker] = apart::start(|| work(counts));
    }
}

/// Makes the first cases that failed again, each in a process of its own, and prints them.
/// Each worker took its cases in their order, so the first ones of all are among them.
fn print_failed(seed: u64, shared: &[Counts]) {
    let mut failed: Vec<u64> = shared
        .iter()
        .flat_map(|counts| &counts.failed[..counts.listed])
        .copied()
        .collect();
    failed.sort_unstable();
    for number in failed.into_iter().take(PRINT) {
        let name = format!("seed {seed} case {number}");
        let process = apart::start(|| {
            let mut arena = Arena::new();
            let (case, disagreements) = generated(seed, number, &mut arena, &mut Counts::default());
            print_first(&case, &name, &disagreements, &mut arena);
            disagreements.is_empty() as i32
        });
        match apart::wait(process).1 {
            End::Status(0) => {}
            End::Status(_) => println!("{name} failed, and not when it was made again"),
            end => println!("{name}: the process ended with {end:?}"),
        }
    }
}

fn report(total: &Counts, seconds: f64) {
    let line = |name: &str, count: u64| println!("{count:>14}  {name}");
    println!("compared in {seconds:.0} s:");
    line("cases", total.cases);
    line(
        "of them without any difference between crate and plain reading",
        total.crate_consistent_cases,
    );
    line("questions", total.questions);
    if cfg!(library) {
        line(
            "answers of the library that are the plain reading's",
            total.library_same,
        );
    } else {
        println!("{:>14}  the library was not linked", "-");
    }
    line("questions that the crate has no counterpart for", total.no_counterpart);
    line("questions to the crate", total.crate_asked);
    line("answers of the crate that are the plain reading's", total.crate_same);
    line("panics of the crate", total.panics);
    line("questions of the crate for memory that is not mapped", total.unmapped);
    line("questions to the crate that do not end", total.hangs);
    line(
        "questions to the crate that read memory that is not there",
        total.crashes,
    );
    line("of these two, foretold and not tried", total.foretold);
    for number in listed::NUMBERS {
        line(
            &format!("explained with difference D{number}"),
            total.by_difference[number as usize],
        );
    }
    line("not explained", total.failures);
}

fn main() -> ExitCode {
    let wishes = match wishes() {
        Ok(wishes) => wishes,
        Err(fault) => {
            eprintln!("oracle/run: {fault}\n{USAGE}");
            return ExitCode::from(2);
        }
    };
    std::panic::set_hook(Box::new(|panic| {
        if !published::ASKING.load(Ordering::Relaxed) {
            eprintln!("{panic}");
        }
    }));

    if wishes.fixtures {
        return ExitCode::from((fixtures::check(true) > 0) as u8);
    }
    if wishes.store {
        return match store::store(wishes.cases, wishes.seed, &wishes.files) {
            Ok(()) => ExitCode::SUCCESS,
            Err(fault) => {
                eprintln!("oracle/run: nothing was written: {fault}");
                ExitCode::FAILURE
            }
        };
    }
    let started = Instant::now();
    let mut arena = Arena::new();
    if let Some(number) = wishes.one {
        let mut counts = Counts::default();
        let case = describe::case(wishes.seed, number);
        let mut random = Random::new(wishes.seed ^ 0x5bd1_e995, number);
        let disagreements = compare::compare(&case, &mut arena, &mut random, &mut counts, false);
        for found in &disagreements {
            shrink::print(&case, found);
        }
        report(&counts, started.elapsed().as_secs_f64());
        return ExitCode::from(!disagreements.is_empty() as u8);
    }

    // SAFETY: zeros are counts of nothing.
    let shared = unsafe { apart::shared::<Counts>(wishes.workers + 1) };
    let (first, workers) = shared.split_at_mut(1);
    for fault in listed::faults() {
        println!("{fault}");
        first[0].failures += 1;
    }
    first[0].failures += fixtures::check(false);
    for (number, case) in sample::cases().iter().enumerate() {
        let mut random = Random::new(wishes.seed, number as u64);
        let sparingly = number as u64 % ASK_ONE_IN != 0;
        compare_one(
            case,
            &format!("sample {number}"),
            sparingly,
            &mut arena,
            &mut first[0],
            &mut random,
        );
    }
    for path in &wishes.files {
        if let Err(fault) = stored::compare_file(path, &mut first[0]) {
            println!("{path}: {fault}");
            first[0].failures += 1;
        }
    }
    apart::budget(0);
    run(&wishes, workers);
    print_failed(wishes.seed, workers);
    let mut total = first[0];
    for counts in workers.iter() {
        total.add(counts);
    }
    report(&total, started.elapsed().as_secs_f64());
    ExitCode::from((total.failures > 0) as u8)
}
