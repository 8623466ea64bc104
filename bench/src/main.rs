//! Times the crate acpi 5.2.0 and Tablewalk on the same images, in one process.
//! docs/BENCHMARK.md says what is measured.
#![feature(allocator_api)]

use acpi::{
    madt::Madt,
    rsdp::Rsdp,
    sdt::{SdtHeader, Signature},
    AcpiHandler, AcpiTable, AcpiTables, PciConfigRegions, PhysicalMapping,
};
use std::{hint::black_box, process::ExitCode, ptr::NonNull, time::Instant};

#[rustfmt::skip]
extern "C" {
    fn tablewalk_search(image: *const u8, n: usize, ranges: *const u64, r: usize, out: *mut u64, o: usize) -> u32;
    fn tablewalk_table_at(image: *const u8, n: usize, ranges: *const u64, r: usize, address: u64, signature: u32, least: u32, out: *mut u64, o: usize) -> u32;
    fn tablewalk_find(image: *const u8, n: usize, ranges: *const u64, r: usize, rsdp: u64, signature: u32, least: u32, k: u64, out: *mut u64, o: usize) -> u32;
    fn tablewalk_pci_address(image: *const u8, n: usize, ranges: *const u64, r: usize, rsdp: u64, segment: u16, bus: u8, device: u8, function: u8, out: *mut u64, o: usize) -> u32;
    fn tablewalk_interrupt_model(image: *const u8, n: usize, ranges: *const u64, r: usize, rsdp: u64, out: *mut u64, o: usize) -> u32;
    fn tablewalk_interrupt_lists(image: *const u8, n: usize, ranges: *const u64, r: usize, rsdp: u64, a: *mut u32, an: usize, b: *mut u32, bn: usize, c: *mut u32, cn: usize, d: *mut u32, dn: usize, e: *mut u32, en: usize) -> u32;
    fn tablewalk_table_pci_address(table: *const u8, n: usize, segment: u16, bus: u8, device: u8, function: u8, out: *mut u64, o: usize) -> u32;
    fn tablewalk_table_interrupt_lists(table: *const u8, n: usize, a: *mut u32, an: usize, b: *mut u32, bn: usize, c: *mut u32, cn: usize, d: *mut u32, dn: usize, e: *mut u32, en: usize) -> u32;
}

const BASE: u64 = 0x10_0000;
const LAST: u32 = u32::from_le_bytes(*b"LAST");
const OTHER: u32 = u32::from_le_bytes(*b"OTHR");

/// An image in one slice, with its list of ranges.
struct Image {
    bytes: Vec<u8>,
    ranges: Vec<u64>,
}

#[derive(Clone, Copy)]
struct Handler<'a>(&'a Image);

impl AcpiHandler for Handler<'_> {
    unsafe fn map_physical_region<T>(&self, address: usize, size: usize) -> PhysicalMapping<Self, T> {
        for range in self.0.ranges.chunks_exact(3) {
            let (start, length, offset) = (range[0] as usize, range[1] as usize, range[2] as usize);
            if address >= start && address - start < length && size <= length - (address - start) {
                let start = NonNull::from(&self.0.bytes[offset + (address - start)]).cast();
                // SAFETY: the range holds all bytes.
                return unsafe { PhysicalMapping::new(address, start, size, size, *self) };
            }
        }
        panic!("{address:#x} is not mapped")
    }

    fn unmap_physical_region<T>(_: &PhysicalMapping<Self, T>) {}
}

#[repr(transparent)]
struct Last(SdtHeader);

// SAFETY: every table begins with the header, and no other field is read.
unsafe impl AcpiTable for Last {
    // SAFETY: a signature is a transparent wrapper of its four bytes.
    const SIGNATURE: Signature = unsafe { std::mem::transmute(*b"LAST") };

    fn header(&self) -> &SdtHeader {
        &self.0
    }
}

// Images.

fn put(bytes: &mut [u8], at: usize, value: u64, size: usize) {
    bytes[at..at + size].copy_from_slice(&value.to_le_bytes()[..size]);
}

fn fix_sum(bytes: &mut [u8], at: usize) {
    bytes[at] = 0;
    bytes[at] = bytes
        .iter()
        .fold(0u8, |sum, byte| sum.wrapping_add(*byte))
        .wrapping_neg();
}

fn table(signature: u32, length: usize) -> Vec<u8> {
    let mut bytes: Vec<u8> = (0..length).map(|place| (place * 7) as u8).collect();
    put(&mut bytes, 0, signature as u64, 4);
    put(&mut bytes, 4, length as u64, 4);
    bytes[10..24].fill(b'A');
    fix_sum(&mut bytes, 9);
    bytes
}

/// A root pointer, an XSDT and these tables: in one range, or in one range each.
fn image(tables: &[Vec<u8>], apart: bool) -> Image {
    let root_length = 36 + 8 * tables.len();
    let mut root = vec![0; root_length];
    put(&mut root, 0, u32::from_le_bytes(*b"XSDT") as u64, 4);
    put(&mut root, 4, root_length as u64, 4);
    let mut pointer = vec![0; 36];
    pointer[..8].copy_from_slice(b"RSD PTR ");
    pointer[15] = 2;
    put(&mut pointer, 20, 36, 4);
    put(&mut pointer, 24, BASE + 64, 8);
    fix_sum(&mut pointer[..20], 8);
    fix_sum(&mut pointer, 32);

    let mut bytes = pointer;
    bytes.resize(64 + root_length, 0);
    let mut ranges = vec![BASE, (64 + root_length) as u64, 0];
    for (k, table) in tables.iter().enumerate() {
        bytes.resize(bytes.len().next_multiple_of(64), 0);
        let at = bytes.len() as u64;
        put(&mut root, 36 + 8 * k, BASE + at, 8);
        bytes.extend(table);
        ranges.extend([BASE + at, table.len() as u64, at]);
    }
    fix_sum(&mut root, 9);
    bytes[64..64 + root_length].copy_from_slice(&root);
    if !apart {
        ranges = vec![BASE, bytes.len() as u64, 0];
    }
    Image { bytes, ranges }
}

/// Sixty tables of which only the last is wanted and valid.
fn sixty(others: u32, length: usize, apart: bool) -> Image {
    let mut tables = vec![table(others, length); 59];
    if others == LAST {
        for table in &mut tables {
            table[9] ^= 1;
        }
    }
    tables.push(table(LAST, length));
    image(&tables, apart)
}

fn madt(processors: u32) -> Vec<u8> {
    let mut bytes = table(u32::from_le_bytes(*b"APIC"), 44);
    for processor in 0..processors {
        let mut entry = [0; 16];
        entry[0] = 9;
        entry[1] = 16;
        put(&mut entry, 4, processor as u64, 4);
        entry[8] = 1;
        put(&mut entry, 12, processor as u64, 4);
        bytes.extend(entry);
    }
    bytes.extend([1, 12, 2, 0, 0, 0, 0xc0, 0xfe, 0, 0, 0, 0]);
    bytes.extend([2, 10, 0, 0, 2, 0, 0, 0, 0, 0]);
    bytes.extend([4, 6, 0xff, 5, 0, 1]);
    let length = bytes.len() as u64;
    put(&mut bytes, 4, length, 4);
    fix_sum(&mut bytes, 9);
    bytes
}

fn mcfg() -> Vec<u8> {
    let mut bytes = table(u32::from_le_bytes(*b"MCFG"), 44 + 4 * 16);
    for window in 0..4 {
        let at = 44 + 16 * window;
        put(&mut bytes, at, 0x10_0000_0000 * (window as u64 + 1), 8);
        put(&mut bytes, at + 8, window as u64, 2);
        bytes[at + 10] = 0;
        bytes[at + 11] = 255;
        put(&mut bytes, at + 12, 0, 4);
    }
    fix_sum(&mut bytes, 9);
    bytes
}

/// The areas of the search, with no root pointer in them.
fn low_memory() -> Image {
    let mut bytes = vec![0; 0x100010];
    for (place, byte) in bytes.iter_mut().enumerate() {
        *byte = (place * 11) as u8;
    }
    put(&mut bytes, 0x40e, 0, 2);
    Image {
        ranges: vec![0, bytes.len() as u64, 0],
        bytes,
    }
}

// What is measured.

type Work = Box<dyn Fn() -> u64>;

struct Question {
    name: &'static str,
    ours: Work,
    crates: Work,
    /// The bytes that must at least be read, summed up plainly.
    floor: Option<Work>,
    /// How often one run asks, so that it takes long enough to be timed.
    times: usize,
}

fn leak(image: Image) -> &'static Image {
    Box::leak(Box::new(image))
}

fn tables(image: &'static Image) -> AcpiTables<Handler<'static>> {
    // SAFETY: the root pointer of these images stands there.
    unsafe { AcpiTables::from_rsdp(Handler(image), BASE as usize) }.expect("a valid root")
}

fn plain_sum(bytes: &'static [u8]) -> Work {
    Box::new(move || black_box(bytes).iter().fold(0u8, |sum, byte| sum.wrapping_add(*byte)) as u64)
}

fn our_find(image: &'static Image) -> Work {
    Box::new(move || {
        let mut out = [0; 3];
        // SAFETY: the slices are whole, and so is the buffer.
        let answer = unsafe {
            let (i, r) = (&image.bytes, &image.ranges);
            tablewalk_find(
                i.as_ptr(),
                i.len(),
                r.as_ptr(),
                r.len(),
                BASE,
                LAST,
                36,
                0,
                out.as_mut_ptr(),
                3,
            )
        };
        assert_eq!(answer, 0);
        out[0]
    })
}

fn their_find(image: &'static Image) -> Work {
    Box::new(move || {
        let tables = tables(image);
        let table = tables.find_table::<Last>().expect("the last one is valid");
        table.physical_start() as u64
    })
}

fn questions() -> Vec<Question> {
    let mut list = Vec::new();
    const LARGE: usize = 200 << 10;
    let last = |image: &'static Image| &image.bytes[image.bytes.len() - LARGE..];

    let others = leak(sixty(OTHER, LARGE, false));
    list.push(Question {
        name: "find the last of 60 tables of 200 KB, all others of another signature",
        ours: our_find(others),
        crates: their_find(others),
        floor: Some(plain_sum(last(others))),
        times: 40,
    });
    let twins = leak(sixty(LAST, LARGE, false));
    list.push(Question {
        name: "find the last of 60 tables of 200 KB, all of its signature and not valid",
        ours: our_find(twins),
        crates: their_find(twins),
        floor: Some(plain_sum(&twins.bytes)),
        times: 1,
    });
    for (name, apart) in [
        ("find the last of 60 small tables, one range", false),
        ("find the last of 60 small tables, 61 ranges", true),
    ] {
        let small = leak(sixty(OTHER, 64, apart));
        list.push(Question {
            name,
            ours: our_find(small),
            crates: their_find(small),
            floor: None,
            times: 200,
        });
    }

    let large = leak(image(&[table(LAST, 600 << 10)], false));
    list.push(Question {
        name: "sum of a table of 600 KB at a known address",
        ours: Box::new(move || {
            let mut out = [0; 3];
            let (i, r) = (&large.bytes, &large.ranges);
            // SAFETY: as above.
            let answer = unsafe {
                tablewalk_table_at(
                    i.as_ptr(),
                    i.len(),
                    r.as_ptr(),
                    r.len(),
                    BASE + 128,
                    LAST,
                    36,
                    out.as_mut_ptr(),
                    3,
                )
            };
            assert_eq!(answer, 0);
            out[2]
        }),
        crates: Box::new(move || {
            // SAFETY: the table stands there.
            let header = unsafe { Handler(large).map_physical_region::<SdtHeader>(BASE as usize + 128, 600 << 10) };
            header.validate(Last::SIGNATURE).expect("a valid table");
            header.length as u64
        }),
        floor: Some(plain_sum(&large.bytes[128..])),
        times: 1,
    });

    let processors = leak(image(&[madt(512)], false));
    let mut lists = [vec![0u32; 3 * 512], vec![0; 3], vec![0; 3], vec![0; 2], vec![0; 2]];
    let lent = lists.each_mut().map(|list| (list.as_mut_ptr(), list.len()));
    std::mem::forget(lists);
    let whole = move |counted: bool| -> Work {
        Box::new(move || {
            let (i, r) = (&processors.bytes, &processors.ranges);
            let [a, b, c, d, e] = lent;
            let mut out = [0; 8];
            // SAFETY: as above; the lists are never given back.
            let answer = unsafe {
                if counted {
                    assert_eq!(
                        tablewalk_interrupt_model(i.as_ptr(), i.len(), r.as_ptr(), r.len(), BASE, out.as_mut_ptr(), 8),
                        0
                    );
                }
                tablewalk_interrupt_lists(
                    i.as_ptr(),
                    i.len(),
                    r.as_ptr(),
                    r.len(),
                    BASE,
                    a.0,
                    a.1,
                    b.0,
                    b.1,
                    c.0,
                    c.1,
                    d.0,
                    d.1,
                    e.0,
                    e.1,
                )
            };
            assert_eq!(answer, 0);
            out[3]
        })
    };
    let their_model = move || -> Work {
        Box::new(move || {
            let tables = tables(processors);
            let madt = tables.find_table::<Madt>().expect("a valid MADT");
            let (model, info) = madt
                .get()
                .parse_interrupt_model_in(std::alloc::Global)
                .expect("a right MADT");
            black_box(&model);
            info.expect("processors").application_processors.len() as u64
        })
    };
    list.push(Question {
        name: "interrupt model of 512 processors, find included, lists alone",
        ours: whole(false),
        crates: their_model(),
        floor: None,
        times: 20,
    });
    list.push(Question {
        name: "interrupt model of 512 processors, find included, counts and then lists",
        ours: whole(true),
        crates: their_model(),
        floor: None,
        times: 20,
    });
    let found: &'static Madt = {
        let tables = Box::leak(Box::new(tables(processors)));
        let madt = Box::leak(Box::new(tables.find_table::<Madt>().expect("a valid MADT")));
        // SAFETY: the image is never given back.
        unsafe { madt.virtual_start().as_ref() }
    };
    let at = processors.bytes.len() - madt(512).len();
    list.push(Question {
        name: "interrupt model of 512 processors, the table already found, lists alone",
        ours: Box::new(move || {
            let table = &processors.bytes[at..];
            let [a, b, c, d, e] = lent;
            // SAFETY: as above.
            let answer = unsafe {
                tablewalk_table_interrupt_lists(
                    table.as_ptr(),
                    table.len(),
                    a.0,
                    a.1,
                    b.0,
                    b.1,
                    c.0,
                    c.1,
                    d.0,
                    d.1,
                    e.0,
                    e.1,
                )
            };
            assert_eq!(answer, 0);
            answer as u64
        }),
        crates: Box::new(move || {
            // SAFETY: the table never moves.
            let madt = unsafe { std::pin::Pin::new_unchecked(black_box(found)) };
            let (model, info) = madt.parse_interrupt_model_in(std::alloc::Global).expect("a right MADT");
            black_box(&model);
            info.expect("processors").application_processors.len() as u64
        }),
        floor: None,
        times: 20,
    });

    let low = leak(low_memory());
    list.push(Question {
        name: "search for a root pointer through both areas, none there",
        ours: Box::new(move || {
            let mut out = [0; 1];
            let (i, r) = (&low.bytes, &low.ranges);
            // SAFETY: as above.
            let answer = unsafe { tablewalk_search(i.as_ptr(), i.len(), r.as_ptr(), r.len(), out.as_mut_ptr(), 1) };
            assert_eq!(answer, 18);
            answer as u64
        }),
        crates: Box::new(move || {
            // SAFETY: both areas are mapped.
            let found = unsafe { Rsdp::search_for_on_bios(Handler(low)) };
            found.is_err() as u64
        }),
        floor: None,
        times: 4,
    });

    let windows = leak(image(&[mcfg()], false));
    let regions = &*Box::leak(Box::new(PciConfigRegions::new(&tables(windows)).expect("a valid MCFG")));
    let functions = || {
        (0..10_000u32).map(|k| {
            (
                (k % 4) as u16,
                (k / 4 % 256) as u8,
                (k / 1024 % 32) as u8,
                (k % 8) as u8,
            )
        })
    };
    let their_functions = move || -> Work {
        Box::new(move || {
            functions().fold(0, |sum: u64, (segment, bus, device, function)| {
                sum.wrapping_add(
                    regions
                        .physical_address(segment, bus, device, function)
                        .expect("a window"),
                )
            })
        })
    };
    let at = windows.bytes.len() - mcfg().len();
    list.push(Question {
        name: "configuration address of 10,000 functions, the table already found",
        ours: Box::new(move || {
            let table = &windows.bytes[at..];
            functions().fold(0, |sum: u64, (segment, bus, device, function)| {
                let mut out = [0; 1];
                // SAFETY: as above.
                let answer = unsafe {
                    tablewalk_table_pci_address(
                        table.as_ptr(),
                        table.len(),
                        segment,
                        bus,
                        device,
                        function,
                        out.as_mut_ptr(),
                        1,
                    )
                };
                assert_eq!(answer, 0);
                sum.wrapping_add(out[0])
            })
        }),
        crates: their_functions(),
        floor: None,
        times: 1,
    });
    list.push(Question {
        name: "configuration address of 10,000 functions, ours from the root pointer each time",
        ours: Box::new(move || {
            let (i, r) = (&windows.bytes, &windows.ranges);
            functions().fold(0, |sum: u64, (segment, bus, device, function)| {
                let mut out = [0; 1];
                // SAFETY: as above.
                let answer = unsafe {
                    tablewalk_pci_address(
                        i.as_ptr(),
                        i.len(),
                        r.as_ptr(),
                        r.len(),
                        BASE,
                        segment,
                        bus,
                        device,
                        function,
                        out.as_mut_ptr(),
                        1,
                    )
                };
                assert_eq!(answer, 0);
                sum.wrapping_add(out[0])
            })
        }),
        crates: their_functions(),
        floor: None,
        times: 1,
    });
    list
}

// Measuring.

/// The seconds of one question. It is asked once before, so that each of the two finds in
/// the caches what it left there itself and not what the other one did.
fn time(work: &Work, times: usize) -> f64 {
    black_box(work());
    let started = Instant::now();
    for _ in 0..times {
        black_box(work());
    }
    started.elapsed().as_secs_f64() / times as f64
}

fn median(mut samples: Vec<f64>) -> f64 {
    samples.sort_by(f64::total_cmp);
    samples[samples.len() / 2]
}

fn show(seconds: f64) -> String {
    match seconds {
        s if s >= 1e-3 => format!("{:.2} ms", s * 1e3),
        s if s >= 1e-6 => format!("{:.2} us", s * 1e6),
        s => format!("{:.0} ns", s * 1e9),
    }
}

fn main() -> ExitCode {
    let words: Vec<String> = std::env::args().skip(1).collect();
    let value = |name: &str| {
        words
            .iter()
            .position(|word| word == name)
            .and_then(|at| words.get(at + 1).cloned())
    };
    let list = questions();
    if words.iter().any(|word| word == "--list") {
        for question in &list {
            println!("{}|{}", question.name, question.times.max(2));
        }
        return ExitCode::SUCCESS;
    }
    if let Some(name) = value("--only") {
        let times = value("--times").and_then(|times| times.parse().ok()).unwrap_or(1);
        let Some(question) = list.iter().find(|question| question.name == name) else {
            eprintln!("bench: no question '{name}'");
            return ExitCode::from(2);
        };
        let ours = value("--who").as_deref() == Some("ours");
        time(if ours { &question.ours } else { &question.crates }, times);
        return ExitCode::SUCCESS;
    }

    let rounds = value("--rounds").and_then(|rounds| rounds.parse().ok()).unwrap_or(101);
    println!("median of {rounds} interleaved runs; ratio is ours / crate, below 1 is faster than the crate");
    println!(
        "{:>6} {:>12} {:>12} {:>12}  question",
        "ratio", "ours", "crate", "floor"
    );
    for question in &list {
        let (mut ours, mut crates, mut floor) = (Vec::new(), Vec::new(), Vec::new());
        for _ in 0..rounds {
            ours.push(time(&question.ours, question.times));
            crates.push(time(&question.crates, question.times));
            if let Some(work) = &question.floor {
                floor.push(time(work, question.times));
            }
        }
        let (ours, crates) = (median(ours), median(crates));
        let floor = if floor.is_empty() {
            "-".into()
        } else {
            show(median(floor))
        };
        println!(
            "{:>6.2} {:>12} {:>12} {:>12}  {}",
            ours / crates,
            show(ours),
            show(crates),
            floor,
            question.name
        );
    }
    ExitCode::SUCCESS
}
