//! Asks the proved library, libtablewalk.a, and watches every buffer that is lent to it.

use crate::question::*;
use std::ptr::NonNull;

#[rustfmt::skip]
extern "C" {
    fn tablewalk_ranges(image: *const u8, n: usize, ranges: *const u64, r: usize) -> u32;
    fn tablewalk_rsdp(image: *const u8, n: usize, ranges: *const u64, r: usize, address: u64, out: *mut u64, o: usize) -> u32;
    fn tablewalk_search(image: *const u8, n: usize, ranges: *const u64, r: usize, out: *mut u64, o: usize) -> u32;
    fn tablewalk_table_at(image: *const u8, n: usize, ranges: *const u64, r: usize, address: u64, signature: u32, least: u32, out: *mut u64, o: usize) -> u32;
    fn tablewalk_any_table_at(image: *const u8, n: usize, ranges: *const u64, r: usize, address: u64, out: *mut u64, o: usize) -> u32;
    fn tablewalk_root(image: *const u8, n: usize, ranges: *const u64, r: usize, rsdp: u64, out: *mut u64, o: usize) -> u32;
    fn tablewalk_entry(image: *const u8, n: usize, ranges: *const u64, r: usize, rsdp: u64, k: u64, out: *mut u64, o: usize) -> u32;
    fn tablewalk_find(image: *const u8, n: usize, ranges: *const u64, r: usize, rsdp: u64, signature: u32, least: u32, k: u64, out: *mut u64, o: usize) -> u32;
    fn tablewalk_header(image: *const u8, n: usize, ranges: *const u64, r: usize, rsdp: u64, k: u64, out: *mut u64, o: usize) -> u32;
    fn tablewalk_hpet(image: *const u8, n: usize, ranges: *const u64, r: usize, rsdp: u64, out: *mut u64, o: usize) -> u32;
    fn tablewalk_mcfg_count(image: *const u8, n: usize, ranges: *const u64, r: usize, rsdp: u64, out: *mut u64, o: usize) -> u32;
    fn tablewalk_mcfg_entry(image: *const u8, n: usize, ranges: *const u64, r: usize, rsdp: u64, k: u64, out: *mut u64, o: usize) -> u32;
    fn tablewalk_pci_address(image: *const u8, n: usize, ranges: *const u64, r: usize, rsdp: u64, segment: u16, bus: u8, device: u8, function: u8, out: *mut u64, o: usize) -> u32;
    fn tablewalk_fadt_fixed(image: *const u8, n: usize, ranges: *const u64, r: usize, rsdp: u64, out: *mut u64, o: usize) -> u32;
    fn tablewalk_fadt_register(image: *const u8, n: usize, ranges: *const u64, r: usize, rsdp: u64, which: u32, out: *mut u64, o: usize) -> u32;
    fn tablewalk_fadt_number(image: *const u8, n: usize, ranges: *const u64, r: usize, rsdp: u64, which: u32, out: *mut u64, o: usize) -> u32;
    fn tablewalk_madt_fixed(image: *const u8, n: usize, ranges: *const u64, r: usize, rsdp: u64, out: *mut u64, o: usize) -> u32;
    fn tablewalk_madt_entry(image: *const u8, n: usize, ranges: *const u64, r: usize, rsdp: u64, k: u64, out: *mut u64, o: usize) -> u32;
    fn tablewalk_interrupt_model(image: *const u8, n: usize, ranges: *const u64, r: usize, rsdp: u64, out: *mut u64, o: usize) -> u32;
    fn tablewalk_interrupt_lists(image: *const u8, n: usize, ranges: *const u64, r: usize, rsdp: u64, a: *mut u32, an: usize, b: *mut u32, bn: usize, c: *mut u32, cn: usize, d: *mut u32, dn: usize, e: *mut u32, en: usize) -> u32;
    fn tablewalk_platform(image: *const u8, n: usize, ranges: *const u64, r: usize, rsdp: u64, out: *mut u64, o: usize) -> u32;
    fn tablewalk_mailbox(image: *const u8, n: usize, ranges: *const u64, r: usize, rsdp: u64, out: *mut u64, o: usize) -> u32;
    fn tablewalk_dsdt(image: *const u8, n: usize, ranges: *const u64, r: usize, rsdp: u64, out: *mut u64, o: usize) -> u32;
    fn tablewalk_ssdt(image: *const u8, n: usize, ranges: *const u64, r: usize, rsdp: u64, k: u64, out: *mut u64, o: usize) -> u32;
    fn tablewalk_table_hpet(table: *const u8, n: usize, out: *mut u64, o: usize) -> u32;
    fn tablewalk_table_mcfg_count(table: *const u8, n: usize, out: *mut u64, o: usize) -> u32;
    fn tablewalk_table_mcfg_entry(table: *const u8, n: usize, k: u64, out: *mut u64, o: usize) -> u32;
    fn tablewalk_table_pci_address(table: *const u8, n: usize, segment: u16, bus: u8, device: u8, function: u8, out: *mut u64, o: usize) -> u32;
    fn tablewalk_table_fadt_fixed(table: *const u8, n: usize, out: *mut u64, o: usize) -> u32;
    fn tablewalk_table_fadt_register(table: *const u8, n: usize, which: u32, out: *mut u64, o: usize) -> u32;
    fn tablewalk_table_fadt_number(table: *const u8, n: usize, which: u32, out: *mut u64, o: usize) -> u32;
    fn tablewalk_table_madt_fixed(table: *const u8, n: usize, out: *mut u64, o: usize) -> u32;
    fn tablewalk_table_madt_entry(table: *const u8, n: usize, k: u64, out: *mut u64, o: usize) -> u32;
    fn tablewalk_table_interrupt_model(table: *const u8, n: usize, out: *mut u64, o: usize) -> u32;
    fn tablewalk_table_interrupt_lists(table: *const u8, n: usize, a: *mut u32, an: usize, b: *mut u32, bn: usize, c: *mut u32, cn: usize, d: *mut u32, dn: usize, e: *mut u32, en: usize) -> u32;
    fn tablewalk_table_mailbox(table: *const u8, n: usize, out: *mut u64, o: usize) -> u32;
}

/// What stands in a lent buffer, and on both sides of it, before a call.
const UNTOUCHED: u64 = 0xa5a5_5a5a_a5a5_5a5a;
const UNTOUCHED_WORD: u32 = 0xa5a5_5a5a;
const AROUND: usize = 2;

/// A slice as the library takes it: never null, also where it is empty.
fn lend<T>(slice: &[T]) -> (*const T, usize) {
    if slice.is_empty() {
        (NonNull::<T>::dangling().as_ptr(), 0)
    } else {
        (slice.as_ptr(), slice.len())
    }
}

/// The answer, or what the library did that it may not do.
pub fn ask(image: &[u8], ranges: &[u64], question: &Question, room: Option<usize>) -> Result<Answer, String> {
    let whole = lend(image);
    let (r, rn) = lend(ranges);
    match *question {
        Question::Entries(_) => Err("there is no such question".into()),
        Question::Ranges => {
            let number = unsafe { tablewalk_ranges(whole.0, whole.1, r, rn) };
            Ok(if number == 0 { Ok(vec![]) } else { Err(number) })
        }
        Question::Of(pointer, Ask::Lists(rooms)) => lists(rooms, |[a, b, c, d, e]| unsafe {
            tablewalk_interrupt_lists(
                whole.0, whole.1, r, rn, pointer, a.0, a.1, b.0, b.1, c.0, c.1, d.0, d.1, e.0, e.1,
            )
        }),
        Question::Table(at, length, Ask::Lists(rooms)) => {
            let t = lend(&image[at..at + length]);
            lists(rooms, |[a, b, c, d, e]| unsafe {
                tablewalk_table_interrupt_lists(t.0, t.1, a.0, a.1, b.0, b.1, c.0, c.1, d.0, d.1, e.0, e.1)
            })
        }
        _ => {
            let values = match question {
                Question::Pointer(_) => 4,
                Question::Root(_) => 6,
                Question::Search | Question::Entry(..) => 1,
                Question::Platform(_) => 16,
                Question::Dsdt(_) | Question::Ssdt(..) => 2,
                Question::Of(_, ask) | Question::Table(_, _, ask) => values_of(ask),
                _ => 3,
            };
            values_into(values, room.unwrap_or(values), |o, on| {
                let (i, n) = whole;
                unsafe {
                    match *question {
                        Question::Pointer(address) => tablewalk_rsdp(i, n, r, rn, address, o, on),
                        Question::Search => tablewalk_search(i, n, r, rn, o, on),
                        Question::TableAt {
                            address,
                            signature,
                            least,
                        } => tablewalk_table_at(i, n, r, rn, address, signature, least, o, on),
                        Question::AnyTableAt(address) => tablewalk_any_table_at(i, n, r, rn, address, o, on),
                        Question::Root(pointer) => tablewalk_root(i, n, r, rn, pointer, o, on),
                        Question::Entry(pointer, k) => tablewalk_entry(i, n, r, rn, pointer, k, o, on),
                        Question::Find {
                            pointer,
                            signature,
                            least,
                            n: k,
                        } => tablewalk_find(i, n, r, rn, pointer, signature, least, k, o, on),
                        Question::Header(pointer, k) => tablewalk_header(i, n, r, rn, pointer, k, o, on),
                        Question::Dsdt(pointer) => tablewalk_dsdt(i, n, r, rn, pointer, o, on),
                        Question::Platform(pointer) => tablewalk_platform(i, n, r, rn, pointer, o, on),
                        Question::Ssdt(pointer, k) => tablewalk_ssdt(i, n, r, rn, pointer, k, o, on),
                        Question::Of(p, ask) => match ask {
                            Ask::Hpet => tablewalk_hpet(i, n, r, rn, p, o, on),
                            Ask::McfgCount => tablewalk_mcfg_count(i, n, r, rn, p, o, on),
                            Ask::McfgEntry(k) => tablewalk_mcfg_entry(i, n, r, rn, p, k, o, on),
                            Ask::PciAddress(s, b, d, f) => tablewalk_pci_address(i, n, r, rn, p, s, b, d, f, o, on),
                            Ask::FadtFixed => tablewalk_fadt_fixed(i, n, r, rn, p, o, on),
                            Ask::FadtRegister(which) => tablewalk_fadt_register(i, n, r, rn, p, which, o, on),
                            Ask::FadtNumber(which) => tablewalk_fadt_number(i, n, r, rn, p, which, o, on),
                            Ask::MadtFixed => tablewalk_madt_fixed(i, n, r, rn, p, o, on),
                            Ask::MadtEntry(k) => tablewalk_madt_entry(i, n, r, rn, p, k, o, on),
                            Ask::Model => tablewalk_interrupt_model(i, n, r, rn, p, o, on),
                            Ask::Mailbox => tablewalk_mailbox(i, n, r, rn, p, o, on),
                            Ask::Lists(_) => unreachable!("asked above"),
                        },
                        Question::Table(at, length, ask) => {
                            let (t, n) = lend(&image[at..at + length]);
                            match ask {
                                Ask::Hpet => tablewalk_table_hpet(t, n, o, on),
                                Ask::McfgCount => tablewalk_table_mcfg_count(t, n, o, on),
                                Ask::McfgEntry(k) => tablewalk_table_mcfg_entry(t, n, k, o, on),
                                Ask::PciAddress(s, b, d, f) => tablewalk_table_pci_address(t, n, s, b, d, f, o, on),
                                Ask::FadtFixed => tablewalk_table_fadt_fixed(t, n, o, on),
                                Ask::FadtRegister(which) => tablewalk_table_fadt_register(t, n, which, o, on),
                                Ask::FadtNumber(which) => tablewalk_table_fadt_number(t, n, which, o, on),
                                Ask::MadtFixed => tablewalk_table_madt_fixed(t, n, o, on),
                                Ask::MadtEntry(k) => tablewalk_table_madt_entry(t, n, k, o, on),
                                Ask::Model => tablewalk_table_interrupt_model(t, n, o, on),
                                Ask::Mailbox => tablewalk_table_mailbox(t, n, o, on),
                                Ask::Lists(_) => unreachable!("asked above"),
                            }
                        }
                        Question::Ranges | Question::Entries(_) => unreachable!("asked above"),
                    }
                }
            })
        }
    }
}

fn values_into(values: usize, room: usize, call: impl FnOnce(*mut u64, usize) -> u32) -> Result<Answer, String> {
    let mut lent = [UNTOUCHED; 32];
    let number = call(lent[AROUND..].as_mut_ptr(), room);
    let written = if number == 0 { values } else { 0 };
    let outside = lent[..AROUND].iter().chain(&lent[AROUND + written..]);
    if outside.copied().any(|word| word != UNTOUCHED) {
        return Err(format!("answer {number} wrote where it may not: {lent:x?}"));
    }
    Ok(if number == 0 {
        Ok(lent[AROUND..AROUND + values].to_vec())
    } else {
        Err(number)
    })
}

type Lent = (*mut u32, usize);

/// The buffers have exactly the room that is asked for. Each list that comes back is told by
/// its length, which is that of what was written from the start on.
fn lists(rooms: [usize; 5], call: impl FnOnce([Lent; 5]) -> u32) -> Result<Answer, String> {
    let mut lent = rooms.map(|room| vec![UNTOUCHED_WORD; room + 2 * AROUND]);
    let mut buffers = [(std::ptr::null_mut(), 0); 5];
    for (buffer, (lent, room)) in buffers.iter_mut().zip(lent.iter_mut().zip(rooms)) {
        *buffer = (lent[AROUND..].as_mut_ptr(), room);
    }
    let number = call(buffers);
    let mut values = Vec::new();
    for (lent, room) in lent.iter().zip(rooms) {
        let (inside, after) = lent[AROUND..].split_at(room);
        if lent[..AROUND].iter().chain(after).any(|word| *word != UNTOUCHED_WORD) {
            return Err(format!("answer {number} wrote beside a list of {room} numbers"));
        }
        let length = inside
            .iter()
            .rposition(|word| *word != UNTOUCHED_WORD)
            .map_or(0, |last| last + 1);
        if number != 0 && length != 0 {
            return Err(format!("answer {number} wrote into a list"));
        }
        values.push(length as u64);
        values.extend(inside[..length].iter().map(|word| *word as u64));
    }
    Ok(if number == 0 { Ok(values) } else { Err(number) })
}
