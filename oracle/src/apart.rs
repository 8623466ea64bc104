//! Processes: workers that share their counts, and a process of its own for a question
//! that may not end or that may read memory that is not there.

use crate::{
    published::Machine,
    question::{Outcome, Question},
};

#[repr(C)]
struct Time {
    seconds: i64,
    microseconds: i64,
}

#[repr(C)]
struct Timer {
    interval: Time,
    value: Time,
}

extern "C" {
    fn fork() -> i32;
    fn waitpid(process: i32, status: *mut i32, options: i32) -> i32;
    fn setitimer(which: i32, new: *const Timer, old: *mut Timer) -> i32;
    fn mprotect(address: *mut u8, length: usize, protection: i32) -> i32;
    fn mmap(address: *mut u8, length: usize, protection: i32, flags: i32, file: i32, offset: i64) -> *mut u8;
    fn _exit(status: i32) -> !;
}

const NO_ACCESS: i32 = 0;
const READ_AND_WRITE: i32 = 1 | 2;
const PRIVATE_AND_RESERVED: i32 = 0x02 | 0x20 | 0x4000;
const SHARED_AND_ANONYMOUS: i32 = 0x01 | 0x20;
/// Counts the time that this process computes, whatever else the machine does.
const VIRTUAL: i32 = 1;
/// The signal that ends a process whose virtual timer ran out.
const OUT_OF_TIME: i32 = 26;

/// Lets this process end if it computes for so long without setting the timer again.
pub fn budget(microseconds: i64) {
    let value = Time {
        seconds: microseconds / 1_000_000,
        microseconds: microseconds % 1_000_000,
    };
    let timer = Timer {
        interval: Time {
            seconds: 0,
            microseconds: 0,
        },
        value,
    };
    // SAFETY: the timer is a whole structure, and no old one is asked for.
    unsafe { setitimer(VIRTUAL, &timer, std::ptr::null_mut()) };
}

/// So many values in memory that the processes started later share with this one. They begin
/// as zeros, which must be a value of their type.
pub unsafe fn shared<T>(count: usize) -> &'static mut [T] {
    let length = count * std::mem::size_of::<T>();
    // SAFETY: fresh memory of zeros, at the start of a page and never given back.
    unsafe {
        let memory = mmap(
            std::ptr::null_mut(),
            length,
            READ_AND_WRITE,
            SHARED_AND_ANONYMOUS,
            -1,
            0,
        );
        assert!(memory as isize != -1, "no memory to share");
        std::slice::from_raw_parts_mut(memory.cast(), count)
    }
}

/// Room for an image, with bytes of zero behind it and then no memory as far as a length of
/// 32 bits can reach. The crate reads some fields beyond a table's end, and must then see
/// the same bytes in every run; and where it reads far beyond, it must crash in every run.
pub struct Arena {
    start: *mut u8,
}

const PAGE: usize = 4096;
const ROOM: usize = 4 << 20;
const PADDING: usize = 1 << 16;
const BEHIND: usize = (1 << 32) + PAGE;

impl Arena {
    pub fn new() -> Self {
        // SAFETY: fresh memory, of which the front part may be used.
        unsafe {
            let start = mmap(
                std::ptr::null_mut(),
                ROOM + BEHIND,
                NO_ACCESS,
                PRIVATE_AND_RESERVED,
                -1,
                0,
            );
            assert!(start as isize != -1, "no room for an image");
            assert!(mprotect(start, ROOM, READ_AND_WRITE) == 0, "no room for an image");
            Arena { start }
        }
    }

    /// The image and the zeros behind it, up to the end of the memory.
    pub fn load(&mut self, image: &[u8]) -> &[u8] {
        let length = (image.len() + PADDING).next_multiple_of(PAGE);
        assert!(length <= ROOM, "the image is too large");
        // SAFETY: the last `length` bytes of the room are ours to write.
        let bytes = unsafe { std::slice::from_raw_parts_mut(self.start.add(ROOM - length), length) };
        bytes[..image.len()].copy_from_slice(image);
        bytes[image.len()..].fill(0);
        bytes
    }
}

/// How a process ended.
#[derive(Debug, PartialEq, Clone, Copy)]
pub enum End {
    Status(i32),
    Signal(i32),
}

/// Runs `work` in a process of its own.
pub fn start(work: impl FnOnce() -> i32) -> i32 {
    // SAFETY: this process has one thread, so the copy is a whole one.
    match unsafe { fork() } {
        -1 => panic!("no further process"),
        0 => {
            let status = work();
            // SAFETY: ends the copy without the clean-up of the original.
            unsafe { _exit(status) }
        }
        process => process,
    }
}

/// Waits for one process, or for any where it is -1.
pub fn wait(process: i32) -> (i32, End) {
    let mut status = 0;
    let ended = loop {
        // SAFETY: the status is written to a variable of ours.
        let ended = unsafe { waitpid(process, &mut status, 0) };
        if ended > 0 {
            break ended;
        }
        let fault = std::io::Error::last_os_error();
        assert!(
            fault.kind() == std::io::ErrorKind::Interrupted,
            "waiting for a process: {fault}"
        );
    };
    let end = if status & 0x7f == 0 {
        End::Status(status >> 8 & 0xff)
    } else {
        End::Signal(status & 0x7f)
    };
    (ended, end)
}

/// Asks the crate in a process of its own, which may compute for a fiftieth of a second.
pub fn ask(bytes: &[u8], ranges: &[u64], question: &Question) -> Outcome {
    let process = start(|| {
        budget(20_000);
        match Machine::new(bytes, ranges).ask(question) {
            Outcome::Panic => 1,
            Outcome::Unmapped => 2,
            _ => 0,
        }
    });
    match wait(process).1 {
        End::Signal(OUT_OF_TIME) => Outcome::Hang,
        End::Signal(_) => Outcome::Crash,
        End::Status(1) => Outcome::Panic,
        End::Status(2) => Outcome::Unmapped,
        // It answered after all: the caller asks again, in its own process.
        End::Status(_) => Machine::new(bytes, ranges).ask(question),
    }
}
