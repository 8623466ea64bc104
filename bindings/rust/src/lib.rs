//! ACPI tables for kernels: the names and shapes of the crate `acpi` 5.2.0 over libtablewalk.a, whose
//! code is proved.
//!
//! Nothing is mapped and nothing is allocated. The caller lends memory as a slice and says which part
//! of it is which part of physical memory ([`Memory`]); lists go to a lent buffer, or, with the feature
//! `alloc`, to the heap. There is no state, so any number of processors may ask at once.
//!
//! ```
//! use tablewalk::{AcpiError, AcpiTables, Memory, Range};
//!
//! // 64 bytes at physical e0000, with nothing in them.
//! let image = [0u8; 64];
//! let ranges = [Range { physical_start: 0xe0000, length: 64, offset: 0 }];
//! let memory = Memory::new(&image, &ranges)?;
//! assert_eq!(AcpiTables::search_for_rsdp_bios(memory).err(), Some(AcpiError::NoValidRsdp));
//! # Ok::<(), AcpiError>(())
//! ```
//!
//! What is proved is the code of the archive. This crate is the thin cover around it, which is tested:
//! it passes slices as pointer and length, and turns numbers into enums.

#![no_std]
#![deny(unsafe_op_in_unsafe_fn)]
#![warn(missing_docs)]

#[cfg(feature = "alloc")]
extern crate alloc;

pub mod address;
pub mod fadt;
pub mod hpet;
pub mod madt;
pub mod mcfg;
pub mod platform;
pub mod rsdp;
pub mod sdt;
#[allow(missing_docs)]
pub mod sys;

mod error;
mod list;
mod memory;
mod tables;

pub use error::{AcpiError, AcpiResult, MadtError};
pub use fadt::PowerProfile;
pub use hpet::HpetInfo;
pub use list::{List, ListIter, Record};
pub use mcfg::PciConfigRegions;
pub use memory::{Memory, Range};
pub use platform::{interrupt::InterruptModel, PlatformInfo};
pub use tables::{AcpiTable, AcpiTables, AmlTable, SdtHeaderIterator, SsdtIterator, Table, TableIterator};

// The Rust of docs/MIGRATING.md is compiled as tests, so that it can not fall behind.
#[cfg(doctest)]
#[doc = include_str!("../../../docs/MIGRATING.md")]
struct Migrating;
