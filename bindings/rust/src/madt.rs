//! The table of interrupt controllers.

pub use crate::error::MadtError;

use crate::{
    error::found,
    list::{List, Record},
    memory::ask_table,
    platform::{
        interrupt::{Apic, InterruptModel, InterruptSourceOverride, IoApic, NmiLine, NmiSource},
        Processor, ProcessorInfo,
    },
    sdt::Signature,
    sys, AcpiError, AcpiResult, AcpiTable, Table,
};

/// A valid MADT.
#[derive(Clone, Copy, Debug)]
pub struct Madt<'m> {
    table: Table<'m>,
    /// The physical address of the local controllers, unless an entry of kind 5 replaces it.
    pub local_apic_address: u32,
    /// Bit 0: there is a pair of old controllers.
    pub flags: u32,
    legacy: bool,
}

/// The model, and how many records each list has.
pub(crate) struct Survey {
    known: bool,
    local_apic_address: u64,
    also_has_legacy_pics: bool,
    /// Words, in the order of the archive: processors, I/O controllers, overrides, NMI sources, lines.
    words: [usize; 5],
}

impl Survey {
    /// From the eight words of the archive.
    pub(crate) fn from_words(out: &[u64; 8]) -> Survey {
        let words = |count: u64, record: usize| count as usize * record;
        Survey {
            known: out[0] != 0,
            local_apic_address: out[1],
            also_has_legacy_pics: out[2] != 0,
            words: [
                words(out[3], Processor::WORDS),
                words(out[4], IoApic::WORDS),
                words(out[5], InterruptSourceOverride::WORDS),
                words(out[6], NmiSource::WORDS),
                words(out[7], NmiLine::WORDS),
            ],
        }
    }

    /// Whether an entry tells the model. Where none does, all lists are empty.
    pub(crate) fn known(&self) -> bool {
        self.known
    }

    fn total(&self) -> AcpiResult<usize> {
        let total = self
            .words
            .iter()
            .try_fold(0usize, |sum, words| sum.checked_add(*words));
        total.ok_or(AcpiError::BufferTooShort)
    }
}

impl<'m> Madt<'m> {
    /// The table as it was found.
    pub fn table(&self) -> &Table<'m> {
        &self.table
    }

    /// Whether there is a pair of old controllers.
    pub fn supports_8259(&self) -> bool {
        self.legacy
    }

    /// The physical address of the mailbox by which processors are woken.
    pub fn get_mpwk_mailbox_addr(&self) -> AcpiResult<u64> {
        let mut out = [0; 1];
        found(
            ask_table!(self.table.bytes(), tablewalk_table_mailbox; &mut out),
            Signature::MADT,
        )?;
        Ok(out[0])
    }

    /// The entries of any kind. The last item is an error where an entry's length is wrong or the entry
    /// belongs to another interrupt model; nothing can be said about what stands after it.
    pub fn entries(&self) -> MadtEntryIter<'m> {
        MadtEntryIter {
            table: self.table,
            next: 0,
            ended: false,
        }
    }

    /// How many words of 32 bits the five lists need, all together.
    pub fn interrupt_words(&self) -> AcpiResult<usize> {
        self.survey()?.total()
    }

    /// The interrupt model and the processors. The lists go to `buffer`.
    pub fn parse_interrupt_model_in<'a>(
        &self,
        buffer: &'a mut [u32],
    ) -> AcpiResult<(InterruptModel<'a>, Option<ProcessorInfo<'a>>)> {
        self.lists_in(&self.survey()?, buffer)
    }

    /// The same of a model that is known already.
    pub(crate) fn lists_in<'a>(
        &self,
        survey: &Survey,
        buffer: &'a mut [u32],
    ) -> AcpiResult<(InterruptModel<'a>, Option<ProcessorInfo<'a>>)> {
        if buffer.len() < survey.total()? {
            return Err(AcpiError::BufferTooShort);
        }
        let (processors, rest) = buffer.split_at_mut(survey.words[0]);
        let (io_apics, rest) = rest.split_at_mut(survey.words[1]);
        let (overrides, rest) = rest.split_at_mut(survey.words[2]);
        let (nmi_sources, rest) = rest.split_at_mut(survey.words[3]);
        let (nmi_lines, _) = rest.split_at_mut(survey.words[4]);
        self.fill(processors, io_apics, overrides, nmi_sources, nmi_lines)?;

        let processors: &'a [u32] = processors;
        if !survey.known || processors.len() < Processor::WORDS {
            return Ok((InterruptModel::Unknown, None));
        }
        let (boot, others) = processors.split_at(Processor::WORDS);
        Ok((
            InterruptModel::Apic(Apic {
                local_apic_address: survey.local_apic_address,
                io_apics: List::lent(io_apics),
                local_apic_nmi_lines: List::lent(nmi_lines),
                interrupt_source_overrides: List::lent(overrides),
                nmi_sources: List::lent(nmi_sources),
                also_has_legacy_pics: survey.also_has_legacy_pics,
            }),
            Some(ProcessorInfo {
                boot_processor: boot_processor(boot),
                application_processors: List::lent(others),
            }),
        ))
    }

    /// The interrupt model and the processors, with owned lists.
    #[cfg(feature = "alloc")]
    pub fn parse_interrupt_model(
        &self,
    ) -> AcpiResult<(InterruptModel<'static>, Option<ProcessorInfo<'static>>)> {
        self.lists(&self.survey()?)
    }

    /// The same of a model that is known already.
    #[cfg(feature = "alloc")]
    pub(crate) fn lists(
        &self,
        survey: &Survey,
    ) -> AcpiResult<(InterruptModel<'static>, Option<ProcessorInfo<'static>>)> {
        let zeros = |words: usize| -> AcpiResult<alloc::vec::Vec<u32>> {
            let mut list = alloc::vec::Vec::new();
            list.try_reserve_exact(words).map_err(|_| AcpiError::AllocError)?;
            list.resize(words, 0);
            Ok(list)
        };
        let mut processors = zeros(survey.words[0])?;
        let mut io_apics = zeros(survey.words[1])?;
        let mut overrides = zeros(survey.words[2])?;
        let mut nmi_sources = zeros(survey.words[3])?;
        let mut nmi_lines = zeros(survey.words[4])?;
        self.fill(
            &mut processors,
            &mut io_apics,
            &mut overrides,
            &mut nmi_sources,
            &mut nmi_lines,
        )?;

        if !survey.known || processors.len() < Processor::WORDS {
            return Ok((InterruptModel::Unknown, None));
        }
        let boot = boot_processor(&processors);
        processors.drain(..Processor::WORDS);
        Ok((
            InterruptModel::Apic(Apic {
                local_apic_address: survey.local_apic_address,
                io_apics: List::owned(io_apics),
                local_apic_nmi_lines: List::owned(nmi_lines),
                interrupt_source_overrides: List::owned(overrides),
                nmi_sources: List::owned(nmi_sources),
                also_has_legacy_pics: survey.also_has_legacy_pics,
            }),
            Some(ProcessorInfo {
                boot_processor: boot,
                application_processors: List::owned(processors),
            }),
        ))
    }

    fn survey(&self) -> AcpiResult<Survey> {
        let mut out = [0; 8];
        found(
            ask_table!(self.table.bytes(), tablewalk_table_interrupt_model; &mut out),
            Signature::MADT,
        )?;
        Ok(Survey::from_words(&out))
    }

    fn fill(
        &self,
        processors: &mut [u32],
        io_apics: &mut [u32],
        overrides: &mut [u32],
        nmi_sources: &mut [u32],
        nmi_lines: &mut [u32],
    ) -> AcpiResult<()> {
        let bytes = self.table.bytes();
        // SAFETY: every pointer and its length are those of one slice, and each buffer is borrowed alone.
        let number = unsafe {
            sys::tablewalk_table_interrupt_lists(
                bytes.as_ptr(),
                bytes.len(),
                processors.as_mut_ptr(),
                processors.len(),
                io_apics.as_mut_ptr(),
                io_apics.len(),
                overrides.as_mut_ptr(),
                overrides.len(),
                nmi_sources.as_mut_ptr(),
                nmi_sources.len(),
                nmi_lines.as_mut_ptr(),
                nmi_lines.len(),
            )
        };
        found(number, Signature::MADT)
    }
}

/// The first processor of the table.
fn boot_processor(words: &[u32]) -> Processor {
    Processor {
        is_ap: false,
        ..Processor::from_words(words)
    }
}

impl<'m> AcpiTable<'m> for Madt<'m> {
    const SIGNATURE: Signature = Signature::MADT;
    const LEAST: u32 = 44;

    fn from_table(table: Table<'m>) -> AcpiResult<Madt<'m>> {
        let mut out = [0; 3];
        found(
            ask_table!(table.bytes(), tablewalk_table_madt_fixed; &mut out),
            Signature::MADT,
        )?;
        Ok(Madt {
            table,
            local_apic_address: out[0] as u32,
            flags: out[1] as u32,
            legacy: out[2] != 0,
        })
    }
}

/// An entry of the MADT, its bytes uninterpreted.
#[derive(Clone, Copy, Debug, PartialEq, Eq)]
pub struct MadtEntry<'m> {
    /// Its kind, docs/TABLES.md, section 11.
    pub entry_type: u8,
    /// All its bytes, kind and length included. There are at least as many as its kind needs.
    pub bytes: &'m [u8],
}

/// The entries of a MADT.
#[derive(Clone, Debug)]
pub struct MadtEntryIter<'m> {
    table: Table<'m>,
    next: usize,
    ended: bool,
}

impl<'m> Iterator for MadtEntryIter<'m> {
    type Item = AcpiResult<MadtEntry<'m>>;

    fn next(&mut self) -> Option<AcpiResult<MadtEntry<'m>>> {
        if self.ended {
            return None;
        }
        let mut out = [0; 3];
        let bytes = self.table.bytes();
        let number = ask_table!(bytes, tablewalk_table_madt_entry, self.next; &mut out);
        self.next += 1;
        match found(number, Signature::MADT) {
            Ok(()) => {
                let [kind, offset, length] = out.map(|word| word as usize);
                let bytes = bytes.get(offset..)?.get(..length)?;
                Some(Ok(MadtEntry {
                    entry_type: kind as u8,
                    bytes,
                }))
            }
            Err(AcpiError::NotFound) => {
                self.ended = true;
                None
            }
            Err(error) => {
                self.ended = true;
                Some(Err(error))
            }
        }
    }
}
