//! Processors, interrupt controllers and timer of the platform.

pub mod interrupt;

use crate::{
    address::GenericAddress,
    error::found,
    fadt::Fadt,
    list::{sealed::Sealed, List, Record},
    madt::{Madt, Survey},
    memory::ask,
    sdt::Signature,
    AcpiResult, AcpiTables, InterruptModel, PowerProfile,
};

/// Whether a processor runs.
#[derive(Clone, Copy, Debug, PartialEq, Eq)]
pub enum ProcessorState {
    /// It can not be used, and must not be brought up.
    Disabled,
    /// It can be brought up.
    WaitingForSipi,
    /// It runs.
    Running,
}

/// A processor.
#[derive(Clone, Copy, Debug, PartialEq, Eq)]
pub struct Processor {
    /// Its number in the AML.
    pub processor_uid: u32,
    /// The id of its local interrupt controller.
    pub local_apic_id: u32,
    /// Whether it runs.
    pub state: ProcessorState,
    /// Whether it is any other than the boot processor.
    pub is_ap: bool,
}

impl Sealed for Processor {}

impl Record for Processor {
    const WORDS: usize = 3;

    fn from_words(words: &[u32]) -> Processor {
        Processor {
            processor_uid: words[0],
            local_apic_id: words[1],
            state: match words[2] {
                0 => ProcessorState::Disabled,
                1 => ProcessorState::WaitingForSipi,
                _ => ProcessorState::Running,
            },
            is_ap: true,
        }
    }
}

/// The processors.
#[derive(Debug, Clone)]
pub struct ProcessorInfo<'a> {
    /// The first one of the table.
    pub boot_processor: Processor,
    /// All others, in the order in which they are to be brought up.
    pub application_processors: List<'a, Processor>,
}

/// The timer of the fixed hardware.
#[derive(Debug, Clone, Copy, PartialEq, Eq)]
pub struct PmTimer {
    /// Its register.
    pub base: GenericAddress,
    /// Whether it counts with 32 bits, and not with 24.
    pub supports_32bit: bool,
}

impl PmTimer {
    /// The timer of a FADT, or `None` if it has none.
    pub fn new(fadt: &Fadt<'_>) -> AcpiResult<Option<PmTimer>> {
        let base = fadt.pm_timer_block()?;
        Ok(base.map(|base| PmTimer {
            base,
            supports_32bit: fadt.flags.pm_timer_is_32_bit(),
        }))
    }
}

/// What a kernel asks first about a platform.
#[derive(Debug, Clone)]
pub struct PlatformInfo<'a> {
    /// What the machine is used for.
    pub power_profile: PowerProfile,
    /// The interrupt controllers.
    pub interrupt_model: InterruptModel<'a>,
    /// The processors, where the interrupt model is known.
    pub processor_info: Option<ProcessorInfo<'a>>,
    /// The timer, if there is one.
    pub pm_timer: Option<PmTimer>,
}

/// The model with its lists, and the processors.
type Lists<'a> = AcpiResult<(InterruptModel<'a>, Option<ProcessorInfo<'a>>)>;

impl<'a> PlatformInfo<'a> {
    /// Reads FADT and MADT. A FADT is needed; without a valid MADT the model is unknown.
    ///
    /// The lists go to `buffer`: [`Madt::interrupt_words`] says how many words they need, and
    /// [`BufferTooShort`](crate::AcpiError::BufferTooShort) that it has fewer. An error of the FADT goes
    /// before one of the MADT, this before one of the timer, and this before that of the buffer.
    pub fn new_in(tables: &AcpiTables<'_>, buffer: &'a mut [u32]) -> AcpiResult<PlatformInfo<'a>> {
        PlatformInfo::of(tables, |madt, survey| madt.lists_in(survey, buffer))
    }

    /// One question answers all but the lists, and these are asked of the MADT where the model is known.
    fn of<'m>(
        tables: &AcpiTables<'m>,
        lists: impl FnOnce(&Madt<'m>, &Survey) -> Lists<'a>,
    ) -> AcpiResult<PlatformInfo<'a>> {
        let mut out = [0; 16];
        let number = ask!(&tables.memory(), tablewalk_platform, tables.rsdp_address() as u64; &mut out);
        found(number, Signature::FADT)?;
        let [profile, m0, m1, m2, m3, m4, m5, m6, m7, there, t0, t1, t2, t3, t4, wide] = out;
        let survey = Survey::from_words(&[m0, m1, m2, m3, m4, m5, m6, m7]);
        let (interrupt_model, processor_info) = if survey.known() {
            lists(&tables.find_table::<Madt>()?, &survey)?
        } else {
            (InterruptModel::Unknown, None)
        };
        let timer = PmTimer {
            base: GenericAddress::from_words(&[t0, t1, t2, t3, t4]),
            supports_32bit: wide != 0,
        };
        Ok(PlatformInfo {
            power_profile: PowerProfile::from_word(profile),
            interrupt_model,
            processor_info,
            pm_timer: (there != 0).then_some(timer),
        })
    }
}

#[cfg(feature = "alloc")]
impl PlatformInfo<'static> {
    /// The same with owned lists.
    pub fn new(tables: &AcpiTables<'_>) -> AcpiResult<PlatformInfo<'static>> {
        PlatformInfo::of(tables, |madt, survey| madt.lists(survey))
    }
}
