//! Asks the crate acpi 5.2.0, as published, through a handler that maps by the list of
//! ranges and stops the question where no range holds what is asked for.

use crate::question::*;
use acpi::{
    address::{AccessSize, AddressSpace, GenericAddress},
    fadt::Fadt,
    hpet::{HpetTable, PageProtection},
    madt::{Madt, MadtEntry},
    mcfg::Mcfg,
    platform::{
        interrupt::{LocalInterruptLine, NmiProcessor, Polarity, TriggerMode},
        Processor, ProcessorInfo, ProcessorState,
    },
    rsdp::Rsdp,
    sdt::{SdtHeader, Signature},
    AcpiError, AcpiHandler, AcpiTable, AcpiTables, HpetInfo, InterruptModel, MadtError, PciConfigRegions,
    PhysicalMapping, PowerProfile,
};
use std::{
    cell::RefCell,
    panic::{catch_unwind, resume_unwind, AssertUnwindSafe},
    ptr::NonNull,
    sync::atomic::{AtomicBool, Ordering},
};

/// Whether the crate is being asked. A panic is then an answer like any other, and one of
/// ours at any other time.
pub static ASKING: AtomicBool = AtomicBool::new(false);

/// What a question to the crate is thrown out with when it asks for unmapped memory.
struct NoRange;

/// The image with its padding, the list of ranges, and what was mapped so far.
pub struct Machine<'a> {
    pub bytes: &'a [u8],
    pub ranges: &'a [u64],
    mapped: RefCell<Vec<u64>>,
}

#[derive(Clone, Copy)]
struct Handler<'a> {
    machine: &'a Machine<'a>,
    /// Show a header of zeros where none is mapped. Only used to list the root entries,
    /// where the crate offers no other way to go on behind an unmapped one.
    blank: bool,
}

impl std::fmt::Debug for Handler<'_> {
    fn fmt(&self, f: &mut std::fmt::Formatter<'_>) -> std::fmt::Result {
        f.write_str("Handler")
    }
}

static BLANK: [u8; 36] = [0; 36];

impl AcpiHandler for Handler<'_> {
    unsafe fn map_physical_region<T>(&self, address: usize, size: usize) -> PhysicalMapping<Self, T> {
        self.machine.mapped.borrow_mut().push(address as u64);
        let start = match self.machine.offset(address as u64, size as u64) {
            Some(offset) => &self.machine.bytes[offset],
            None if self.blank && size == BLANK.len() => &BLANK[0],
            None => resume_unwind(Box::new(NoRange)),
        };
        let start = NonNull::from(start).cast::<T>();
        // SAFETY: the range holds all bytes, and the padding those of a larger type.
        unsafe { PhysicalMapping::new(address, start, size, size, *self) }
    }

    fn unmap_physical_region<T>(_: &PhysicalMapping<Self, T>) {}
}

/// A table of any signature that a find may ask for.
#[repr(transparent)]
struct Any<const SIGNATURE: u32>(SdtHeader);

// SAFETY: every table begins with the header, and no other field is read.
unsafe impl<const SIGNATURE: u32> AcpiTable for Any<SIGNATURE> {
    // SAFETY: a signature is a transparent wrapper of its four bytes.
    const SIGNATURE: Signature = unsafe { std::mem::transmute(SIGNATURE) };

    fn header(&self) -> &SdtHeader {
        &self.0
    }
}

/// A signature that no generated table has.
const NO_TABLE: u32 = signature(b"\x01\x02\x03\x04");

fn signature_value(number: u32) -> Signature {
    // SAFETY: a signature is a transparent wrapper of its four bytes.
    unsafe { std::mem::transmute(number) }
}

fn number_of(error: AcpiError) -> u32 {
    match error {
        AcpiError::NoValidRsdp => 18,
        AcpiError::RsdpIncorrectSignature => 3,
        AcpiError::RsdpInvalidOemId => 4,
        AcpiError::RsdpInvalidChecksum => 5,
        AcpiError::SdtInvalidSignature(_) => 7,
        AcpiError::SdtInvalidOemId(_) => 8,
        AcpiError::SdtInvalidTableId(_) => 9,
        AcpiError::SdtInvalidChecksum(_) => 10,
        AcpiError::TableMissing(_) => 12,
        AcpiError::InvalidFacsAddress | AcpiError::InvalidDsdtAddress => 13,
        AcpiError::InvalidGenericAddress => 14,
        AcpiError::InvalidMadt(MadtError::UnexpectedEntry) => 15,
        AcpiError::InvalidMadt(
            MadtError::InterruptOverrideEntryHasInvalidBus
            | MadtError::InvalidLocalNmiLine
            | MadtError::MpsIntiInvalidPolarity
            | MadtError::MpsIntiInvalidTriggerMode,
        ) => 16,
        AcpiError::InvalidMadt(MadtError::WakeupApsTimeout) | AcpiError::AllocError => {
            unreachable!("no question asked here can give {error:?}")
        }
    }
}

fn generic_values(address: GenericAddress) -> Vec<u64> {
    let space = match address.address_space {
        AddressSpace::SystemMemory => 0,
        AddressSpace::SystemIo => 1,
        AddressSpace::PciConfigSpace => 2,
        AddressSpace::EmbeddedController => 3,
        AddressSpace::SMBus => 4,
        AddressSpace::SystemCmos => 5,
        AddressSpace::PciBarTarget => 6,
        AddressSpace::Ipmi => 7,
        AddressSpace::GeneralIo => 8,
        AddressSpace::GenericSerialBus => 9,
        AddressSpace::PlatformCommunicationsChannel => 10,
        AddressSpace::FunctionalFixedHardware => 0x7f,
        AddressSpace::OemDefined(space) => space as u64,
    };
    let access_size = match address.access_size {
        AccessSize::Undefined => 0,
        AccessSize::ByteAccess => 1,
        AccessSize::WordAccess => 2,
        AccessSize::DWordAccess => 3,
        AccessSize::QWordAccess => 4,
    };
    vec![
        space,
        address.bit_width as u64,
        address.bit_offset as u64,
        access_size,
        address.address,
    ]
}

fn flags_value(polarity: Polarity, trigger: TriggerMode) -> u64 {
    let polarity = match polarity {
        Polarity::SameAsBus => 0,
        Polarity::ActiveHigh => 1,
        Polarity::ActiveLow => 3,
    };
    let trigger = match trigger {
        TriggerMode::SameAsBus => 0,
        TriggerMode::Edge => 1,
        TriggerMode::Level => 3,
    };
    polarity + 4 * trigger
}

fn profile_value(profile: PowerProfile) -> u64 {
    match profile {
        PowerProfile::Unspecified => 0,
        PowerProfile::Desktop => 1,
        PowerProfile::Mobile => 2,
        PowerProfile::Workstation => 3,
        PowerProfile::EnterpriseServer => 4,
        PowerProfile::SohoServer => 5,
        PowerProfile::AppliancePc => 6,
        PowerProfile::PerformanceServer => 7,
        PowerProfile::Tablet => 8,
        PowerProfile::Reserved(number) => number as u64,
    }
}

fn processor_values(processor: &Processor, place: usize) -> [u64; 3] {
    assert_eq!(
        processor.is_ap,
        place > 0,
        "only the first processor is the boot processor"
    );
    let state = match processor.state {
        ProcessorState::Disabled => 0,
        ProcessorState::WaitingForSipi => 1,
        ProcessorState::Running => 2,
    };
    [processor.processor_uid as u64, processor.local_apic_id as u64, state]
}

/// The number in the two or four bytes of a type of flags, whose field is private. Every
/// flag that the crate names must be the bit of that number.
fn flag_bits<T: Copy>(flags: T, named: &[fn(&T) -> bool]) -> u64 {
    let mut value = 0u64;
    // SAFETY: each of these types is one number.
    unsafe {
        std::ptr::copy_nonoverlapping(
            (&flags as *const T).cast::<u8>(),
            (&mut value as *mut u64).cast::<u8>(),
            std::mem::size_of::<T>(),
        );
    }
    for (bit, flag) in named.iter().enumerate() {
        assert_eq!(flag(&flags), value >> bit & 1 == 1, "flag {bit} of {value:#x}");
    }
    value
}

impl<'a> Machine<'a> {
    pub fn new(bytes: &'a [u8], ranges: &'a [u64]) -> Self {
        Machine {
            bytes,
            ranges,
            mapped: RefCell::new(Vec::new()),
        }
    }

    fn offset(&self, address: u64, size: u64) -> Option<usize> {
        for range in self.ranges.chunks(3) {
            let (start, length, offset) = (range[0], range[1], range[2]);
            if address >= start && address - start < length && size <= length - (address - start) {
                return Some((offset + (address - start)) as usize);
            }
        }
        None
    }

    fn place(&self, address: u64, length: u64) -> Vec<u64> {
        vec![address, self.offset(address, 1).unwrap_or(0) as u64, length]
    }

    fn handler(&'a self) -> Handler<'a> {
        Handler {
            machine: self,
            blank: false,
        }
    }

    fn tables(&'a self, pointer: u64) -> Result<AcpiTables<Handler<'a>>, AcpiError> {
        // SAFETY: what is not mapped ends the question.
        unsafe { AcpiTables::from_rsdp(self.handler(), pointer as usize) }
    }

    fn find<T: AcpiTable>(&'a self, tables: &AcpiTables<Handler<'a>>) -> Result<Vec<u64>, AcpiError> {
        let table = tables.find_table::<T>()?;
        Ok(self.place(table.physical_start() as u64, table.region_length() as u64))
    }

    /// Asks in this process. A question that does not end or that reads memory which the
    /// process does not have must be asked in another one.
    pub fn ask(&'a self, question: &Question) -> Outcome {
        self.mapped.borrow_mut().clear();
        ASKING.store(true, Ordering::Relaxed);
        let answer = catch_unwind(AssertUnwindSafe(|| self.answer(question)));
        ASKING.store(false, Ordering::Relaxed);
        match answer {
            Ok(Some(Ok(answer))) => Outcome::Answer(answer),
            Ok(Some(Err(error))) => Outcome::Answer(Err(number_of(error))),
            Ok(None) => Outcome::NoCounterpart,
            Err(thrown) if thrown.is::<NoRange>() => Outcome::Unmapped,
            Err(_) => Outcome::Panic,
        }
    }

    fn answer(&'a self, question: &Question) -> Option<Result<Answer, AcpiError>> {
        match *question {
            Question::Ranges | Question::Table(..) => None,
            Question::Pointer(address) => Some(self.pointer(address)),
            Question::Search => {
                // SAFETY: as for `tables`.
                let found = unsafe { Rsdp::search_for_on_bios(self.handler()) };
                Some(found.map(|pointer| Ok(vec![pointer.physical_start() as u64])))
            }
            // The crate's signatures are texts.
            Question::TableAt { signature, .. } if std::str::from_utf8(&signature.to_le_bytes()).is_err() => None,
            Question::TableAt { address, signature, .. } => Some(self.table_at(address, Some(signature))),
            Question::AnyTableAt(address) => Some(self.table_at(address, None)),
            Question::Root(pointer) => Some(self.root(pointer)),
            Question::Entry(pointer, k) => Some(self.entry(pointer, k)),
            Question::Find { n, .. } if n > 0 => None,
            Question::Find { pointer, signature, .. } => self.find_signature(pointer, signature),
            Question::Header(pointer, n) => Some(self.header(pointer, n)),
            Question::Dsdt(pointer) => Some(self.tables(pointer).and_then(|tables| {
                let table = tables.dsdt()?;
                Ok(Ok(vec![table.address as u64, table.length as u64]))
            })),
            Question::Ssdt(pointer, n) => Some(self.tables(pointer).map(|tables| {
                let mut iterator = tables.ssdts();
                for _ in 0..n {
                    iterator.next().ok_or(12u32)?;
                }
                let table = iterator.next().ok_or(12u32)?;
                Ok(vec![table.address as u64, table.length as u64])
            })),
            Question::Entries(pointer) => Some(self.entries(pointer)),
            Question::Platform(pointer) => Some(self.tables(pointer).and_then(|tables| {
                let platform = tables.platform_info()?;
                let mut values = vec![profile_value(platform.power_profile)];
                values.extend(model_values(&platform.interrupt_model, &platform.processor_info).0);
                match platform.pm_timer {
                    Some(timer) => {
                        values.push(1);
                        values.extend(generic_values(timer.base));
                        values.push(timer.supports_32bit as u64);
                    }
                    None => values.extend([0; 7]),
                }
                Ok(Ok(values))
            })),
            Question::Of(_, Ask::MadtEntry(_)) => None,
            Question::Of(_, Ask::FadtRegister(11..)) | Question::Of(_, Ask::FadtNumber(5..)) => None,
            Question::Of(pointer, ask) => Some(self.tables(pointer).and_then(|tables| self.of(&tables, &ask))),
        }
    }

    fn pointer(&'a self, address: u64) -> Result<Answer, AcpiError> {
        // SAFETY: what is not mapped ends the question.
        let pointer = unsafe { self.handler().map_physical_region::<Rsdp>(address as usize, 36) };
        pointer.validate()?;
        let revision = pointer.revision();
        let (length, xsdt_address) = if revision == 0 {
            (20, 0)
        } else {
            (pointer.length() as u64, pointer.xsdt_address())
        };
        Ok(Ok(vec![
            revision as u64,
            length,
            pointer.rsdt_address() as u64,
            xsdt_address,
        ]))
    }

    /// The crate offers no table at an address, but the test of a header whose whole table
    /// is mapped.
    fn table_at(&'a self, address: u64, signature: Option<u32>) -> Result<Answer, AcpiError> {
        // SAFETY: what is not mapped ends the question.
        let header = unsafe { self.handler().map_physical_region::<SdtHeader>(address as usize, 36) };
        let length = header.length as usize;
        // SAFETY: as above.
        let whole = unsafe {
            self.handler()
                .map_physical_region::<SdtHeader>(address as usize, length.max(36))
        };
        whole.validate(signature.map_or(header.signature, signature_value))?;
        Ok(Ok(self.place(address, length as u64)))
    }

    /// Kind, address, offset, length and entry size: how many entries there are is not told.
    fn root(&'a self, pointer: u64) -> Result<Answer, AcpiError> {
        let tables = self.tables(pointer)?;
        // The mapping is private, but it is printed.
        let text = format!("{tables:?}");
        let field = |name: &str| {
            let at = text.find(name).expect("the mapping prints its fields") + name.len();
            let digits: String = text[at..].chars().take_while(char::is_ascii_digit).collect();
            digits.parse::<u64>().expect("a number")
        };
        let kind = (tables.revision() != 0) as u64;
        let mut values = vec![kind];
        values.extend(self.place(field("physical_start: "), field("region_length: ")));
        values.push(4 + 4 * kind);
        Ok(Ok(values))
    }

    /// The entries are private, but a find that finds nothing maps each of them in order.
    fn entry(&'a self, pointer: u64, k: u64) -> Result<Answer, AcpiError> {
        drop(self.tables(pointer)?);
        let handler = Handler {
            machine: self,
            blank: true,
        };
        // SAFETY: the root was mapped on the line above.
        let tables = unsafe { AcpiTables::from_rsdp(handler, pointer as usize)? };
        self.mapped.borrow_mut().clear();
        let found = tables.find_table::<Any<NO_TABLE>>();
        assert!(found.is_err(), "no table has this signature");
        let entries = self.mapped.borrow();
        Ok(entries.get(k as usize).map(|entry| vec![*entry]).ok_or(13))
    }

    fn find_signature(&'a self, pointer: u64, wanted: u32) -> Option<Result<Answer, AcpiError>> {
        type Finder<'a> = fn(&'a Machine<'a>, &AcpiTables<Handler<'a>>) -> Result<Vec<u64>, AcpiError>;
        let finder: Finder<'a> = match &wanted.to_le_bytes() {
            b"FACP" => Self::find::<Fadt>,
            b"APIC" => Self::find::<Madt>,
            b"MCFG" => Self::find::<Mcfg>,
            b"HPET" => Self::find::<HpetTable>,
            b"BGRT" => Self::find::<acpi::bgrt::Bgrt>,
            b"SPCR" => Self::find::<acpi::spcr::Spcr>,
            b"SSDT" => Self::find::<Any<{ signature(b"SSDT") }>>,
            b"DSDT" => Self::find::<Any<{ signature(b"DSDT") }>>,
            b"OEM1" => Self::find::<Any<{ signature(b"OEM1") }>>,
            b"XSDT" => Self::find::<Any<{ signature(b"XSDT") }>>,
            _ => return None,
        };
        Some(self.tables(pointer).and_then(|tables| finder(self, &tables).map(Ok)))
    }

    fn header(&'a self, pointer: u64, n: u64) -> Result<Answer, AcpiError> {
        let tables = self.tables(pointer)?;
        let mut headers = tables.headers();
        for _ in 0..n {
            if headers.next().is_none() {
                return Ok(Err(12));
            }
        }
        Ok(headers.next().map_or(Err(12), |header| {
            let address = *self.mapped.borrow().last().expect("a header was mapped");
            Ok(self.place(address, header.length as u64))
        }))
    }

    fn entries(&'a self, pointer: u64) -> Result<Answer, AcpiError> {
        let tables = self.tables(pointer)?;
        let madt = tables.find_table::<Madt>()?;
        let table = madt.virtual_start().as_ptr() as usize;
        let mut values = Vec::new();
        for entry in madt.get().entries() {
            macro_rules! header {
                ($($kind:ident)*) => {
                    match entry {
                        $( MadtEntry::$kind(entry) => (entry as *const _ as usize - table, entry.header), )*
                    }
                };
            }
            let (offset, header) = header! {
                LocalApic IoApic InterruptSourceOverride NmiSource LocalApicNmi LocalApicAddressOverride IoSapic
                LocalSapic PlatformInterruptSource LocalX2Apic X2ApicNmi Gicc Gicd GicMsiFrame GicRedistributor
                GicInterruptTranslationService MultiprocessorWakeup
            };
            values.extend([header.entry_type as u64, offset as u64, header.length as u64]);
        }
        Ok(Ok(values))
    }

    fn of(&'a self, tables: &AcpiTables<Handler<'a>>, ask: &Ask) -> Result<Answer, AcpiError> {
        match *ask {
            Ask::Hpet => {
                let hpet = HpetInfo::new(tables)?;
                let protection = match hpet.page_protection {
                    PageProtection::None => 0,
                    PageProtection::Protected4K => 1,
                    PageProtection::Protected64K => 2,
                    PageProtection::Other => 3,
                };
                Ok(Ok(vec![
                    hpet.event_timer_block_id as u64,
                    hpet.hardware_rev() as u64,
                    hpet.num_comparators() as u64,
                    hpet.main_counter_is_64bits() as u64,
                    hpet.legacy_irq_capable() as u64,
                    hpet.pci_vendor_id() as u64,
                    hpet.base_address as u64,
                    hpet.hpet_number as u64,
                    hpet.clock_tick_unit as u64,
                    protection,
                ]))
            }
            Ask::McfgCount => Ok(Ok(vec![PciConfigRegions::new(tables)?.iter().count() as u64])),
            Ask::McfgEntry(k) => {
                let regions = PciConfigRegions::new(tables)?;
                let entry = regions.iter().nth(k as usize);
                Ok(entry.ok_or(13).map(|entry| {
                    let (first, last) = entry.bus_range.into_inner();
                    vec![
                        entry.physical_address as u64,
                        entry.segment_group as u64,
                        first as u64,
                        last as u64,
                    ]
                }))
            }
            Ask::PciAddress(segment, bus, device, function) => {
                let regions = PciConfigRegions::new(tables)?;
                Ok(regions
                    .physical_address(segment, bus, device, function)
                    .map(|address| vec![address])
                    .ok_or(13))
            }
            Ask::FadtFixed => {
                let fadt = tables.find_table::<Fadt>()?;
                Ok(Ok(fadt_fixed(&fadt)))
            }
            Ask::FadtRegister(which) => {
                let fadt = tables.find_table::<Fadt>()?;
                let register = match which {
                    0 => Some(fadt.pm1a_event_block()?),
                    1 => fadt.pm1b_event_block()?,
                    2 => Some(fadt.pm1a_control_block()?),
                    3 => fadt.pm1b_control_block()?,
                    4 => fadt.pm2_control_block()?,
                    5 => fadt.pm_timer_block()?,
                    6 => fadt.gpe0_block()?,
                    7 => fadt.gpe1_block()?,
                    8 => Some(fadt.reset_register()?),
                    9 => fadt.sleep_control_register()?,
                    _ => fadt.sleep_status_register()?,
                };
                Ok(register.map(generic_values).ok_or(13))
            }
            Ask::FadtNumber(which) => {
                let fadt = tables.find_table::<Fadt>()?;
                let number = match which {
                    0 => fadt.facs_address()? as u64,
                    1 => fadt.dsdt_address()? as u64,
                    2 => fadt.reset_value as u64,
                    3 => flag_bits(
                        fadt.arm_boot_arch,
                        &[|flags| flags.implements_psci(), |flags| flags.use_hvc_as_psci_conduit()],
                    ),
                    _ => profile_value(fadt.power_profile()),
                };
                Ok(Ok(vec![number]))
            }
            Ask::MadtFixed => {
                let madt = tables.find_table::<Madt>()?;
                let madt = madt.get();
                Ok(Ok(vec![
                    madt.local_apic_address as u64,
                    madt.flags as u64,
                    madt.supports_8259() as u64,
                ]))
            }
            Ask::MadtEntry(_) => unreachable!("the crate numbers no entries"),
            Ask::Model | Ask::Lists(_) => {
                let madt = tables.find_table::<Madt>()?;
                let (model, processors) = madt.get().parse_interrupt_model_in(std::alloc::Global)?;
                let (values, lists) = model_values(&model, &processors);
                if *ask == Ask::Model {
                    return Ok(Ok(values));
                }
                let mut values = Vec::new();
                for list in lists {
                    values.push(list.len() as u64);
                    values.extend(list);
                }
                Ok(Ok(values))
            }
            Ask::Mailbox => {
                let madt = tables.find_table::<Madt>()?;
                Ok(Ok(vec![madt.get().get_mpwk_mailbox_addr()?]))
            }
        }
    }
}

/// Whether the model is known, its address, whether there are old controllers and how many
/// records each list has, and the five lists. A model that is not known tells none of it.
fn model_values(
    model: &InterruptModel<std::alloc::Global>,
    processors: &Option<ProcessorInfo<std::alloc::Global>>,
) -> (Vec<u64>, [Vec<u64>; 5]) {
    let mut lists: [Vec<u64>; 5] = Default::default();
    let InterruptModel::Apic(apic) = model else {
        assert!(processors.is_none(), "a model that is not known has no processors");
        return (vec![0; 8], lists);
    };
    let processors = processors.as_ref().expect("a known model has processors");
    lists[0].extend(processor_values(&processors.boot_processor, 0));
    for (place, processor) in processors.application_processors.iter().enumerate() {
        lists[0].extend(processor_values(processor, place + 1));
    }
    for controller in apic.io_apics.iter() {
        lists[1].extend([
            controller.id as u64,
            controller.address as u64,
            controller.global_system_interrupt_base as u64,
        ]);
    }
    for one in apic.interrupt_source_overrides.iter() {
        lists[2].extend([
            one.isa_source as u64,
            one.global_system_interrupt as u64,
            flags_value(one.polarity, one.trigger_mode),
        ]);
    }
    for source in apic.nmi_sources.iter() {
        lists[3].extend([
            source.global_system_interrupt as u64,
            flags_value(source.polarity, source.trigger_mode),
        ]);
    }
    for line in apic.local_apic_nmi_lines.iter() {
        let processor = match line.processor {
            NmiProcessor::All => 0xffff_ffff,
            NmiProcessor::ProcessorUid(uid) => uid as u64,
        };
        let number = match line.line {
            LocalInterruptLine::Lint0 => 0,
            LocalInterruptLine::Lint1 => 1,
        };
        lists[4].extend([processor, number]);
    }
    let mut values = vec![1, apic.local_apic_address, apic.also_has_legacy_pics as u64];
    for (list, size) in lists.iter().zip([3, 3, 3, 2, 2]) {
        values.push((list.len() / size) as u64);
    }
    (values, lists)
}

fn fadt_fixed(fadt: &Fadt) -> Vec<u64> {
    let boot = flag_bits(
        fadt.iapc_boot_arch,
        &[
            |flags| flags.legacy_devices_are_accessible(),
            |flags| flags.motherboard_implements_8042(),
            |flags| flags.dont_probe_vga(),
            |flags| flags.dont_enable_msi(),
            |flags| flags.dont_enable_pcie_aspm(),
            |flags| flags.use_time_and_alarm_namespace_for_rtc(),
        ],
    );
    let features = flag_bits(
        fadt.flags,
        &[
            |flags| flags.supports_equivalent_to_wbinvd(),
            |flags| flags.wbinvd_flushes_all_caches(),
            |flags| flags.all_procs_support_c1_power_state(),
            |flags| flags.c2_configured_for_mp_system(),
            |flags| flags.power_button_is_control_method(),
            |flags| flags.sleep_button_is_control_method(),
            |flags| flags.no_rtc_wake_in_fixed_register_space(),
            |flags| flags.rtc_wakes_system_from_s4(),
            |flags| flags.pm_timer_is_32_bit(),
            |flags| flags.supports_docking(),
            |flags| flags.supports_system_reset_via_fadt(),
            |flags| flags.case_is_sealed(),
            |flags| flags.system_is_headless(),
            |flags| flags.use_instr_after_write_to_slp_typx(),
            |flags| flags.supports_pciexp_wake_in_pm1(),
            |flags| flags.use_pm_or_hpet_for_monotonically_decreasing_timers(),
            |flags| flags.rtc_sts_is_valid_after_wakeup_from_s4(),
            |flags| flags.ospm_may_leave_gpe_wake_events_armed_before_s5(),
            |flags| flags.lapics_must_use_cluster_model_for_logical_mode(),
            |flags| flags.local_xapics_must_use_physical_destination_mode(),
            |flags| flags.system_is_hw_reduced_acpi(),
            |flags| flags.no_benefit_to_s3(),
        ],
    );
    vec![
        fadt.sci_interrupt as u64,
        fadt.smi_cmd_port as u64,
        fadt.acpi_enable as u64,
        fadt.acpi_disable as u64,
        fadt.s4bios_req as u64,
        fadt.pstate_control as u64,
        fadt.gpe1_base as u64,
        fadt.c_state_control as u64,
        fadt.worst_c2_latency as u64,
        fadt.worst_c3_latency as u64,
        fadt.flush_size as u64,
        fadt.flush_stride as u64,
        fadt.duty_offset as u64,
        fadt.duty_width as u64,
        fadt.day_alarm as u64,
        fadt.month_alarm as u64,
        fadt.century as u64,
        boot,
        features,
    ]
}
