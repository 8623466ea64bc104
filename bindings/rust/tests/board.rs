//! A board with every kind of table, through the safe API.

mod images;

use images::{board, board_of, fadt, fix_sum, madt, table, BOARD, BOARD_ROOT_POINTER};
use tablewalk::{
    address::{AccessSize, AddressSpace, GenericAddress},
    fadt::Fadt,
    hpet::PageProtection,
    madt::Madt,
    platform::{
        interrupt::{LocalInterruptLine, NmiProcessor, NmiSource, Polarity, TriggerMode},
        PmTimer, ProcessorState,
    },
    sdt::Signature,
    AcpiError, AcpiResult, AcpiTable, AcpiTables, AmlTable, HpetInfo, InterruptModel, Memory,
    PciConfigRegions, PlatformInfo, PowerProfile, Range, Table,
};

fn generic(
    address_space: AddressSpace,
    bit_width: u16,
    bit_offset: u8,
    access_size: AccessSize,
    address: u64,
) -> GenericAddress {
    GenericAddress {
        address_space,
        bit_width,
        bit_offset,
        access_size,
        address,
    }
}

fn tables<'m>(image: &'m [u8], ranges: &'m [Range]) -> AcpiTables<'m> {
    AcpiTables::search_for_rsdp_bios(Memory::new(image, ranges).unwrap()).unwrap()
}

#[test]
fn search() {
    let (image, ranges) = board();
    let tables = tables(&image, &ranges);
    assert_eq!(
        (tables.rsdp_address(), tables.revision()),
        (BOARD_ROOT_POINTER as usize, 0)
    );
    let signatures: Vec<_> = tables
        .headers()
        .map(|header| header.signature.to_string())
        .collect();
    assert_eq!(signatures, ["APIC", "MCFG", "HPET", "SSDT", "SSDT", "FACP"]);
}

#[test]
fn aml() {
    let (mut image, ranges) = board();
    let found = tables(&image, &ranges);
    assert_eq!(
        found.dsdt(),
        Ok(AmlTable {
            address: BOARD as usize + 0x500 + 36,
            length: 4
        })
    );
    let ssdts: Vec<_> = found.ssdts().map(|aml| aml.length).collect();
    assert_eq!(ssdts, [5, 0]);
    image[0x500] = b'X';
    assert_eq!(
        tables(&image, &ranges).dsdt(),
        Err(AcpiError::SdtInvalidSignature(Signature::DSDT))
    );
}

#[test]
fn fixed_description() {
    let (image, ranges) = board();
    let found = tables(&image, &ranges).find_table::<Fadt>().unwrap();
    assert_eq!(found.power_profile(), PowerProfile::Mobile);
    assert_eq!((found.sci_interrupt, found.smi_cmd_port), (9, 0xb2));
    assert_eq!(
        (
            found.acpi_enable,
            found.acpi_disable,
            found.s4bios_req,
            found.pstate_control
        ),
        (0xa0, 0xa1, 0xa2, 0xa3)
    );
    assert_eq!((found.gpe1_base, found.c_state_control), (0x10, 0x11));
    assert_eq!((found.worst_c2_latency, found.worst_c3_latency), (0x1213, 0x1415));
    assert_eq!((found.flush_size, found.flush_stride), (0x1617, 0x1819));
    assert_eq!(
        (
            found.duty_offset,
            found.duty_width,
            found.day_alarm,
            found.month_alarm
        ),
        (0x1a, 0x1b, 0x1c, 0x1d)
    );
    assert_eq!(found.century, 0x32);
    assert!(found.iapc_boot_arch.motherboard_implements_8042());
    assert!(found.flags.pm_timer_is_32_bit() && found.flags.supports_system_reset_via_fadt());
    assert!(!found.flags.system_is_hw_reduced_acpi());
    assert_eq!(found.facs_address(), Ok(0x7fe_1000));
    assert_eq!(found.dsdt_address(), Ok(BOARD as usize + 0x500));
    assert_eq!(found.reset_value(), Ok(0xf));
    assert!(found.arm_boot_arch().unwrap().use_hvc_as_psci_conduit());

    let io = AddressSpace::SystemIo;
    assert_eq!(
        found.pm1a_event_block(),
        Ok(generic(
            AddressSpace::SystemMemory,
            32,
            0,
            AccessSize::DWordAccess,
            0x0fd0_0000_0600
        ))
    );
    assert_eq!(found.pm1b_event_block(), Ok(None));
    assert_eq!(
        found.pm1a_control_block(),
        Ok(generic(io, 256, 0, AccessSize::Undefined, 0x604))
    );
    assert_eq!(found.pm1b_control_block(), Ok(None));
    assert_eq!(found.pm2_control_block(), Ok(None));
    assert_eq!(
        found.pm_timer_block(),
        Ok(Some(generic(io, 32, 0, AccessSize::Undefined, 0x608)))
    );
    assert_eq!(found.gpe0_block(), Err(AcpiError::InvalidGenericAddress));
    assert_eq!(found.gpe1_block(), Ok(None));
    assert_eq!(
        found.reset_register(),
        Ok(generic(io, 8, 0, AccessSize::ByteAccess, 0xcf9))
    );
    assert_eq!(
        found.sleep_control_register(),
        Ok(Some(generic(
            AddressSpace::FunctionalFixedHardware,
            8,
            1,
            AccessSize::Undefined,
            0
        )))
    );
    assert_eq!(
        found.sleep_status_register(),
        Ok(Some(generic(
            AddressSpace::OemDefined(0xc1),
            8,
            2,
            AccessSize::QWordAccess,
            5
        )))
    );
}

#[test]
fn short_fixed_description() {
    // 116 bytes of revision 1: no reset register, no wide form, no sleep registers, no addresses.
    let (image, ranges) = board_of(&[table(b"FACP", 1, 116, &[])]);
    let found = tables(&image, &ranges).find_table::<Fadt>().unwrap();
    assert_eq!(
        found.reset_register(),
        Err(AcpiError::TableTooShort(Signature::FADT))
    );
    assert_eq!(
        found.reset_value(),
        Err(AcpiError::TableTooShort(Signature::FADT))
    );
    assert_eq!(found.sleep_control_register(), Ok(None));
    assert_eq!(found.facs_address(), Err(AcpiError::InvalidFacsAddress));
    assert_eq!(found.dsdt_address(), Err(AcpiError::InvalidDsdtAddress));
    assert_eq!(tables(&image, &ranges).dsdt(), Err(AcpiError::InvalidDsdtAddress));
}

#[test]
fn event_timer() {
    let (image, ranges) = board();
    let hpet = HpetInfo::new(&tables(&image, &ranges)).unwrap();
    assert_eq!(
        (hpet.event_timer_block_id, hpet.base_address),
        (0x8086_a201, 0xfed0_0000)
    );
    assert_eq!((hpet.hpet_number, hpet.clock_tick_unit), (3, 0x80));
    assert_eq!(hpet.page_protection, PageProtection::Protected64K);
    assert_eq!(
        (hpet.hardware_rev(), hpet.num_comparators(), hpet.pci_vendor_id()),
        (1, 3, 0x8086)
    );
    assert!(hpet.main_counter_is_64bits() && hpet.legacy_irq_capable());
}

#[test]
fn pci() {
    let (image, ranges) = board();
    let regions = PciConfigRegions::new(&tables(&image, &ranges)).unwrap();
    assert_eq!(regions.iter().count(), 2);
    assert_eq!(regions.physical_address(1, 16, 0, 0), Some(0x80_0000_0000));
    assert_eq!(regions.physical_address(1, 15, 0, 0), None);
    let last = regions.iter().last().unwrap();
    assert_eq!(
        (last.segment_group, last.bus_range, last.physical_address),
        (1, 16..=255, 0x80_0000_0000)
    );
}

#[test]
fn platform() {
    let (image, ranges) = board();
    let tables = tables(&image, &ranges);
    let mut buffer = [0; 24];
    assert_eq!(tables.find_table::<Madt>().unwrap().interrupt_words(), Ok(24));
    let info = tables.platform_info_in(&mut buffer).unwrap();
    assert_eq!(info.power_profile, PowerProfile::Mobile);
    assert_eq!(
        info.pm_timer,
        Some(PmTimer {
            base: generic(AddressSpace::SystemIo, 32, 0, AccessSize::Undefined, 0x608),
            supports_32bit: true
        })
    );
    let processors = info.processor_info.unwrap();
    assert_eq!(processors.boot_processor.processor_uid, 0);
    let others: Vec<_> = processors
        .application_processors
        .iter()
        .map(|one| (one.processor_uid, one.local_apic_id, one.state))
        .collect();
    assert_eq!(
        others,
        [
            (1, 4, ProcessorState::Disabled),
            (300, 256, ProcessorState::WaitingForSipi)
        ]
    );
    let InterruptModel::Apic(apic) = info.interrupt_model else {
        panic!("the model is known")
    };
    assert_eq!(
        (apic.local_apic_address, apic.also_has_legacy_pics),
        (0x1_0000_0000, false)
    );
    assert_eq!(apic.io_apics.iter().map(|one| one.id).collect::<Vec<_>>(), [8, 9]);
    let source = apic.interrupt_source_overrides.get(0).unwrap();
    assert_eq!(
        (source.polarity, source.trigger_mode),
        (Polarity::ActiveHigh, TriggerMode::Level)
    );
    assert_eq!(
        apic.nmi_sources.get(0),
        Some(NmiSource {
            global_system_interrupt: 2,
            polarity: Polarity::ActiveLow,
            trigger_mode: TriggerMode::Edge
        })
    );
    let lines: Vec<_> = apic
        .local_apic_nmi_lines
        .iter()
        .map(|line| (line.processor, line.line))
        .collect();
    assert_eq!(
        lines,
        [
            (NmiProcessor::ProcessorUid(1), LocalInterruptLine::Lint0),
            (NmiProcessor::All, LocalInterruptLine::Lint1)
        ]
    );
    assert_eq!(
        tables.find_table::<Madt>().unwrap().get_mpwk_mailbox_addr(),
        Ok(0x7fe_2000)
    );
    assert_eq!(
        PlatformInfo::new_in(&tables, &mut [0; 23]).unwrap_err(),
        AcpiError::BufferTooShort
    );
}

#[cfg(feature = "alloc")]
#[test]
fn owned_lists() {
    let info = {
        let (image, ranges) = board();
        // The lists outlive the memory that they were read from.
        tables(&image, &ranges).platform_info().unwrap()
    };
    let processors = info.processor_info.unwrap();
    assert_eq!(processors.application_processors.to_vec()[1].local_apic_id, 256);
    let InterruptModel::Apic(apic) = info.interrupt_model else {
        panic!("the model is known")
    };
    assert_eq!(apic.io_apics.to_vec()[1].global_system_interrupt_base, 24);
    assert_eq!((apic.nmi_sources.len(), apic.local_apic_nmi_lines.len()), (1, 2));
}

#[test]
fn platform_without_madt() {
    // No MADT, an invalid one, and one that says nothing: the model is unknown, and that is no error.
    let mut invalid = madt();
    invalid[9] ^= 1;
    for tables_of in [
        vec![fadt()],
        vec![invalid, fadt()],
        vec![table(b"APIC", 5, 44, &[]), fadt()],
        vec![table(b"APIC", 5, 47, &[(44, &[0x80, 3, 0])]), fadt()],
    ] {
        let (image, ranges) = board_of(&tables_of);
        let info = tables(&image, &ranges).platform_info_in(&mut []).unwrap();
        assert!(matches!(info.interrupt_model, InterruptModel::Unknown));
        assert!(info.processor_info.is_none() && info.pm_timer.is_some());
    }
}

#[test]
fn platform_without_timer() {
    let mut without = fadt();
    without[91] = 3;
    fix_sum(&mut without, 9);
    let (image, ranges) = board_of(&[without]);
    assert_eq!(
        tables(&image, &ranges)
            .platform_info_in(&mut [])
            .unwrap()
            .pm_timer,
        None
    );
}

#[test]
fn platform_with_a_wrong_entry() {
    let mut wrong = madt();
    wrong[45] = 7;
    fix_sum(&mut wrong, 9);
    let (image, ranges) = board_of(&[wrong, fadt()]);
    assert_eq!(
        tables(&image, &ranges)
            .platform_info_in(&mut [0; 64])
            .unwrap_err()
            .number(),
        15
    );
}

#[test]
fn platform_refusals_in_order() {
    // The timer in an unknown space. A wrong entry goes before it, and it goes before a short buffer.
    let mut timer = fadt();
    timer[208] = 11;
    timer[212] = 1;
    fix_sum(&mut timer, 9);
    let mut wrong = madt();
    wrong[45] = 7;
    fix_sum(&mut wrong, 9);
    for (tables_of, number) in [
        (vec![timer.clone()], 14),
        (vec![madt(), timer.clone()], 14),
        (vec![wrong, timer], 15),
        (vec![madt()], 12),
        (vec![madt(), fadt()], 17),
    ] {
        let (image, ranges) = board_of(&tables_of);
        let refused = tables(&image, &ranges).platform_info_in(&mut []).unwrap_err();
        assert_eq!(refused.number(), number);
    }
}

/// A kind of table that the crate has no name for.
struct Oem<'m>(&'m [u8]);

impl<'m> AcpiTable<'m> for Oem<'m> {
    const SIGNATURE: Signature = Signature::new(*b"OEM1");
    const LEAST: u32 = 40;

    fn from_table(table: Table<'m>) -> AcpiResult<Oem<'m>> {
        Ok(Oem(&table.bytes()[36..]))
    }
}

#[test]
fn a_table_of_ones_own() {
    let (image, ranges) = board_of(&[
        table(b"OEM1", 1, 39, &[]),
        table(b"OEM1", 1, 40, &[(36, &[1, 2, 3, 4])]),
    ]);
    assert_eq!(
        tables(&image, &ranges).find_table::<Oem>().unwrap().0,
        [1, 2, 3, 4]
    );
}
