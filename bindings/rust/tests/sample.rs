//! The sample of docs/TABLES.md, section 12, through the safe API.

mod images;

use images::{fix_sum, sample, sample_ranges, SAMPLE};
use tablewalk::{
    fadt::Fadt,
    madt::Madt,
    platform::{
        interrupt::{
            InterruptSourceOverride, IoApic, LocalInterruptLine, NmiLine, NmiProcessor, Polarity, TriggerMode,
        },
        Processor, ProcessorState,
    },
    rsdp::Rsdp,
    sdt::Signature,
    AcpiError, AcpiTables, HpetInfo, InterruptModel, MadtError, Memory, PciConfigRegions, PlatformInfo,
    Range,
};

/// The model of an image in place of the sample.
fn model_error(image: &[u8]) -> AcpiError {
    let ranges = sample_ranges();
    let memory = Memory::new(image, &ranges).unwrap();
    let tables = match AcpiTables::from_rsdp(memory, SAMPLE as usize) {
        Ok(tables) => tables,
        Err(error) => return error,
    };
    let mut buffer = [0; 64];
    match tables.find_table::<Madt>() {
        Ok(madt) => madt.parse_interrupt_model_in(&mut buffer).unwrap_err(),
        Err(error) => error,
    }
}

#[test]
fn root() {
    let (image, ranges) = (sample(), sample_ranges());
    let memory = Memory::new(&image, &ranges).unwrap();
    let rsdp = Rsdp::at(memory, SAMPLE).unwrap();
    assert_eq!((rsdp.revision(), rsdp.length()), (2, 36));
    assert_eq!((rsdp.rsdt_address(), rsdp.xsdt_address()), (0, SAMPLE + 0x40));
    let tables = AcpiTables::from_rsdp(memory, SAMPLE as usize).unwrap();
    assert_eq!(tables.revision(), 2);
    assert_eq!(tables.rsdp_address(), SAMPLE as usize);
}

#[test]
fn headers() {
    let (image, ranges) = (sample(), sample_ranges());
    let tables = AcpiTables::from_rsdp(Memory::new(&image, &ranges).unwrap(), SAMPLE as usize).unwrap();
    let headers: Vec<_> = tables.headers().collect();
    assert_eq!(headers.len(), 2);
    assert_eq!(
        (headers[0].signature, headers[0].length, headers[0].revision),
        (Signature::MADT, 88, 4)
    );
    assert_eq!((headers[1].signature, headers[1].length), (Signature::MCFG, 60));
    assert_eq!(
        (headers[0].oem_id(), headers[0].oem_table_id()),
        ("ROWANS", "BLADE-07")
    );
    assert_eq!(
        (
            headers[0].oem_revision,
            headers[0].creator_id,
            headers[0].creator_revision
        ),
        (1, 0x204e_5752, 1)
    );
    let found: Vec<_> = tables
        .tables()
        .map(|table| (table.physical_start(), table.region_length()))
        .collect();
    assert_eq!(
        found,
        [(SAMPLE as usize + 0x80, 88), (SAMPLE as usize + 0x100, 60)]
    );
    assert_eq!(tables.ssdts().count(), 0);
}

#[test]
fn interrupt_model() {
    let (image, ranges) = (sample(), sample_ranges());
    let tables = AcpiTables::from_rsdp(Memory::new(&image, &ranges).unwrap(), SAMPLE as usize).unwrap();
    let madt = tables.find_table::<Madt>().unwrap();
    assert_eq!(
        (madt.local_apic_address, madt.flags, madt.supports_8259()),
        (0xfee0_0000, 1, true)
    );
    assert_eq!(madt.interrupt_words(), Ok(14));

    let mut buffer = [0xdead_beef; 16];
    let (model, processors) = madt.parse_interrupt_model_in(&mut buffer).unwrap();
    let processors = processors.unwrap();
    assert_eq!(
        processors.boot_processor,
        Processor {
            processor_uid: 0,
            local_apic_id: 0,
            state: ProcessorState::Running,
            is_ap: false
        }
    );
    let others: Vec<_> = processors.application_processors.iter().collect();
    assert_eq!(
        others,
        [Processor {
            processor_uid: 1,
            local_apic_id: 2,
            state: ProcessorState::WaitingForSipi,
            is_ap: true
        }]
    );
    let InterruptModel::Apic(apic) = model else {
        panic!("the model is known")
    };
    assert_eq!(
        (apic.local_apic_address, apic.also_has_legacy_pics),
        (0xfee0_0000, true)
    );
    assert_eq!(apic.io_apics.len(), 1);
    assert_eq!(
        apic.io_apics.get(0),
        Some(IoApic {
            id: 2,
            address: 0xfec0_0000,
            global_system_interrupt_base: 0
        })
    );
    assert_eq!(apic.io_apics.get(1), None);
    let overrides: Vec<_> = (&apic.interrupt_source_overrides).into_iter().collect();
    assert_eq!(
        overrides,
        [InterruptSourceOverride {
            isa_source: 0,
            global_system_interrupt: 2,
            polarity: Polarity::SameAsBus,
            trigger_mode: TriggerMode::SameAsBus
        }]
    );
    assert!(apic.nmi_sources.is_empty());
    let lines: Vec<_> = apic.local_apic_nmi_lines.iter().collect();
    assert_eq!(
        lines,
        [NmiLine {
            processor: NmiProcessor::All,
            line: LocalInterruptLine::Lint1
        }]
    );
    drop((apic, processors));
    // What the lists do not need of the buffer stays as it was.
    assert_eq!(buffer[14..], [0xdead_beef; 2]);
}

#[test]
fn buffer_too_short() {
    let (image, ranges) = (sample(), sample_ranges());
    let tables = AcpiTables::from_rsdp(Memory::new(&image, &ranges).unwrap(), SAMPLE as usize).unwrap();
    let madt = tables.find_table::<Madt>().unwrap();
    for length in 0..14 {
        let mut buffer = vec![7; length];
        assert_eq!(
            madt.parse_interrupt_model_in(&mut buffer).unwrap_err(),
            AcpiError::BufferTooShort
        );
        assert!(buffer.iter().all(|word| *word == 7));
    }
    assert!(madt.parse_interrupt_model_in(&mut [0; 14]).is_ok());
}

#[test]
fn entries() {
    let (image, ranges) = (sample(), sample_ranges());
    let tables = AcpiTables::from_rsdp(Memory::new(&image, &ranges).unwrap(), SAMPLE as usize).unwrap();
    let madt = tables.find_table::<Madt>().unwrap();
    let entries: Vec<_> = madt.entries().map(|entry| entry.unwrap()).collect();
    let kinds: Vec<_> = entries
        .iter()
        .map(|entry| (entry.entry_type, entry.bytes.len()))
        .collect();
    assert_eq!(kinds, [(0, 8), (0, 8), (1, 12), (2, 10), (4, 6)]);
    assert_eq!(entries[4].bytes, [4, 6, 0xff, 5, 0, 1]);
    assert_eq!(
        madt.get_mpwk_mailbox_addr(),
        Err(AcpiError::InvalidMadt(MadtError::UnexpectedEntry))
    );
}

#[test]
fn pci() {
    let (image, ranges) = (sample(), sample_ranges());
    let tables = AcpiTables::from_rsdp(Memory::new(&image, &ranges).unwrap(), SAMPLE as usize).unwrap();
    let regions = PciConfigRegions::new(&tables).unwrap();
    assert_eq!(regions.physical_address(0, 12, 3, 1), Some(0xb0c1_9000));
    assert_eq!(regions.physical_address(0, 64, 0, 0), None);
    assert_eq!(regions.physical_address(1, 0, 0, 0), None);
    assert_eq!(regions.physical_address(0, 0, 32, 0), None);
    assert_eq!(regions.physical_address(0, 0, 0, 8), None);
    let windows: Vec<_> = regions.iter().collect();
    assert_eq!(windows.len(), 1);
    assert_eq!(
        (windows[0].segment_group, windows[0].bus_range.clone()),
        (0, 0..=63)
    );
    assert_eq!(windows[0].physical_address, 0xb000_0000);
}

#[test]
fn missing() {
    let (image, ranges) = (sample(), sample_ranges());
    let tables = AcpiTables::from_rsdp(Memory::new(&image, &ranges).unwrap(), SAMPLE as usize).unwrap();
    let missing = HpetInfo::new(&tables).unwrap_err();
    assert_eq!(
        (missing, missing.number()),
        (AcpiError::TableMissing(Signature::HPET), 12)
    );
    assert_eq!(
        tables.find_table::<Fadt>().unwrap_err(),
        AcpiError::TableMissing(Signature::FADT)
    );
    assert_eq!(tables.dsdt(), Err(AcpiError::TableMissing(Signature::FADT)));
    // Without a FADT there is no PlatformInfo, whatever else there is.
    assert_eq!(
        PlatformInfo::new_in(&tables, &mut []).unwrap_err(),
        AcpiError::TableMissing(Signature::FADT)
    );
    assert_eq!(
        tables.find(Signature::MADT, 44, 1).unwrap_err(),
        AcpiError::TableMissing(Signature::MADT)
    );
    assert_eq!(tables.find(Signature::MADT, 89, 0).unwrap_err().number(), 12);
}

#[test]
fn damages() {
    let mut image = sample();
    image[0xd3] = 0;
    assert_eq!(model_error(&image), AcpiError::TableMissing(Signature::MADT));
    fix_sum(&mut image[0x80..0x80 + 88], 9);
    let error = model_error(&image);
    assert_eq!(
        (error, error.number()),
        (AcpiError::InvalidMadt(MadtError::UnexpectedEntry), 15)
    );

    let mut image = sample();
    image[0x84] = 0x23;
    assert_eq!(model_error(&image), AcpiError::TableMissing(Signature::MADT));

    let mut image = sample();
    image[0x14] = 0xff;
    assert_eq!(
        (model_error(&image), 5),
        (AcpiError::RsdpInvalidChecksum, model_error(&image).number())
    );

    let mut image = sample();
    image[0xd7] = 2;
    fix_sum(&mut image[0x80..0x80 + 88], 9);
    let error = model_error(&image);
    assert_eq!(
        (error, error.number()),
        (AcpiError::InvalidMadt(MadtError::InvalidValue), 16)
    );

    let mut image = sample();
    image[0] = 0;
    assert_eq!(
        (model_error(&image), model_error(&image).number()),
        (AcpiError::RsdpIncorrectSignature, 3)
    );
    let mut image = sample();
    image[9] = 0xff;
    assert_eq!(
        (model_error(&image), model_error(&image).number()),
        (AcpiError::RsdpInvalidOemId, 4)
    );
    let mut image = sample();
    image[0x45] = 0xff;
    assert_eq!(
        (model_error(&image), model_error(&image).number()),
        (AcpiError::RootTableNotMapped, 6)
    );
    for (at, error, number) in [
        (0x40, AcpiError::SdtInvalidSignature(Signature::XSDT), 7),
        (0x4a, AcpiError::SdtInvalidOemId(Signature::XSDT), 8),
        (0x50, AcpiError::SdtInvalidTableId(Signature::XSDT), 9),
        (0x60, AcpiError::SdtInvalidChecksum(Signature::XSDT), 10),
    ] {
        let mut image = sample();
        image[at] ^= 0x80;
        assert_eq!(
            (model_error(&image), model_error(&image).number()),
            (error, number)
        );
    }
}

#[test]
fn a_wrong_entry_ends_the_walk() {
    let mut image = sample();
    image[0xd3] = 0;
    fix_sum(&mut image[0x80..0x80 + 88], 9);
    let ranges = sample_ranges();
    let tables = AcpiTables::from_rsdp(Memory::new(&image, &ranges).unwrap(), SAMPLE as usize).unwrap();
    let madt = tables.find_table::<Madt>().unwrap();
    let mut entries = madt.entries();
    let last = entries.by_ref().last().unwrap();
    assert_eq!(last, Err(AcpiError::InvalidMadt(MadtError::UnexpectedEntry)));
    assert!(entries.next().is_none());
}

#[test]
fn ranges() {
    let image = sample();
    let range = |physical_start, length, offset| Range {
        physical_start,
        length,
        offset,
    };
    for wrong in [
        vec![range(SAMPLE, 317, 0)],
        vec![range(SAMPLE, 316, 1)],
        vec![range(SAMPLE, 8, 0), range(SAMPLE, 8, 8)],
        vec![range(SAMPLE, 8, 0), range(SAMPLE + 7, 8, 8)],
        vec![range(u64::MAX, 2, 0)],
        (0..65).map(|k| range(k, 1, 0)).collect(),
    ] {
        let error = Memory::new(&image, &wrong).unwrap_err();
        assert_eq!((error, error.number()), (AcpiError::WrongRanges, 1));
    }
    let right: Vec<_> = (0..64).map(|k| range(k, 1, 0)).collect();
    assert!(Memory::new(&image, &right).is_ok());
    // No range, and no image.
    let memory = Memory::new(&[], &[]).unwrap();
    assert_eq!(
        AcpiTables::from_rsdp(memory, 0).unwrap_err(),
        AcpiError::RsdpNotMapped
    );
    assert_eq!(
        AcpiTables::search_for_rsdp_bios(memory).unwrap_err(),
        AcpiError::NoValidRsdp
    );
}
