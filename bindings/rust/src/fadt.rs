//! The fixed description of the platform.

use crate::{
    address::GenericAddress, error::found, memory::ask_table, sdt::Signature, AcpiError, AcpiResult,
    AcpiTable, Table,
};

/// What the machine is used for.
#[derive(Debug, Clone, Copy, PartialEq, Eq)]
#[allow(missing_docs)]
pub enum PowerProfile {
    Unspecified,
    Desktop,
    Mobile,
    Workstation,
    EnterpriseServer,
    SohoServer,
    AppliancePc,
    PerformanceServer,
    Tablet,
    Reserved(u8),
}

impl PowerProfile {
    /// From the word of the archive.
    pub(crate) fn from_word(word: u64) -> PowerProfile {
        match word {
            0 => PowerProfile::Unspecified,
            1 => PowerProfile::Desktop,
            2 => PowerProfile::Mobile,
            3 => PowerProfile::Workstation,
            4 => PowerProfile::EnterpriseServer,
            5 => PowerProfile::SohoServer,
            6 => PowerProfile::AppliancePc,
            7 => PowerProfile::PerformanceServer,
            8 => PowerProfile::Tablet,
            other => PowerProfile::Reserved(other as u8),
        }
    }
}

/// A valid FADT. Its plain fields are here; what has a narrow and a wide form, or may lie beyond the
/// table's end, is a method.
#[derive(Clone, Copy, Debug)]
#[allow(missing_docs)]
pub struct Fadt<'m> {
    table: Table<'m>,
    power_profile: PowerProfile,
    pub sci_interrupt: u16,
    pub smi_cmd_port: u32,
    pub acpi_enable: u8,
    pub acpi_disable: u8,
    pub s4bios_req: u8,
    pub pstate_control: u8,
    pub gpe1_base: u8,
    pub c_state_control: u8,
    pub worst_c2_latency: u16,
    pub worst_c3_latency: u16,
    pub flush_size: u16,
    pub flush_stride: u16,
    pub duty_offset: u8,
    pub duty_width: u8,
    pub day_alarm: u8,
    pub month_alarm: u8,
    pub century: u8,
    pub iapc_boot_arch: IaPcBootArchFlags,
    pub flags: FixedFeatureFlags,
}

impl<'m> AcpiTable<'m> for Fadt<'m> {
    const SIGNATURE: Signature = Signature::FADT;
    const LEAST: u32 = 116;

    fn from_table(table: Table<'m>) -> AcpiResult<Fadt<'m>> {
        let mut out = [0; 19];
        found(
            ask_table!(table.bytes(), tablewalk_table_fadt_fixed; &mut out),
            Signature::FADT,
        )?;
        Ok(Fadt {
            table,
            power_profile: PowerProfile::from_word(number(&table, 4)?),
            sci_interrupt: out[0] as u16,
            smi_cmd_port: out[1] as u32,
            acpi_enable: out[2] as u8,
            acpi_disable: out[3] as u8,
            s4bios_req: out[4] as u8,
            pstate_control: out[5] as u8,
            gpe1_base: out[6] as u8,
            c_state_control: out[7] as u8,
            worst_c2_latency: out[8] as u16,
            worst_c3_latency: out[9] as u16,
            flush_size: out[10] as u16,
            flush_stride: out[11] as u16,
            duty_offset: out[12] as u8,
            duty_width: out[13] as u8,
            day_alarm: out[14] as u8,
            month_alarm: out[15] as u8,
            century: out[16] as u8,
            iapc_boot_arch: IaPcBootArchFlags(out[17] as u16),
            flags: FixedFeatureFlags(out[18] as u32),
        })
    }
}

/// A number of the table, by its number in `tablewalk.h`.
fn number(table: &Table<'_>, which: u32) -> AcpiResult<u64> {
    let mut out = [0; 1];
    found(
        ask_table!(table.bytes(), tablewalk_table_fadt_number, which; &mut out),
        Signature::FADT,
    )?;
    Ok(out[0])
}

/// A register of the table, by its number in `tablewalk.h`.
fn register(table: &Table<'_>, which: u32) -> AcpiResult<GenericAddress> {
    let mut out = [0; 5];
    found(
        ask_table!(table.bytes(), tablewalk_table_fadt_register, which; &mut out),
        Signature::FADT,
    )?;
    Ok(GenericAddress::from_words(&out))
}

/// The same where there may be none.
fn register_or_none(table: &Table<'_>, which: u32) -> AcpiResult<Option<GenericAddress>> {
    match register(table, which) {
        Ok(address) => Ok(Some(address)),
        Err(AcpiError::NotFound) => Ok(None),
        Err(error) => Err(error),
    }
}

impl<'m> Fadt<'m> {
    /// The table as it was found.
    pub fn table(&self) -> &Table<'m> {
        &self.table
    }

    /// The physical address of the FACS.
    pub fn facs_address(&self) -> AcpiResult<usize> {
        match number(&self.table, 0) {
            Err(AcpiError::NotFound) => Err(AcpiError::InvalidFacsAddress),
            answer => answer.map(|address| address as usize),
        }
    }

    /// The physical address of the DSDT.
    pub fn dsdt_address(&self) -> AcpiResult<usize> {
        match number(&self.table, 1) {
            Err(AcpiError::NotFound) => Err(AcpiError::InvalidDsdtAddress),
            answer => answer.map(|address| address as usize),
        }
    }

    /// What the machine is used for.
    pub fn power_profile(&self) -> PowerProfile {
        self.power_profile
    }

    /// The value that resets the machine when it is written to the reset register.
    pub fn reset_value(&self) -> AcpiResult<u8> {
        number(&self.table, 2).map(|value| value as u8)
    }

    /// The flags for ARM platforms.
    pub fn arm_boot_arch(&self) -> AcpiResult<ArmBootArchFlags> {
        number(&self.table, 3).map(|flags| ArmBootArchFlags(flags as u16))
    }

    /// The PM1a event block.
    pub fn pm1a_event_block(&self) -> AcpiResult<GenericAddress> {
        register(&self.table, 0)
    }

    /// The PM1b event block, or `None` if there is none.
    pub fn pm1b_event_block(&self) -> AcpiResult<Option<GenericAddress>> {
        register_or_none(&self.table, 1)
    }

    /// The PM1a control block.
    pub fn pm1a_control_block(&self) -> AcpiResult<GenericAddress> {
        register(&self.table, 2)
    }

    /// The PM1b control block, or `None` if there is none.
    pub fn pm1b_control_block(&self) -> AcpiResult<Option<GenericAddress>> {
        register_or_none(&self.table, 3)
    }

    /// The PM2 control block, or `None` if there is none.
    pub fn pm2_control_block(&self) -> AcpiResult<Option<GenericAddress>> {
        register_or_none(&self.table, 4)
    }

    /// The timer block, or `None` if there is none.
    pub fn pm_timer_block(&self) -> AcpiResult<Option<GenericAddress>> {
        register_or_none(&self.table, 5)
    }

    /// The GPE0 block, or `None` if there is none.
    pub fn gpe0_block(&self) -> AcpiResult<Option<GenericAddress>> {
        register_or_none(&self.table, 6)
    }

    /// The GPE1 block, or `None` if there is none.
    pub fn gpe1_block(&self) -> AcpiResult<Option<GenericAddress>> {
        register_or_none(&self.table, 7)
    }

    /// The reset register.
    pub fn reset_register(&self) -> AcpiResult<GenericAddress> {
        register(&self.table, 8)
    }

    /// The sleep control register, or `None` if there is none.
    pub fn sleep_control_register(&self) -> AcpiResult<Option<GenericAddress>> {
        register_or_none(&self.table, 9)
    }

    /// The sleep status register, or `None` if there is none.
    pub fn sleep_status_register(&self) -> AcpiResult<Option<GenericAddress>> {
        register_or_none(&self.table, 10)
    }
}

/// The fixed feature flags.
#[derive(Clone, Copy, Debug, PartialEq, Eq)]
pub struct FixedFeatureFlags(u32);

impl FixedFeatureFlags {
    /// All bits.
    pub const fn bits(&self) -> u32 {
        self.0
    }

    /// Bit 0: WBINVD, or an equivalent, writes back and invalidates all caches.
    pub const fn supports_equivalent_to_wbinvd(&self) -> bool {
        self.0 & 1 != 0
    }

    /// Bit 1: WBINVD writes back all caches, and may leave them valid.
    pub const fn wbinvd_flushes_all_caches(&self) -> bool {
        self.0 >> 1 & 1 != 0
    }

    /// Bit 2: all processors have the power state C1.
    pub const fn all_procs_support_c1_power_state(&self) -> bool {
        self.0 >> 2 & 1 != 0
    }

    /// Bit 3: the power state C2 works with more than one processor.
    pub const fn c2_configured_for_mp_system(&self) -> bool {
        self.0 >> 3 & 1 != 0
    }

    /// Bit 4: the power button is a device of the AML.
    pub const fn power_button_is_control_method(&self) -> bool {
        self.0 >> 4 & 1 != 0
    }

    /// Bit 5: the sleep button is a device of the AML.
    pub const fn sleep_button_is_control_method(&self) -> bool {
        self.0 >> 5 & 1 != 0
    }

    /// Bit 6: the fixed registers do not say that the clock woke the machine.
    pub const fn no_rtc_wake_in_fixed_register_space(&self) -> bool {
        self.0 >> 6 & 1 != 0
    }

    /// Bit 7: the clock can wake the machine from S4.
    pub const fn rtc_wakes_system_from_s4(&self) -> bool {
        self.0 >> 7 & 1 != 0
    }

    /// Bit 8: the timer counts with 32 bits, and not with 24.
    pub const fn pm_timer_is_32_bit(&self) -> bool {
        self.0 >> 8 & 1 != 0
    }

    /// Bit 9: the machine can be docked.
    pub const fn supports_docking(&self) -> bool {
        self.0 >> 9 & 1 != 0
    }

    /// Bit 10: the reset register of the FADT works.
    pub const fn supports_system_reset_via_fadt(&self) -> bool {
        self.0 >> 10 & 1 != 0
    }

    /// Bit 11: the machine can not be extended.
    pub const fn case_is_sealed(&self) -> bool {
        self.0 >> 11 & 1 != 0
    }

    /// Bit 12: monitor and keyboard can not be detected.
    pub const fn system_is_headless(&self) -> bool {
        self.0 >> 12 & 1 != 0
    }

    /// Bit 13: an instruction is needed after a write to SLP_TYPx.
    pub const fn use_instr_after_write_to_slp_typx(&self) -> bool {
        self.0 >> 13 & 1 != 0
    }

    /// Bit 14: the PM1 registers have the PCI Express wake bits.
    pub const fn supports_pciexp_wake_in_pm1(&self) -> bool {
        self.0 >> 14 & 1 != 0
    }

    /// Bit 15: timers that only fall should use the platform's clock.
    pub const fn use_pm_or_hpet_for_monotonically_decreasing_timers(&self) -> bool {
        self.0 >> 15 & 1 != 0
    }

    /// Bit 16: RTC_STS is valid after S4.
    pub const fn rtc_sts_is_valid_after_wakeup_from_s4(&self) -> bool {
        self.0 >> 16 & 1 != 0
    }

    /// Bit 17: wake events may stay armed before S5.
    pub const fn ospm_may_leave_gpe_wake_events_armed_before_s5(&self) -> bool {
        self.0 >> 17 & 1 != 0
    }

    /// Bit 18: logical mode needs the cluster model.
    pub const fn lapics_must_use_cluster_model_for_logical_mode(&self) -> bool {
        self.0 >> 18 & 1 != 0
    }

    /// Bit 19: local xAPICs need physical destination mode.
    pub const fn local_xapics_must_use_physical_destination_mode(&self) -> bool {
        self.0 >> 19 & 1 != 0
    }

    /// Bit 20: the platform has no fixed hardware.
    pub const fn system_is_hw_reduced_acpi(&self) -> bool {
        self.0 >> 20 & 1 != 0
    }

    /// Bit 21: S3 saves no more than S0.
    pub const fn no_benefit_to_s3(&self) -> bool {
        self.0 >> 21 & 1 != 0
    }
}

/// The boot architecture flags of a PC.
#[derive(Clone, Copy, Debug, PartialEq, Eq)]
pub struct IaPcBootArchFlags(u16);

impl IaPcBootArchFlags {
    /// All bits.
    pub const fn bits(&self) -> u16 {
        self.0
    }

    /// Bit 0: there are legacy devices on the LPC or ISA bus.
    pub const fn legacy_devices_are_accessible(&self) -> bool {
        self.0 & 1 != 0
    }

    /// Bit 1: there is a keyboard controller at the ports 60 and 64.
    pub const fn motherboard_implements_8042(&self) -> bool {
        self.0 >> 1 & 1 != 0
    }

    /// Bit 2: VGA hardware must not be probed.
    pub const fn dont_probe_vga(&self) -> bool {
        self.0 >> 2 & 1 != 0
    }

    /// Bit 3: message signaled interrupts must not be enabled.
    pub const fn dont_enable_msi(&self) -> bool {
        self.0 >> 3 & 1 != 0
    }

    /// Bit 4: PCI Express power management must not be enabled.
    pub const fn dont_enable_pcie_aspm(&self) -> bool {
        self.0 >> 4 & 1 != 0
    }

    /// Bit 5: the clock is to be used by the AML and not by its ports.
    pub const fn use_time_and_alarm_namespace_for_rtc(&self) -> bool {
        self.0 >> 5 & 1 != 0
    }
}

/// The boot architecture flags of an ARM platform.
#[derive(Clone, Copy, Debug, PartialEq, Eq)]
pub struct ArmBootArchFlags(u16);

impl ArmBootArchFlags {
    /// All bits.
    pub const fn bits(&self) -> u16 {
        self.0
    }

    /// Bit 0: the platform has PSCI.
    pub const fn implements_psci(&self) -> bool {
        self.0 & 1 != 0
    }

    /// Bit 1: PSCI is called by HVC and not by SMC.
    pub const fn use_hvc_as_psci_conduit(&self) -> bool {
        self.0 >> 1 & 1 != 0
    }
}
