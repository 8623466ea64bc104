//! The functions of libtablewalk.a as they are, by raw pointers. The rest of this crate is a safe
//! cover for them, and needs no call of these.
//!
//! Every function returns the number of its answer: 0 with the values in the lent buffers, or the
//! smallest number that says why there is none, with every buffer left as it was. `tablewalk.h` says
//! for each one which numbers there are and how many words it writes.
//!
//! # Safety
//!
//! No pointer is null, not even one whose length is 0, and each is aligned to its element. A length
//! counts elements, and that many can be read, or written where the pointer is `*mut`. A buffer
//! overlaps nothing else that is lent to the same call.

extern "C" {
    pub fn tablewalk_ranges(
        image: *const u8,
        image_length: usize,
        ranges: *const u64,
        ranges_length: usize,
    ) -> u32;
    pub fn tablewalk_rsdp(
        image: *const u8,
        image_length: usize,
        ranges: *const u64,
        ranges_length: usize,
        address: u64,
        out: *mut u64,
        out_length: usize,
    ) -> u32;
    pub fn tablewalk_search(
        image: *const u8,
        image_length: usize,
        ranges: *const u64,
        ranges_length: usize,
        out: *mut u64,
        out_length: usize,
    ) -> u32;
    pub fn tablewalk_table_at(
        image: *const u8,
        image_length: usize,
        ranges: *const u64,
        ranges_length: usize,
        address: u64,
        signature: u32,
        least: u32,
        out: *mut u64,
        out_length: usize,
    ) -> u32;
    pub fn tablewalk_any_table_at(
        image: *const u8,
        image_length: usize,
        ranges: *const u64,
        ranges_length: usize,
        address: u64,
        out: *mut u64,
        out_length: usize,
    ) -> u32;
    pub fn tablewalk_root(
        image: *const u8,
        image_length: usize,
        ranges: *const u64,
        ranges_length: usize,
        rsdp: u64,
        out: *mut u64,
        out_length: usize,
    ) -> u32;
    pub fn tablewalk_entry(
        image: *const u8,
        image_length: usize,
        ranges: *const u64,
        ranges_length: usize,
        rsdp: u64,
        k: u64,
        out: *mut u64,
        out_length: usize,
    ) -> u32;
    pub fn tablewalk_find(
        image: *const u8,
        image_length: usize,
        ranges: *const u64,
        ranges_length: usize,
        rsdp: u64,
        signature: u32,
        least: u32,
        n: u64,
        out: *mut u64,
        out_length: usize,
    ) -> u32;
    pub fn tablewalk_header(
        image: *const u8,
        image_length: usize,
        ranges: *const u64,
        ranges_length: usize,
        rsdp: u64,
        n: u64,
        out: *mut u64,
        out_length: usize,
    ) -> u32;
    pub fn tablewalk_hpet(
        image: *const u8,
        image_length: usize,
        ranges: *const u64,
        ranges_length: usize,
        rsdp: u64,
        out: *mut u64,
        out_length: usize,
    ) -> u32;
    pub fn tablewalk_mcfg_count(
        image: *const u8,
        image_length: usize,
        ranges: *const u64,
        ranges_length: usize,
        rsdp: u64,
        out: *mut u64,
        out_length: usize,
    ) -> u32;
    pub fn tablewalk_mcfg_entry(
        image: *const u8,
        image_length: usize,
        ranges: *const u64,
        ranges_length: usize,
        rsdp: u64,
        k: usize,
        out: *mut u64,
        out_length: usize,
    ) -> u32;
    pub fn tablewalk_pci_address(
        image: *const u8,
        image_length: usize,
        ranges: *const u64,
        ranges_length: usize,
        rsdp: u64,
        segment: u16,
        bus: u8,
        device: u8,
        function: u8,
        out: *mut u64,
        out_length: usize,
    ) -> u32;
    pub fn tablewalk_fadt_fixed(
        image: *const u8,
        image_length: usize,
        ranges: *const u64,
        ranges_length: usize,
        rsdp: u64,
        out: *mut u64,
        out_length: usize,
    ) -> u32;
    pub fn tablewalk_fadt_register(
        image: *const u8,
        image_length: usize,
        ranges: *const u64,
        ranges_length: usize,
        rsdp: u64,
        which: u32,
        out: *mut u64,
        out_length: usize,
    ) -> u32;
    pub fn tablewalk_fadt_number(
        image: *const u8,
        image_length: usize,
        ranges: *const u64,
        ranges_length: usize,
        rsdp: u64,
        which: u32,
        out: *mut u64,
        out_length: usize,
    ) -> u32;
    pub fn tablewalk_madt_fixed(
        image: *const u8,
        image_length: usize,
        ranges: *const u64,
        ranges_length: usize,
        rsdp: u64,
        out: *mut u64,
        out_length: usize,
    ) -> u32;
    pub fn tablewalk_madt_entry(
        image: *const u8,
        image_length: usize,
        ranges: *const u64,
        ranges_length: usize,
        rsdp: u64,
        k: usize,
        out: *mut u64,
        out_length: usize,
    ) -> u32;
    pub fn tablewalk_interrupt_model(
        image: *const u8,
        image_length: usize,
        ranges: *const u64,
        ranges_length: usize,
        rsdp: u64,
        out: *mut u64,
        out_length: usize,
    ) -> u32;
    pub fn tablewalk_interrupt_lists(
        image: *const u8,
        image_length: usize,
        ranges: *const u64,
        ranges_length: usize,
        rsdp: u64,
        processors: *mut u32,
        processors_length: usize,
        io_apics: *mut u32,
        io_apics_length: usize,
        interrupt_source_overrides: *mut u32,
        interrupt_source_overrides_length: usize,
        nmi_sources: *mut u32,
        nmi_sources_length: usize,
        local_apic_nmi_lines: *mut u32,
        local_apic_nmi_lines_length: usize,
    ) -> u32;
    pub fn tablewalk_mailbox(
        image: *const u8,
        image_length: usize,
        ranges: *const u64,
        ranges_length: usize,
        rsdp: u64,
        out: *mut u64,
        out_length: usize,
    ) -> u32;
    pub fn tablewalk_platform(
        image: *const u8,
        image_length: usize,
        ranges: *const u64,
        ranges_length: usize,
        rsdp: u64,
        out: *mut u64,
        out_length: usize,
    ) -> u32;
    pub fn tablewalk_dsdt(
        image: *const u8,
        image_length: usize,
        ranges: *const u64,
        ranges_length: usize,
        rsdp: u64,
        out: *mut u64,
        out_length: usize,
    ) -> u32;
    pub fn tablewalk_ssdt(
        image: *const u8,
        image_length: usize,
        ranges: *const u64,
        ranges_length: usize,
        rsdp: u64,
        n: u64,
        out: *mut u64,
        out_length: usize,
    ) -> u32;
    pub fn tablewalk_table_hpet(
        table: *const u8,
        table_length: usize,
        out: *mut u64,
        out_length: usize,
    ) -> u32;
    pub fn tablewalk_table_mcfg_count(
        table: *const u8,
        table_length: usize,
        out: *mut u64,
        out_length: usize,
    ) -> u32;
    pub fn tablewalk_table_mcfg_entry(
        table: *const u8,
        table_length: usize,
        k: usize,
        out: *mut u64,
        out_length: usize,
    ) -> u32;
    pub fn tablewalk_table_pci_address(
        table: *const u8,
        table_length: usize,
        segment: u16,
        bus: u8,
        device: u8,
        function: u8,
        out: *mut u64,
        out_length: usize,
    ) -> u32;
    pub fn tablewalk_table_fadt_fixed(
        table: *const u8,
        table_length: usize,
        out: *mut u64,
        out_length: usize,
    ) -> u32;
    pub fn tablewalk_table_fadt_register(
        table: *const u8,
        table_length: usize,
        which: u32,
        out: *mut u64,
        out_length: usize,
    ) -> u32;
    pub fn tablewalk_table_fadt_number(
        table: *const u8,
        table_length: usize,
        which: u32,
        out: *mut u64,
        out_length: usize,
    ) -> u32;
    pub fn tablewalk_table_madt_fixed(
        table: *const u8,
        table_length: usize,
        out: *mut u64,
        out_length: usize,
    ) -> u32;
    pub fn tablewalk_table_madt_entry(
        table: *const u8,
        table_length: usize,
        k: usize,
        out: *mut u64,
        out_length: usize,
    ) -> u32;
    pub fn tablewalk_table_interrupt_model(
        table: *const u8,
        table_length: usize,
        out: *mut u64,
        out_length: usize,
    ) -> u32;
    pub fn tablewalk_table_interrupt_lists(
        table: *const u8,
        table_length: usize,
        processors: *mut u32,
        processors_length: usize,
        io_apics: *mut u32,
        io_apics_length: usize,
        interrupt_source_overrides: *mut u32,
        interrupt_source_overrides_length: usize,
        nmi_sources: *mut u32,
        nmi_sources_length: usize,
        local_apic_nmi_lines: *mut u32,
        local_apic_nmi_lines_length: usize,
    ) -> u32;
    pub fn tablewalk_table_mailbox(
        table: *const u8,
        table_length: usize,
        out: *mut u64,
        out_length: usize,
    ) -> u32;
}
