/* Tablewalk: reading ACPI tables. The functions of libtablewalk.a, for C11 and C++17.
 *
 * The code behind these functions is proved; this header is not. It repeats their signatures by
 * hand, and tests/archive and tests/c hold it to the archive.
 *
 * Every function
 *   - answers on any bytes whatever: it ends, and reads nothing outside what it was lent;
 *   - returns the number of its answer: 0 (TABLEWALK_FOUND) with the values in the lent buffers,
 *     or the smallest number that says why there is none, with every buffer left as it was;
 *   - refuses with 17 (TABLEWALK_BUFFER_TOO_SHORT) where there are values and a buffer is shorter
 *     than they are, and leaves the rest of a longer one as it was;
 *   - keeps no state and has no static data: any number of processors may ask at once;
 *   - needs less than 1,024 bytes of stack in the archive for kernels (tests/archive measures it).
 *
 * What the caller owes, since nothing can check it from inside:
 *   - no pointer is NULL, not even one whose length is 0, and each is aligned to its element;
 *   - a length counts elements (bytes, 64-bit words or 32-bit words), and that many are readable,
 *     or writable for a buffer;
 *   - a buffer overlaps nothing else that is lent to the same call, and nobody writes what is lent
 *     while a call runs.
 *
 * Memory. `image` is a piece of memory, and `ranges` says which part of it is which part of
 * physical memory: three 64-bit numbers a range (physical start, length, offset in the image), at
 * most 64 ranges, ascending by start, not overlapping, each inside the image and ending at 2^64 or
 * below. `ranges_length` counts 64-bit numbers, so it is three times the number of ranges.
 *
 * docs/TABLES.md says which bytes are read, and what each answer means.
 */
#ifndef TABLEWALK_H
#define TABLEWALK_H

#include <stddef.h>
#include <stdint.h>

#ifdef __cplusplus
extern "C" {
#endif

/* ---- The numbers of the answers (docs/TABLES.md, section 2) */

#define TABLEWALK_FOUND 0u                        /* the values are in the buffers */
#define TABLEWALK_WRONG_RANGES 1u                 /* the list of ranges breaks a rule */
#define TABLEWALK_ROOT_POINTER_UNMAPPED 2u        /* the root pointer is not mapped */
#define TABLEWALK_ROOT_POINTER_SIGNATURE 3u       /* root pointer: wrong signature */
#define TABLEWALK_ROOT_POINTER_OEM_ID 4u          /* root pointer: the maker's id is not UTF-8 */
#define TABLEWALK_ROOT_POINTER_CHECKSUM 5u        /* root pointer: wrong sum or stated length */
#define TABLEWALK_ROOT_TABLE_UNMAPPED 6u          /* the root table is not mapped as a whole */
#define TABLEWALK_TABLE_SIGNATURE 7u              /* table: wrong signature */
#define TABLEWALK_TABLE_OEM_ID 8u                 /* table: the maker's id is not UTF-8 */
#define TABLEWALK_TABLE_ID 9u                     /* table: the table id is not UTF-8 */
#define TABLEWALK_TABLE_CHECKSUM 10u              /* table: it does not sum to 0 */
#define TABLEWALK_TABLE_TOO_SHORT 11u             /* the table is shorter than what is asked for */
#define TABLEWALK_NO_VALID_TABLE 12u              /* there is no valid table of this signature */
#define TABLEWALK_NONE 13u                        /* no such address, entry or field */
#define TABLEWALK_GENERIC_ADDRESS 14u             /* generic address: unknown space or access size */
#define TABLEWALK_INTERRUPT_ENTRY 15u             /* an interrupt entry of a wrong length or model */
#define TABLEWALK_INTERRUPT_VALUE 16u             /* wrong bus, line, polarity or trigger */
#define TABLEWALK_BUFFER_TOO_SHORT 17u            /* a lent buffer is too short */
#define TABLEWALK_NO_ROOT_POINTER 18u             /* no root pointer in the searched areas */

/* ---- Signatures: four characters as a 32-bit number, the first one lowest */

#define TABLEWALK_SIGNATURE(a, b, c, d) \
    ((uint32_t)(unsigned char)(a) | (uint32_t)(unsigned char)(b) << 8 | \
     (uint32_t)(unsigned char)(c) << 16 | (uint32_t)(unsigned char)(d) << 24)

#define TABLEWALK_FADT TABLEWALK_SIGNATURE('F', 'A', 'C', 'P')
#define TABLEWALK_MADT TABLEWALK_SIGNATURE('A', 'P', 'I', 'C')
#define TABLEWALK_MCFG TABLEWALK_SIGNATURE('M', 'C', 'F', 'G')
#define TABLEWALK_HPET TABLEWALK_SIGNATURE('H', 'P', 'E', 'T')
#define TABLEWALK_DSDT TABLEWALK_SIGNATURE('D', 'S', 'D', 'T')
#define TABLEWALK_SSDT TABLEWALK_SIGNATURE('S', 'S', 'D', 'T')

/* The fixed part of each kind of table in bytes: what to pass as `least`. */
#define TABLEWALK_FADT_LEAST 116u
#define TABLEWALK_MADT_LEAST 44u
#define TABLEWALK_MCFG_LEAST 44u
#define TABLEWALK_HPET_LEAST 56u
#define TABLEWALK_ANY_LEAST 36u

/* ---- Which register of the FADT (tablewalk_fadt_register) */

#define TABLEWALK_PM1A_EVENT 0u
#define TABLEWALK_PM1B_EVENT 1u
#define TABLEWALK_PM1A_CONTROL 2u
#define TABLEWALK_PM1B_CONTROL 3u
#define TABLEWALK_PM2_CONTROL 4u
#define TABLEWALK_PM_TIMER 5u
#define TABLEWALK_GPE0 6u
#define TABLEWALK_GPE1 7u
#define TABLEWALK_RESET 8u
#define TABLEWALK_SLEEP_CONTROL 9u
#define TABLEWALK_SLEEP_STATUS 10u

/* ---- Which number of the FADT (tablewalk_fadt_number) */

#define TABLEWALK_FACS_ADDRESS 0u
#define TABLEWALK_DSDT_ADDRESS 1u
#define TABLEWALK_RESET_VALUE 2u
#define TABLEWALK_ARM_BOOT_ARCH 3u
#define TABLEWALK_POWER_PROFILE 4u /* 0 to 8 (docs/TABLES.md, section 10); from 9 up reserved */

/* ---- Values in records */

#define TABLEWALK_PROCESSOR_DISABLED 0u
#define TABLEWALK_PROCESSOR_WAITING 1u
#define TABLEWALK_PROCESSOR_RUNNING 2u

#define TABLEWALK_ALL_PROCESSORS 0xffffffffu

/* Polarity and trigger of the word `polarity_and_trigger`. */
#define TABLEWALK_POLARITY(word) ((word)&3u)
#define TABLEWALK_POLARITY_AS_BUS 0u
#define TABLEWALK_POLARITY_HIGH 1u
#define TABLEWALK_POLARITY_LOW 3u
#define TABLEWALK_TRIGGER(word) ((word) >> 2 & 3u)
#define TABLEWALK_TRIGGER_AS_BUS 0u
#define TABLEWALK_TRIGGER_EDGE 1u
#define TABLEWALK_TRIGGER_LEVEL 3u

/* ---- Sizes of the answers: words of 64 bits in `out` */

#define TABLEWALK_RSDP_WORDS 4u
#define TABLEWALK_SEARCH_WORDS 1u
#define TABLEWALK_TABLE_WORDS 3u
#define TABLEWALK_ROOT_WORDS 6u
#define TABLEWALK_ENTRY_WORDS 1u
#define TABLEWALK_HPET_WORDS 10u
#define TABLEWALK_MCFG_COUNT_WORDS 1u
#define TABLEWALK_MCFG_ENTRY_WORDS 4u
#define TABLEWALK_PCI_ADDRESS_WORDS 1u
#define TABLEWALK_FADT_FIXED_WORDS 19u
#define TABLEWALK_FADT_REGISTER_WORDS 5u
#define TABLEWALK_FADT_NUMBER_WORDS 1u
#define TABLEWALK_MADT_FIXED_WORDS 3u
#define TABLEWALK_MADT_ENTRY_WORDS 3u
#define TABLEWALK_INTERRUPT_MODEL_WORDS 8u
#define TABLEWALK_MAILBOX_WORDS 1u
#define TABLEWALK_PLATFORM_WORDS 16u
#define TABLEWALK_AML_WORDS 2u

/* ---- Sizes of the records of the five lists: words of 32 bits */

#define TABLEWALK_PROCESSOR_WORDS 3u
#define TABLEWALK_IO_APIC_WORDS 3u
#define TABLEWALK_INTERRUPT_SOURCE_OVERRIDE_WORDS 3u
#define TABLEWALK_NMI_SOURCE_WORDS 2u
#define TABLEWALK_NMI_LINE_WORDS 2u

/* ---- Structs with the layout of the answers
 *
 * Each is nothing but its words in order, so it can be lent as a buffer:
 *
 *     struct tablewalk_hpet_info hpet;
 *     answer = tablewalk_hpet(image, image_length, ranges, ranges_length, rsdp, TABLEWALK_OUT(hpet));
 */
#define TABLEWALK_OUT(value) (uint64_t *)(void *)&(value), sizeof(value) / sizeof(uint64_t)

/* The same for an array of records of a list. */
#define TABLEWALK_RECORDS(array, count) \
    (uint32_t *)(void *)(array), (count) * (sizeof((array)[0]) / sizeof(uint32_t))

struct tablewalk_root_pointer {
    uint64_t revision;
    uint64_t length;
    uint64_t rsdt_address;
    uint64_t xsdt_address; /* 0 for revision 0 */
};

struct tablewalk_table {
    uint64_t address; /* physical */
    uint64_t offset;  /* in the image */
    uint64_t length;  /* header included */
};

struct tablewalk_root_table {
    uint64_t kind; /* 0 RSDT, 1 XSDT */
    uint64_t address;
    uint64_t offset;
    uint64_t length;
    uint64_t entry_size;
    uint64_t entry_count;
};

struct tablewalk_hpet_info {
    uint64_t event_timer_block_id;
    uint64_t hardware_rev;
    uint64_t num_comparators;
    uint64_t main_counter_is_64bits;
    uint64_t legacy_irq_capable;
    uint64_t pci_vendor_id;
    uint64_t base_address;
    uint64_t hpet_number;
    uint64_t clock_tick_unit;
    uint64_t page_protection; /* 0 none, 1 for 4 KB, 2 for 64 KB, 3 other */
};

struct tablewalk_mcfg_window {
    uint64_t base_address;
    uint64_t pci_segment_group;
    uint64_t bus_number_start;
    uint64_t bus_number_end;
};

struct tablewalk_fadt {
    uint64_t sci_interrupt;
    uint64_t smi_cmd_port;
    uint64_t acpi_enable;
    uint64_t acpi_disable;
    uint64_t s4bios_req;
    uint64_t pstate_control;
    uint64_t gpe1_base;
    uint64_t c_state_control;
    uint64_t worst_c2_latency;
    uint64_t worst_c3_latency;
    uint64_t flush_size;
    uint64_t flush_stride;
    uint64_t duty_offset;
    uint64_t duty_width;
    uint64_t day_alarm;
    uint64_t month_alarm;
    uint64_t century;
    uint64_t iapc_boot_arch;
    uint64_t flags; /* bit 8: the timer has 32 bits */
};

struct tablewalk_generic_address {
    uint64_t address_space; /* its number, docs/TABLES.md, section 6 */
    uint64_t bit_width;     /* can be above 255 for a block in its narrow form */
    uint64_t bit_offset;
    uint64_t access_size; /* 0 undefined, 1 to 4 for 1, 2, 4 and 8 bytes */
    uint64_t address;
};

struct tablewalk_madt {
    uint64_t local_apic_address;
    uint64_t flags;
    uint64_t also_has_legacy_pics;
};

struct tablewalk_madt_entry_place {
    uint64_t kind;
    uint64_t offset; /* in the table */
    uint64_t length;
};

struct tablewalk_model {
    uint64_t known; /* 0: no entry of the table tells the model, and every list is empty */
    uint64_t local_apic_address;
    uint64_t also_has_legacy_pics;
    uint64_t processors; /* from here on, the number of records of each list */
    uint64_t io_apics;
    uint64_t interrupt_source_overrides;
    uint64_t nmi_sources;
    uint64_t local_apic_nmi_lines;
};

struct tablewalk_platform_info {
    uint64_t power_profile;       /* as TABLEWALK_POWER_PROFILE */
    struct tablewalk_model model; /* all zero where there is no valid MADT */
    uint64_t has_pm_timer;        /* 0: there is none, and what follows is zero */
    struct tablewalk_generic_address pm_timer;
    uint64_t pm_timer_is_32_bit; /* 0: it has 24 bits */
};

struct tablewalk_aml {
    uint64_t address; /* physical, of the first byte after the header */
    uint64_t length;  /* of the AML, without the header */
};

struct tablewalk_processor {
    uint32_t processor_uid;
    uint32_t local_apic_id;
    uint32_t state; /* TABLEWALK_PROCESSOR_..; the first record is the boot processor */
};

struct tablewalk_io_apic {
    uint32_t id;
    uint32_t address;
    uint32_t global_system_interrupt_base;
};

struct tablewalk_interrupt_source_override {
    uint32_t isa_source;
    uint32_t global_system_interrupt;
    uint32_t polarity_and_trigger;
};

struct tablewalk_nmi_source {
    uint32_t global_system_interrupt;
    uint32_t polarity_and_trigger;
};

struct tablewalk_nmi_line {
    uint32_t processor_uid; /* or TABLEWALK_ALL_PROCESSORS */
    uint32_t line;          /* 0 or 1 */
};

/* ---- Questions about an image, without a root pointer */

/* Is the list of ranges right? Answers: 0, 1. */
uint32_t tablewalk_ranges(
    const uint8_t *image, size_t image_length, const uint64_t *ranges, size_t ranges_length);

/* The root pointer at a physical address: struct tablewalk_root_pointer, 4 words.
 * Answers: 0, 1 to 5, 17. */
uint32_t tablewalk_rsdp(
    const uint8_t *image, size_t image_length, const uint64_t *ranges, size_t ranges_length,
    uint64_t address, uint64_t *out, size_t out_length);

/* Searches the areas of a classical BIOS for the root pointer: its physical address, 1 word.
 * Answers: 0, 1, 17, 18. */
uint32_t tablewalk_search(
    const uint8_t *image, size_t image_length, const uint64_t *ranges, size_t ranges_length,
    uint64_t *out, size_t out_length);

/* The table at a physical address, valid for a signature and a least length in bytes: struct
 * tablewalk_table, 3 words. Answers: 0, 1, 7 to 12, 17. */
uint32_t tablewalk_table_at(
    const uint8_t *image, size_t image_length, const uint64_t *ranges, size_t ranges_length,
    uint64_t address, uint32_t signature, uint32_t least, uint64_t *out, size_t out_length);

/* The same for any signature that is UTF-8 (7: it is not): struct tablewalk_table, 3 words.
 * Answers: 0, 1, 7 to 12, 17. */
uint32_t tablewalk_any_table_at(
    const uint8_t *image, size_t image_length, const uint64_t *ranges, size_t ranges_length,
    uint64_t address, uint64_t *out, size_t out_length);

/* ---- Questions about an image, from the physical address of the root pointer
 *
 * Each of them may also answer 1 to 5 (ranges, root pointer) and 6 to 11 (root table). */

/* The root table: struct tablewalk_root_table, 6 words. Answers: 0, 17. */
uint32_t tablewalk_root(
    const uint8_t *image, size_t image_length, const uint64_t *ranges, size_t ranges_length,
    uint64_t rsdp, uint64_t *out, size_t out_length);

/* The k-th entry of the root table, counted from 0: a physical address, 1 word.
 * Answers: 0, 13 (there is none), 17. */
uint32_t tablewalk_entry(
    const uint8_t *image, size_t image_length, const uint64_t *ranges, size_t ranges_length,
    uint64_t rsdp, uint64_t k, uint64_t *out, size_t out_length);

/* The n-th valid table of a signature with at least `least` bytes, counted from 0 in the order of
 * the root table: struct tablewalk_table, 3 words. Answers: 0, 12 (there is none), 17. */
uint32_t tablewalk_find(
    const uint8_t *image, size_t image_length, const uint64_t *ranges, size_t ranges_length,
    uint64_t rsdp, uint32_t signature, uint32_t least, uint64_t n, uint64_t *out, size_t out_length);

/* The n-th valid table of any signature: struct tablewalk_table, 3 words. To list all of them, ask
 * tablewalk_entry and tablewalk_any_table_at for each k, which goes through the root table once.
 * Answers: 0, 12 (there is none), 17. */
uint32_t tablewalk_header(
    const uint8_t *image, size_t image_length, const uint64_t *ranges, size_t ranges_length,
    uint64_t rsdp, uint64_t n, uint64_t *out, size_t out_length);

/* The event timer: struct tablewalk_hpet_info, 10 words.
 * Answers: 0, 12, 14 (its registers are not in memory), 17. */
uint32_t tablewalk_hpet(
    const uint8_t *image, size_t image_length, const uint64_t *ranges, size_t ranges_length,
    uint64_t rsdp, uint64_t *out, size_t out_length);

/* The number of PCI windows of the MCFG, 1 word. Answers: 0, 12, 17. */
uint32_t tablewalk_mcfg_count(
    const uint8_t *image, size_t image_length, const uint64_t *ranges, size_t ranges_length,
    uint64_t rsdp, uint64_t *out, size_t out_length);

/* The k-th PCI window, counted from 0: struct tablewalk_mcfg_window, 4 words.
 * Answers: 0, 12, 13 (there is none), 17. */
uint32_t tablewalk_mcfg_entry(
    const uint8_t *image, size_t image_length, const uint64_t *ranges, size_t ranges_length,
    uint64_t rsdp, size_t k, uint64_t *out, size_t out_length);

/* The physical address of the configuration space of a PCI function, 1 word.
 * Answers: 0, 12, 13 (no window holds it), 17. */
uint32_t tablewalk_pci_address(
    const uint8_t *image, size_t image_length, const uint64_t *ranges, size_t ranges_length,
    uint64_t rsdp, uint16_t segment, uint8_t bus, uint8_t device, uint8_t function,
    uint64_t *out, size_t out_length);

/* The plain fields of the FADT: struct tablewalk_fadt, 19 words. Answers: 0, 12, 17. */
uint32_t tablewalk_fadt_fixed(
    const uint8_t *image, size_t image_length, const uint64_t *ranges, size_t ranges_length,
    uint64_t rsdp, uint64_t *out, size_t out_length);

/* A register (block) of the FADT, by TABLEWALK_PM1A_EVENT to TABLEWALK_SLEEP_STATUS: struct
 * tablewalk_generic_address, 5 words.
 * Answers: 0, 11 (the table does not reach so far), 12, 13 (there is none, or another number), 14,
 * 17. */
uint32_t tablewalk_fadt_register(
    const uint8_t *image, size_t image_length, const uint64_t *ranges, size_t ranges_length,
    uint64_t rsdp, uint32_t which, uint64_t *out, size_t out_length);

/* A number of the FADT, by TABLEWALK_FACS_ADDRESS to TABLEWALK_POWER_PROFILE, 1 word.
 * Answers: 0, 11 (the table does not reach so far), 12, 13 (an address of zero, or another number),
 * 17. */
uint32_t tablewalk_fadt_number(
    const uint8_t *image, size_t image_length, const uint64_t *ranges, size_t ranges_length,
    uint64_t rsdp, uint32_t which, uint64_t *out, size_t out_length);

/* The fixed part of the MADT: struct tablewalk_madt, 3 words. Answers: 0, 12, 17. */
uint32_t tablewalk_madt_fixed(
    const uint8_t *image, size_t image_length, const uint64_t *ranges, size_t ranges_length,
    uint64_t rsdp, uint64_t *out, size_t out_length);

/* The k-th entry of the MADT, counted from 0, whatever its kind: struct
 * tablewalk_madt_entry_place, 3 words. Answers: 0, 12, 13 (there is none), 15, 17. */
uint32_t tablewalk_madt_entry(
    const uint8_t *image, size_t image_length, const uint64_t *ranges, size_t ranges_length,
    uint64_t rsdp, size_t k, uint64_t *out, size_t out_length);

/* The interrupt model and how many records each list has: struct tablewalk_model, 8 words.
 * Answers: 0, 12, 15, 16, 17. */
uint32_t tablewalk_interrupt_model(
    const uint8_t *image, size_t image_length, const uint64_t *ranges, size_t ranges_length,
    uint64_t rsdp, uint64_t *out, size_t out_length);

/* The five lists of the model, in the order of the table. Lengths count 32-bit words: records of
 * 3, 3, 3, 2 and 2 words (struct tablewalk_processor, _io_apic, _interrupt_source_override,
 * _nmi_source, _nmi_line), as many as tablewalk_interrupt_model says. One buffer that is too short
 * leaves all five as they were. Answers: 0, 12, 15, 16, 17. */
uint32_t tablewalk_interrupt_lists(
    const uint8_t *image, size_t image_length, const uint64_t *ranges, size_t ranges_length,
    uint64_t rsdp, uint32_t *processors, size_t processors_length,
    uint32_t *io_apics, size_t io_apics_length,
    uint32_t *interrupt_source_overrides, size_t interrupt_source_overrides_length,
    uint32_t *nmi_sources, size_t nmi_sources_length,
    uint32_t *local_apic_nmi_lines, size_t local_apic_nmi_lines_length);

/* The physical address of the mailbox for waking processors, 1 word.
 * Answers: 0, 12, 15 (a wrong entry, or the table has no mailbox), 17. */
uint32_t tablewalk_mailbox(
    const uint8_t *image, size_t image_length, const uint64_t *ranges, size_t ranges_length,
    uint64_t rsdp, uint64_t *out, size_t out_length);

/* What a kernel asks first: power profile, interrupt model and power management timer. A FADT is
 * needed; a machine without a valid MADT has an unknown model, and one whose FADT has no timer is
 * answered too: struct tablewalk_platform_info, 16 words. The refusals of the FADT go before those
 * of the MADT, and these before those of the timer's register.
 * Answers: 0, 11 (the FADT does not reach as far as that register), 12 (there is no valid FADT), 14,
 * 15, 16, 17. */
uint32_t tablewalk_platform(
    const uint8_t *image, size_t image_length, const uint64_t *ranges, size_t ranges_length,
    uint64_t rsdp, uint64_t *out, size_t out_length);

/* The AML of the DSDT that the FADT points to: struct tablewalk_aml, 2 words.
 * Answers: 0, 7 to 12, 13 (the address is zero), 17. */
uint32_t tablewalk_dsdt(
    const uint8_t *image, size_t image_length, const uint64_t *ranges, size_t ranges_length,
    uint64_t rsdp, uint64_t *out, size_t out_length);

/* The AML of the n-th valid SSDT, counted from 0: struct tablewalk_aml, 2 words.
 * Answers: 0, 12 (there is none), 17. */
uint32_t tablewalk_ssdt(
    const uint8_t *image, size_t image_length, const uint64_t *ranges, size_t ranges_length,
    uint64_t rsdp, uint64_t n, uint64_t *out, size_t out_length);

/* ---- The same questions about a slice that is exactly one table
 *
 * For a caller that has found a table (tablewalk_find says where in the image it stands) and asks
 * it several things. Nothing but the length is tested: 11 where the slice is shorter than the fixed
 * part, or is not as long as its length field says. Values and other answers as above. */

/* struct tablewalk_hpet_info, 10 words. Answers: 0, 11, 14, 17. */
uint32_t tablewalk_table_hpet(
    const uint8_t *table, size_t table_length, uint64_t *out, size_t out_length);

/* The number of PCI windows, 1 word. Answers: 0, 11, 17. */
uint32_t tablewalk_table_mcfg_count(
    const uint8_t *table, size_t table_length, uint64_t *out, size_t out_length);

/* struct tablewalk_mcfg_window, 4 words. Answers: 0, 11, 13, 17. */
uint32_t tablewalk_table_mcfg_entry(
    const uint8_t *table, size_t table_length, size_t k, uint64_t *out, size_t out_length);

/* A physical address, 1 word. Answers: 0, 11, 13, 17. */
uint32_t tablewalk_table_pci_address(
    const uint8_t *table, size_t table_length, uint16_t segment, uint8_t bus, uint8_t device,
    uint8_t function, uint64_t *out, size_t out_length);

/* struct tablewalk_fadt, 19 words. Answers: 0, 11, 17. */
uint32_t tablewalk_table_fadt_fixed(
    const uint8_t *table, size_t table_length, uint64_t *out, size_t out_length);

/* struct tablewalk_generic_address, 5 words. Answers: 0, 11, 13, 14, 17. */
uint32_t tablewalk_table_fadt_register(
    const uint8_t *table, size_t table_length, uint32_t which, uint64_t *out, size_t out_length);

/* 1 word. Answers: 0, 11, 13, 17. */
uint32_t tablewalk_table_fadt_number(
    const uint8_t *table, size_t table_length, uint32_t which, uint64_t *out, size_t out_length);

/* struct tablewalk_madt, 3 words. Answers: 0, 11, 17. */
uint32_t tablewalk_table_madt_fixed(
    const uint8_t *table, size_t table_length, uint64_t *out, size_t out_length);

/* struct tablewalk_madt_entry_place, 3 words. Answers: 0, 11, 13, 15, 17. */
uint32_t tablewalk_table_madt_entry(
    const uint8_t *table, size_t table_length, size_t k, uint64_t *out, size_t out_length);

/* struct tablewalk_model, 8 words. Answers: 0, 11, 15, 16, 17. */
uint32_t tablewalk_table_interrupt_model(
    const uint8_t *table, size_t table_length, uint64_t *out, size_t out_length);

/* The five lists, as tablewalk_interrupt_lists. Answers: 0, 11, 15, 16, 17. */
uint32_t tablewalk_table_interrupt_lists(
    const uint8_t *table, size_t table_length, uint32_t *processors, size_t processors_length,
    uint32_t *io_apics, size_t io_apics_length,
    uint32_t *interrupt_source_overrides, size_t interrupt_source_overrides_length,
    uint32_t *nmi_sources, size_t nmi_sources_length,
    uint32_t *local_apic_nmi_lines, size_t local_apic_nmi_lines_length);

/* A physical address, 1 word. Answers: 0, 11, 15, 17. */
uint32_t tablewalk_table_mailbox(
    const uint8_t *table, size_t table_length, uint64_t *out, size_t out_length);

/* ---- A struct that did not have the size of its answer would be a wrong buffer. */

#ifdef __cplusplus
#define TABLEWALK_SAME(type, words, word) \
    static_assert(sizeof(type) == (words) * sizeof(word), #type)
#else
#define TABLEWALK_SAME(type, words, word) \
    _Static_assert(sizeof(type) == (words) * sizeof(word), #type)
#endif
TABLEWALK_SAME(struct tablewalk_root_pointer, TABLEWALK_RSDP_WORDS, uint64_t);
TABLEWALK_SAME(struct tablewalk_table, TABLEWALK_TABLE_WORDS, uint64_t);
TABLEWALK_SAME(struct tablewalk_root_table, TABLEWALK_ROOT_WORDS, uint64_t);
TABLEWALK_SAME(struct tablewalk_hpet_info, TABLEWALK_HPET_WORDS, uint64_t);
TABLEWALK_SAME(struct tablewalk_mcfg_window, TABLEWALK_MCFG_ENTRY_WORDS, uint64_t);
TABLEWALK_SAME(struct tablewalk_fadt, TABLEWALK_FADT_FIXED_WORDS, uint64_t);
TABLEWALK_SAME(struct tablewalk_generic_address, TABLEWALK_FADT_REGISTER_WORDS, uint64_t);
TABLEWALK_SAME(struct tablewalk_madt, TABLEWALK_MADT_FIXED_WORDS, uint64_t);
TABLEWALK_SAME(struct tablewalk_madt_entry_place, TABLEWALK_MADT_ENTRY_WORDS, uint64_t);
TABLEWALK_SAME(struct tablewalk_model, TABLEWALK_INTERRUPT_MODEL_WORDS, uint64_t);
TABLEWALK_SAME(struct tablewalk_platform_info, TABLEWALK_PLATFORM_WORDS, uint64_t);
TABLEWALK_SAME(struct tablewalk_aml, TABLEWALK_AML_WORDS, uint64_t);
TABLEWALK_SAME(struct tablewalk_processor, TABLEWALK_PROCESSOR_WORDS, uint32_t);
TABLEWALK_SAME(struct tablewalk_io_apic, TABLEWALK_IO_APIC_WORDS, uint32_t);
TABLEWALK_SAME(struct tablewalk_interrupt_source_override,
               TABLEWALK_INTERRUPT_SOURCE_OVERRIDE_WORDS, uint32_t);
TABLEWALK_SAME(struct tablewalk_nmi_source, TABLEWALK_NMI_SOURCE_WORDS, uint32_t);
TABLEWALK_SAME(struct tablewalk_nmi_line, TABLEWALK_NMI_LINE_WORDS, uint32_t);
#undef TABLEWALK_SAME

#ifdef __cplusplus
}
#endif

#endif
