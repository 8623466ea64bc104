/* A program without an operating system: it searches for the root pointer in the memory that the
 * firmware left, and writes what it finds to the serial port. */
#include "tablewalk.h"

/* ---- Serial port, and the end of the program */

static void out8(uint16_t port, uint8_t value)
{
    __asm__ volatile("outb %0, %1" : : "a"(value), "Nd"(port));
}

static uint8_t in8(uint16_t port)
{
    uint8_t value;
    __asm__ volatile("inb %1, %0" : "=a"(value) : "Nd"(port));
    return value;
}

#define SERIAL 0x3f8

static void put_character(char character)
{
    while ((in8(SERIAL + 5) & 0x20) == 0) {
    }
    out8(SERIAL, (uint8_t)character);
}

static void text(const char *characters)
{
    while (*characters != '\0') {
        put_character(*characters++);
    }
}

static void hexadecimal(uint64_t number)
{
    int shift = 60;
    while (shift > 0 && number >> shift == 0) {
        shift -= 4;
    }
    for (; shift >= 0; shift -= 4) {
        put_character("0123456789abcdef"[number >> shift & 15]);
    }
}

static void decimal(uint64_t number)
{
    if (number >= 10) {
        decimal(number / 10);
    }
    put_character((char)('0' + number % 10));
}

/* Ends QEMU, where it has the device for that (isa-debug-exit at f4). */
static void end(uint8_t value)
{
    out8(0xf4, value);
    for (;;) {
        __asm__ volatile("cli; hlt");
    }
}

static void refused(const char *what, uint32_t answer)
{
    text(what);
    text(": answer ");
    decimal(answer);
    text("\n");
}

/* ---- Memory: what the boot loader hands over (the start info of a PVH boot, version 1) */

struct start_info {
    uint32_t magic;
    uint32_t version;
    uint32_t flags;
    uint32_t modules;
    uint64_t module_list;
    uint64_t command_line;
    uint64_t root_pointer;
    uint64_t memory_map;
    uint32_t memory_map_entries;
    uint32_t reserved;
};

struct memory_map_entry {
    uint64_t start;
    uint64_t length;
    uint32_t kind;
    uint32_t reserved;
};

#define MOST_RANGES 64u

/* Memory is mapped to itself, so the image is memory. It can not begin at address 0, which as a
 * pointer would be null; 400 (hex) is below the first thing that the search looks at. */
#define IMAGE_START UINT64_C(0x400)
#define IMAGE_END UINT64_C(0x100000000)

static uint64_t ranges[3 * MOST_RANGES];
static size_t ranges_length;

/* Each entry of the map below 4 GB is a range, whatever its kind: firmware keeps its tables in
 * parts that it calls reserved. The map ascends; if it did not, every answer would be 1. */
static void read_memory_map(const struct start_info *info)
{
    const struct memory_map_entry *map = (const struct memory_map_entry *)(uintptr_t)info->memory_map;
    uint32_t i;

    for (i = 0; i < info->memory_map_entries && ranges_length < 3 * MOST_RANGES; i++) {
        uint64_t start = map[i].start, stop = start + map[i].length;
        if (start < IMAGE_START) {
            start = IMAGE_START;
        }
        if (stop > IMAGE_END) {
            stop = IMAGE_END;
        }
        if (start < stop) {
            ranges[ranges_length++] = start;
            ranges[ranges_length++] = stop - start;
            ranges[ranges_length++] = start - IMAGE_START;
        }
    }
}

/* ---- What is asked */

#define MOST_RECORDS 64u

static struct tablewalk_processor processors[MOST_RECORDS];
static struct tablewalk_io_apic io_apics[MOST_RECORDS];
static struct tablewalk_interrupt_source_override overrides[MOST_RECORDS];
static struct tablewalk_nmi_source nmi_sources[MOST_RECORDS];
static struct tablewalk_nmi_line nmi_lines[MOST_RECORDS];

static const uint8_t *image;
#define IMAGE image, (size_t)(IMAGE_END - IMAGE_START), ranges, ranges_length

static void show_tables(uint64_t rsdp)
{
    struct tablewalk_root_table root;
    uint64_t k, address;
    uint32_t answer = tablewalk_root(IMAGE, rsdp, TABLEWALK_OUT(root));

    if (answer != TABLEWALK_FOUND) {
        refused("root table", answer);
        return;
    }
    for (k = 0; k < root.entry_count; k++) {
        struct tablewalk_table table;
        if (tablewalk_entry(IMAGE, rsdp, k, &address, 1) != TABLEWALK_FOUND) {
            continue;
        }
        answer = tablewalk_any_table_at(IMAGE, address, TABLEWALK_OUT(table));
        if (answer == TABLEWALK_FOUND) {
            int i;
            text("table ");
            for (i = 0; i < 4; i++) {
                put_character((char)image[table.offset + (uint64_t)i]);
            }
            text(" at ");
            hexadecimal(table.address);
            text(", ");
            decimal(table.length);
            text(" bytes\n");
        } else {
            refused("a table", answer);
        }
    }
}

static void show_interrupts(uint64_t rsdp)
{
    static const char *const states[] = {"disabled", "waiting", "running"};
    struct tablewalk_model model;
    uint64_t i;
    uint32_t answer = tablewalk_interrupt_model(IMAGE, rsdp, TABLEWALK_OUT(model));

    if (answer == TABLEWALK_FOUND) {
        answer = tablewalk_interrupt_lists(
            IMAGE, rsdp, TABLEWALK_RECORDS(processors, MOST_RECORDS), TABLEWALK_RECORDS(io_apics, MOST_RECORDS),
            TABLEWALK_RECORDS(overrides, MOST_RECORDS), TABLEWALK_RECORDS(nmi_sources, MOST_RECORDS),
            TABLEWALK_RECORDS(nmi_lines, MOST_RECORDS));
    }
    if (answer != TABLEWALK_FOUND) {
        refused("interrupt model", answer);
        return;
    }
    if (!model.known) {
        text("interrupt model unknown\n");
        return;
    }
    text("local controllers at ");
    hexadecimal(model.local_apic_address);
    text(model.also_has_legacy_pics ? ", old controllers present\n" : "\n");
    for (i = 0; i < model.processors; i++) {
        text("processor ");
        decimal(processors[i].processor_uid);
        text(", local controller ");
        decimal(processors[i].local_apic_id);
        text(", ");
        text(states[processors[i].state]);
        text("\n");
    }
    for (i = 0; i < model.io_apics; i++) {
        text("I/O controller ");
        decimal(io_apics[i].id);
        text(" at ");
        hexadecimal(io_apics[i].address);
        text(", from interrupt ");
        decimal(io_apics[i].global_system_interrupt_base);
        text("\n");
    }
    for (i = 0; i < model.interrupt_source_overrides; i++) {
        text("source ");
        decimal(overrides[i].isa_source);
        text(" goes to interrupt ");
        decimal(overrides[i].global_system_interrupt);
        text(", polarity and trigger ");
        hexadecimal(overrides[i].polarity_and_trigger);
        text("\n");
    }
    for (i = 0; i < model.local_apic_nmi_lines; i++) {
        text("NMI line ");
        decimal(nmi_lines[i].line);
        text("\n");
    }
}

static void show_pci(uint64_t rsdp)
{
    uint64_t count, k;
    uint32_t answer = tablewalk_mcfg_count(IMAGE, rsdp, &count, 1);

    if (answer != TABLEWALK_FOUND) {
        refused("PCI windows", answer);
        return;
    }
    for (k = 0; k < count; k++) {
        struct tablewalk_mcfg_window window;
        if (tablewalk_mcfg_entry(IMAGE, rsdp, k, TABLEWALK_OUT(window)) == TABLEWALK_FOUND) {
            text("PCI window at ");
            hexadecimal(window.base_address);
            text(", segment ");
            decimal(window.pci_segment_group);
            text(", buses ");
            decimal(window.bus_number_start);
            text(" to ");
            decimal(window.bus_number_end);
            text("\n");
        }
    }
}

static void show_rest(uint64_t rsdp)
{
    struct tablewalk_hpet_info hpet;
    struct tablewalk_generic_address timer;
    struct tablewalk_aml dsdt;
    uint32_t answer = tablewalk_hpet(IMAGE, rsdp, TABLEWALK_OUT(hpet));

    if (answer == TABLEWALK_FOUND) {
        text("event timer at ");
        hexadecimal(hpet.base_address);
        text("\n");
    } else {
        refused("event timer", answer);
    }
    answer = tablewalk_fadt_register(IMAGE, rsdp, TABLEWALK_PM_TIMER, TABLEWALK_OUT(timer));
    if (answer == TABLEWALK_FOUND) {
        text("timer at ");
        hexadecimal(timer.address);
        text("\n");
    } else {
        refused("timer", answer);
    }
    answer = tablewalk_dsdt(IMAGE, rsdp, TABLEWALK_OUT(dsdt));
    if (answer == TABLEWALK_FOUND) {
        text("AML of the DSDT at ");
        hexadecimal(dsdt.address);
        text(", ");
        decimal(dsdt.length);
        text(" bytes\n");
    } else {
        refused("DSDT", answer);
    }
}

void main(const struct start_info *info);

void main(const struct start_info *info)
{
    uint64_t rsdp, start = IMAGE_START;
    uint32_t answer;

    /* The compiler shall not reason about an address that is no object of the program. */
    __asm__("" : "+r"(start));
    image = (const uint8_t *)(uintptr_t)start;

    text("\nTablewalk on bare hardware\n");
    if (info->version < 1) {
        text("the boot loader hands over no memory map\n");
        end(1);
    }
    read_memory_map(info);
    answer = tablewalk_ranges(IMAGE);
    if (answer != TABLEWALK_FOUND) {
        refused("ranges", answer);
        end(1);
    }
    answer = tablewalk_search(IMAGE, &rsdp, 1);
    if (answer != TABLEWALK_FOUND) {
        refused("search", answer);
        end(1);
    }
    text("root pointer at ");
    hexadecimal(rsdp);
    text("\n");
    show_tables(rsdp);
    show_interrupts(rsdp);
    show_pci(rsdp);
    show_rest(rsdp);
    text("done\n");
    end(0);
}
