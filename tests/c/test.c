/* Asks every function of tablewalk.h about two images and holds each answer to docs/TABLES.md.
 *
 * Each question is asked with buffers of every length from 0 up to three more than it needs. Around
 * each buffer stand words that must stay as they are, and each is asked once more with buffers of
 * exactly the length that is handed over, so that valgrind or a sanitizer sees a step outside. The
 * images and ranges are such exact pieces too.
 *
 * usage: test PATH-OF-TABLES.md */
#include "tablewalk.h"

#include "images.h"

#include <inttypes.h>
#include <stdio.h>
#include <stdlib.h>
#include <string.h>

static unsigned passed, failed;

static void check(int right, const char *what, int line)
{
    if (right) {
        passed++;
    } else {
        failed++;
        printf("tests/c: line %d: %s\n", line, what);
    }
}

static void *exactly(const void *from, size_t size)
{
    /* A block of no bytes would be a null pointer on some systems. */
    void *to = malloc(size != 0 ? size : 1);
    if (to == NULL) {
        puts("tests/c: no memory");
        exit(2);
    }
    if (from != NULL) {
        memcpy(to, from, size);
    }
    return to;
}

/* ---- Buffers of 64-bit words */

#define AROUND 3u
#define MOST 24u

static uint64_t guarded[AROUND + MOST + AROUND];
static uint64_t *out;
static size_t out_length;

static uint64_t pattern(size_t i)
{
    return UINT64_C(0xa5a5a5a5deadbe00) + i;
}

static void fill(void)
{
    size_t i;
    for (i = 0; i < sizeof guarded / sizeof guarded[0]; i++) {
        guarded[i] = pattern(i);
    }
}

/* The words that were written are `want`; all others are as they were. */
static int only(const uint64_t *want, size_t count)
{
    size_t i;
    for (i = 0; i < sizeof guarded / sizeof guarded[0]; i++) {
        int inside = i >= AROUND && i - AROUND < count;
        if (guarded[i] != (inside ? want[i - AROUND] : pattern(i))) {
            return 0;
        }
    }
    return 1;
}

/* The answer is 0 with these words. `call` uses out and out_length. */
#define FOUND(call, ...) \
    do { \
        const uint64_t want_[] = {__VA_ARGS__}; \
        const size_t count_ = sizeof want_ / sizeof want_[0]; \
        size_t length_; \
        for (length_ = 0; length_ <= count_ + 3; length_++) { \
            const int enough_ = length_ >= count_; \
            uint32_t number_; \
            fill(); \
            out = guarded + AROUND; \
            out_length = length_; \
            number_ = (call); \
            check(number_ == (enough_ ? TABLEWALK_FOUND : TABLEWALK_BUFFER_TOO_SHORT), \
                  "another answer: " #call, __LINE__); \
            check(only(want_, enough_ ? count_ : 0), "other words in the buffer: " #call, __LINE__); \
            out = (uint64_t *)exactly(NULL, length_ * sizeof *out); \
            check((call) == number_, "another answer on an exact buffer: " #call, __LINE__); \
            check(!enough_ || memcmp(out, want_, sizeof want_) == 0, \
                  "other words in an exact buffer: " #call, __LINE__); \
            free(out); \
        } \
    } while (0)

/* The answer is this number, whatever the buffer's length, and the buffer stays as it was. */
#define REFUSED(number, call) \
    do { \
        size_t length_; \
        for (length_ = 0; length_ <= MOST; length_ += 4) { \
            fill(); \
            out = guarded + AROUND; \
            out_length = length_; \
            check((call) == (number), "not refused with " #number ": " #call, __LINE__); \
            check(only(NULL, 0), "a refusal wrote to the buffer: " #call, __LINE__); \
        } \
    } while (0)

/* ---- The five lists: buffers of 32-bit words */

#define LISTS 5u
#define MOST_RECORDS 16u

struct list {
    uint32_t words[AROUND + MOST_RECORDS + AROUND];
    uint32_t *start;
    size_t length;
};

static struct list lists[LISTS];

static void fill_lists(void)
{
    size_t l, i;
    for (l = 0; l < LISTS; l++) {
        for (i = 0; i < sizeof lists[l].words / sizeof lists[l].words[0]; i++) {
            lists[l].words[i] = (uint32_t)(0xbeef0000u + l * 256 + i);
        }
        lists[l].start = lists[l].words + AROUND;
    }
}

static int only_lists(const uint32_t *const want[LISTS], const size_t count[LISTS], int written)
{
    size_t l, i;
    for (l = 0; l < LISTS; l++) {
        for (i = 0; i < sizeof lists[l].words / sizeof lists[l].words[0]; i++) {
            int inside = written && i >= AROUND && i - AROUND < count[l];
            if (lists[l].words[i] != (inside ? want[l][i - AROUND] : (uint32_t)(0xbeef0000u + l * 256 + i))) {
                return 0;
            }
        }
    }
    return 1;
}

#define ALL_LISTS \
    lists[0].start, lists[0].length, lists[1].start, lists[1].length, lists[2].start, lists[2].length, \
    lists[3].start, lists[3].length, lists[4].start, lists[4].length

/* An image, or a table where no ranges are given. */
struct input {
    const uint8_t *bytes;
    size_t length;
    const uint64_t *ranges;
    size_t ranges_length;
    uint64_t rsdp;
};

static uint32_t ask_lists(const struct input *in)
{
    if (in->ranges == NULL) {
        return tablewalk_table_interrupt_lists(in->bytes, in->length, ALL_LISTS);
    }
    return tablewalk_interrupt_lists(in->bytes, in->length, in->ranges, in->ranges_length, in->rsdp, ALL_LISTS);
}

static void found_lists(const struct input *in, const uint32_t *const want[LISTS], const size_t count[LISTS], int line)
{
    size_t l, off;

    /* Every list at its exact length, and one of them off by -1, 0, 1 or 2. */
    for (l = 0; l < LISTS; l++) {
        for (off = 0; off < 4; off++) {
            size_t i;
            int enough;
            uint32_t number;

            fill_lists();
            for (i = 0; i < LISTS; i++) {
                lists[i].length = count[i];
            }
            if (off == 0 && count[l] == 0) {
                continue;
            }
            lists[l].length = count[l] + off - 1;
            enough = off >= 1;
            number = ask_lists(in);
            check(number == (enough ? TABLEWALK_FOUND : TABLEWALK_BUFFER_TOO_SHORT), "lists: another answer", line);
            check(only_lists(want, count, enough), "lists: other words in a buffer", line);

            for (i = 0; i < LISTS; i++) {
                lists[i].start = (uint32_t *)exactly(NULL, lists[i].length * sizeof(uint32_t));
            }
            check(ask_lists(in) == number, "lists: another answer on exact buffers", line);
            for (i = 0; i < LISTS; i++) {
                check(!enough || memcmp(lists[i].start, want[i], count[i] * sizeof(uint32_t)) == 0,
                      "lists: other words in an exact buffer", line);
                free(lists[i].start);
            }
        }
    }
}

static void refused_lists(const struct input *in, uint32_t number, int line)
{
    size_t length, i;
    for (length = 0; length <= MOST_RECORDS; length += 8) {
        fill_lists();
        for (i = 0; i < LISTS; i++) {
            lists[i].length = length;
        }
        check(ask_lists(in) == number, "lists: not refused with this number", line);
        check(only_lists(NULL, NULL, 0), "lists: a refusal wrote to a buffer", line);
    }
}

/* ---- The questions */

#define IMAGE image, image_length, ranges, ranges_length
#define OUT out, out_length

static void ask_sample(const uint8_t *sample)
{
    const uint64_t where[] = {SAMPLE_ADDRESS, SAMPLE_LENGTH, 0};
    const size_t image_length = SAMPLE_LENGTH, ranges_length = 3;
    uint8_t *image = (uint8_t *)exactly(sample, SAMPLE_LENGTH);
    uint64_t *ranges = (uint64_t *)exactly(where, sizeof where);
    const uint64_t rsdp = SAMPLE_ADDRESS;
    uint8_t *madt = (uint8_t *)exactly(sample + 0x80, 88);
    uint8_t *mcfg = (uint8_t *)exactly(sample + 0x100, 60);
    const uint32_t processors[] = {0, 0, TABLEWALK_PROCESSOR_RUNNING, 1, 2, TABLEWALK_PROCESSOR_WAITING};
    const uint32_t io_apics[] = {2, 0xfec00000, 0};
    const uint32_t overrides[] = {0, 2, 0};
    const uint32_t nmi_lines[] = {TABLEWALK_ALL_PROCESSORS, 1};
    const uint32_t none[1] = {0};
    const uint32_t *const records[LISTS] = {processors, io_apics, overrides, none, nmi_lines};
    const size_t count[LISTS] = {6, 3, 3, 0, 2};
    struct input as_image, as_table;
    uint32_t k;

    as_image.bytes = image;
    as_image.length = image_length;
    as_image.ranges = ranges;
    as_image.ranges_length = ranges_length;
    as_image.rsdp = rsdp;
    as_table.bytes = madt;
    as_table.length = 88;
    as_table.ranges = NULL;
    as_table.ranges_length = 0;
    as_table.rsdp = 0;

    check(tablewalk_ranges(IMAGE) == TABLEWALK_FOUND, "the ranges are right", __LINE__);
    FOUND(tablewalk_rsdp(IMAGE, rsdp, OUT), 2, 36, 0, SAMPLE_ADDRESS + 0x40);
    FOUND(tablewalk_root(IMAGE, rsdp, OUT), 1, SAMPLE_ADDRESS + 0x40, 0x40, 52, 8, 2);
    FOUND(tablewalk_entry(IMAGE, rsdp, 0, OUT), SAMPLE_ADDRESS + 0x80);
    FOUND(tablewalk_entry(IMAGE, rsdp, 1, OUT), SAMPLE_ADDRESS + 0x100);
    FOUND(tablewalk_table_at(IMAGE, rsdp + 0x80, TABLEWALK_MADT, TABLEWALK_MADT_LEAST, OUT), rsdp + 0x80, 0x80, 88);
    FOUND(tablewalk_any_table_at(IMAGE, rsdp + 0x100, OUT), rsdp + 0x100, 0x100, 60);
    FOUND(tablewalk_find(IMAGE, rsdp, TABLEWALK_MADT, TABLEWALK_MADT_LEAST, 0, OUT), rsdp + 0x80, 0x80, 88);
    FOUND(tablewalk_find(IMAGE, rsdp, TABLEWALK_MCFG, TABLEWALK_MCFG_LEAST, 0, OUT), rsdp + 0x100, 0x100, 60);
    FOUND(tablewalk_header(IMAGE, rsdp, 1, OUT), rsdp + 0x100, 0x100, 60);
    FOUND(tablewalk_mcfg_count(IMAGE, rsdp, OUT), 1);
    FOUND(tablewalk_table_mcfg_count(mcfg, 60, OUT), 1);
    FOUND(tablewalk_mcfg_entry(IMAGE, rsdp, 0, OUT), 0xb0000000, 0, 0, 63);
    FOUND(tablewalk_table_mcfg_entry(mcfg, 60, 0, OUT), 0xb0000000, 0, 0, 63);
    FOUND(tablewalk_pci_address(IMAGE, rsdp, 0, 12, 3, 1, OUT), 0xb0c19000);
    FOUND(tablewalk_table_pci_address(mcfg, 60, 0, 12, 3, 1, OUT), 0xb0c19000);
    FOUND(tablewalk_madt_fixed(IMAGE, rsdp, OUT), 0xfee00000, 1, 1);
    FOUND(tablewalk_table_madt_fixed(madt, 88, OUT), 0xfee00000, 1, 1);
    FOUND(tablewalk_madt_entry(IMAGE, rsdp, 4, OUT), 4, 82, 6);
    FOUND(tablewalk_table_madt_entry(madt, 88, 4, OUT), 4, 82, 6);
    FOUND(tablewalk_interrupt_model(IMAGE, rsdp, OUT), 1, 0xfee00000, 1, 2, 1, 1, 0, 1);
    FOUND(tablewalk_table_interrupt_model(madt, 88, OUT), 1, 0xfee00000, 1, 2, 1, 1, 0, 1);
    found_lists(&as_image, records, count, __LINE__);
    found_lists(&as_table, records, count, __LINE__);

    REFUSED(TABLEWALK_NONE, tablewalk_entry(IMAGE, rsdp, 2, OUT));
    REFUSED(TABLEWALK_NO_VALID_TABLE, tablewalk_find(IMAGE, rsdp, TABLEWALK_MADT, TABLEWALK_MADT_LEAST, 1, OUT));
    REFUSED(TABLEWALK_NO_VALID_TABLE, tablewalk_header(IMAGE, rsdp, 2, OUT));
    REFUSED(TABLEWALK_TABLE_SIGNATURE, tablewalk_table_at(IMAGE, rsdp + 0x80, TABLEWALK_MCFG, TABLEWALK_MCFG_LEAST, OUT));
    REFUSED(TABLEWALK_TABLE_TOO_SHORT, tablewalk_table_at(IMAGE, rsdp + 0x80, TABLEWALK_MADT, 89, OUT));
    REFUSED(TABLEWALK_NO_VALID_TABLE, tablewalk_any_table_at(IMAGE, rsdp + 0x13b, OUT));
    REFUSED(TABLEWALK_NO_VALID_TABLE, tablewalk_hpet(IMAGE, rsdp, OUT));
    REFUSED(TABLEWALK_NO_VALID_TABLE, tablewalk_fadt_fixed(IMAGE, rsdp, OUT));
    for (k = 0; k <= TABLEWALK_SLEEP_STATUS; k++) {
        REFUSED(TABLEWALK_NO_VALID_TABLE, tablewalk_fadt_register(IMAGE, rsdp, k, OUT));
    }
    for (k = 0; k <= TABLEWALK_POWER_PROFILE; k++) {
        REFUSED(TABLEWALK_NO_VALID_TABLE, tablewalk_fadt_number(IMAGE, rsdp, k, OUT));
    }
    REFUSED(TABLEWALK_NO_VALID_TABLE, tablewalk_platform(IMAGE, rsdp, OUT));
    REFUSED(TABLEWALK_NO_VALID_TABLE, tablewalk_dsdt(IMAGE, rsdp, OUT));
    REFUSED(TABLEWALK_NO_VALID_TABLE, tablewalk_ssdt(IMAGE, rsdp, 0, OUT));
    REFUSED(TABLEWALK_NONE, tablewalk_mcfg_entry(IMAGE, rsdp, 1, OUT));
    REFUSED(TABLEWALK_NONE, tablewalk_pci_address(IMAGE, rsdp, 0, 64, 0, 0, OUT));
    REFUSED(TABLEWALK_NONE, tablewalk_pci_address(IMAGE, rsdp, 1, 0, 0, 0, OUT));
    REFUSED(TABLEWALK_NONE, tablewalk_pci_address(IMAGE, rsdp, 0, 0, 32, 0, OUT));
    REFUSED(TABLEWALK_NONE, tablewalk_pci_address(IMAGE, rsdp, 0, 0, 0, 8, OUT));
    REFUSED(TABLEWALK_NONE, tablewalk_madt_entry(IMAGE, rsdp, 5, OUT));
    REFUSED(TABLEWALK_INTERRUPT_ENTRY, tablewalk_mailbox(IMAGE, rsdp, OUT));
    REFUSED(TABLEWALK_ROOT_POINTER_UNMAPPED, tablewalk_rsdp(IMAGE, 0, OUT));
    REFUSED(TABLEWALK_ROOT_POINTER_SIGNATURE, tablewalk_root(IMAGE, rsdp + 1, OUT));

    /* A wrong list of ranges: 1 to every question about an image. */
    ranges[1]++;
    check(tablewalk_ranges(IMAGE) == TABLEWALK_WRONG_RANGES, "the ranges are wrong", __LINE__);
    REFUSED(TABLEWALK_WRONG_RANGES, tablewalk_rsdp(IMAGE, rsdp, OUT));
    REFUSED(TABLEWALK_WRONG_RANGES, tablewalk_search(IMAGE, OUT));
    REFUSED(TABLEWALK_WRONG_RANGES, tablewalk_table_at(IMAGE, rsdp, 0, 0, OUT));
    REFUSED(TABLEWALK_WRONG_RANGES, tablewalk_any_table_at(IMAGE, rsdp, OUT));
    REFUSED(TABLEWALK_WRONG_RANGES, tablewalk_root(IMAGE, rsdp, OUT));
    REFUSED(TABLEWALK_WRONG_RANGES, tablewalk_entry(IMAGE, rsdp, 0, OUT));
    REFUSED(TABLEWALK_WRONG_RANGES, tablewalk_find(IMAGE, rsdp, 0, 0, 0, OUT));
    REFUSED(TABLEWALK_WRONG_RANGES, tablewalk_header(IMAGE, rsdp, 0, OUT));
    REFUSED(TABLEWALK_WRONG_RANGES, tablewalk_hpet(IMAGE, rsdp, OUT));
    REFUSED(TABLEWALK_WRONG_RANGES, tablewalk_mcfg_count(IMAGE, rsdp, OUT));
    REFUSED(TABLEWALK_WRONG_RANGES, tablewalk_mcfg_entry(IMAGE, rsdp, 0, OUT));
    REFUSED(TABLEWALK_WRONG_RANGES, tablewalk_pci_address(IMAGE, rsdp, 0, 0, 0, 0, OUT));
    REFUSED(TABLEWALK_WRONG_RANGES, tablewalk_fadt_fixed(IMAGE, rsdp, OUT));
    REFUSED(TABLEWALK_WRONG_RANGES, tablewalk_fadt_register(IMAGE, rsdp, 0, OUT));
    REFUSED(TABLEWALK_WRONG_RANGES, tablewalk_fadt_number(IMAGE, rsdp, 0, OUT));
    REFUSED(TABLEWALK_WRONG_RANGES, tablewalk_madt_fixed(IMAGE, rsdp, OUT));
    REFUSED(TABLEWALK_WRONG_RANGES, tablewalk_madt_entry(IMAGE, rsdp, 0, OUT));
    REFUSED(TABLEWALK_WRONG_RANGES, tablewalk_interrupt_model(IMAGE, rsdp, OUT));
    REFUSED(TABLEWALK_WRONG_RANGES, tablewalk_mailbox(IMAGE, rsdp, OUT));
    REFUSED(TABLEWALK_WRONG_RANGES, tablewalk_dsdt(IMAGE, rsdp, OUT));
    REFUSED(TABLEWALK_WRONG_RANGES, tablewalk_ssdt(IMAGE, rsdp, 0, OUT));
    refused_lists(&as_image, TABLEWALK_WRONG_RANGES, __LINE__);
    ranges[1]--;

    /* The damages of docs/TABLES.md, section 12. */
    image[0xd3] = 0;
    REFUSED(TABLEWALK_NO_VALID_TABLE, tablewalk_interrupt_model(IMAGE, rsdp, OUT));
    fix_sum(image + 0x80, 88, 9);
    REFUSED(TABLEWALK_INTERRUPT_ENTRY, tablewalk_interrupt_model(IMAGE, rsdp, OUT));
    REFUSED(TABLEWALK_INTERRUPT_ENTRY, tablewalk_madt_entry(IMAGE, rsdp, 4, OUT));
    refused_lists(&as_image, TABLEWALK_INTERRUPT_ENTRY, __LINE__);
    memcpy(image, sample, SAMPLE_LENGTH);
    image[0x84] = 0x23;
    REFUSED(TABLEWALK_NO_VALID_TABLE, tablewalk_interrupt_model(IMAGE, rsdp, OUT));
    memcpy(image, sample, SAMPLE_LENGTH);
    image[0x14] = 0xff;
    REFUSED(TABLEWALK_ROOT_POINTER_CHECKSUM, tablewalk_root(IMAGE, rsdp, OUT));
    memcpy(image, sample, SAMPLE_LENGTH);
    image[9] = 0xff;
    REFUSED(TABLEWALK_ROOT_POINTER_OEM_ID, tablewalk_rsdp(IMAGE, rsdp, OUT));
    memcpy(image, sample, SAMPLE_LENGTH);
    image[0x44]++;
    REFUSED(TABLEWALK_TABLE_CHECKSUM, tablewalk_root(IMAGE, rsdp, OUT));
    image[0x45] = 0xff;
    REFUSED(TABLEWALK_ROOT_TABLE_UNMAPPED, tablewalk_root(IMAGE, rsdp, OUT));
    memcpy(image, sample, SAMPLE_LENGTH);
    image[0x8a] = 0x80;
    REFUSED(TABLEWALK_TABLE_OEM_ID, tablewalk_any_table_at(IMAGE, rsdp + 0x80, OUT));
    memcpy(image, sample, SAMPLE_LENGTH);
    image[0x90] = 0x80;
    REFUSED(TABLEWALK_TABLE_ID, tablewalk_any_table_at(IMAGE, rsdp + 0x80, OUT));
    memcpy(image, sample, SAMPLE_LENGTH);
    image[0xd7] = 2;
    fix_sum(image + 0x80, 88, 9);
    REFUSED(TABLEWALK_INTERRUPT_VALUE, tablewalk_interrupt_model(IMAGE, rsdp, OUT));
    refused_lists(&as_image, TABLEWALK_INTERRUPT_VALUE, __LINE__);

    /* A slice that is not the table: 11 to every question about a table. */
    for (k = 0; k < 2; k++) {
        const size_t length = k == 0 ? 87 : 0;
        REFUSED(TABLEWALK_TABLE_TOO_SHORT, tablewalk_table_hpet(madt, length, OUT));
        REFUSED(TABLEWALK_TABLE_TOO_SHORT, tablewalk_table_mcfg_count(madt, length, OUT));
        REFUSED(TABLEWALK_TABLE_TOO_SHORT, tablewalk_table_mcfg_entry(madt, length, 0, OUT));
        REFUSED(TABLEWALK_TABLE_TOO_SHORT, tablewalk_table_pci_address(madt, length, 0, 0, 0, 0, OUT));
        REFUSED(TABLEWALK_TABLE_TOO_SHORT, tablewalk_table_fadt_fixed(madt, length, OUT));
        REFUSED(TABLEWALK_TABLE_TOO_SHORT, tablewalk_table_fadt_register(madt, length, 0, OUT));
        REFUSED(TABLEWALK_TABLE_TOO_SHORT, tablewalk_table_fadt_number(madt, length, 0, OUT));
        REFUSED(TABLEWALK_TABLE_TOO_SHORT, tablewalk_table_madt_fixed(madt, length, OUT));
        REFUSED(TABLEWALK_TABLE_TOO_SHORT, tablewalk_table_madt_entry(madt, length, 0, OUT));
        REFUSED(TABLEWALK_TABLE_TOO_SHORT, tablewalk_table_interrupt_model(madt, length, OUT));
        REFUSED(TABLEWALK_TABLE_TOO_SHORT, tablewalk_table_mailbox(madt, length, OUT));
        as_table.length = length;
        refused_lists(&as_table, TABLEWALK_TABLE_TOO_SHORT, __LINE__);
    }

    free(image);
    free(ranges);
    free(madt);
    free(mcfg);
}

static void ask_board(void)
{
    uint8_t bytes[BOARD_LENGTH];
    uint64_t where[6];
    uint8_t *image, *fadt, *madt, *mcfg, *hpet;
    uint64_t *ranges;
    const size_t image_length = BOARD_LENGTH, ranges_length = 6;
    const uint64_t rsdp = BOARD_ROOT_POINTER;
    const uint32_t processors[] = {0, 0, TABLEWALK_PROCESSOR_RUNNING, 1, 4, TABLEWALK_PROCESSOR_DISABLED, 300, 256, TABLEWALK_PROCESSOR_WAITING};
    const uint32_t io_apics[] = {8, 0xfec00000, 0, 9, 0xfec01000, 24};
    const uint32_t overrides[] = {9, 9, TABLEWALK_POLARITY_HIGH | TABLEWALK_TRIGGER_LEVEL << 2};
    const uint32_t nmi_sources[] = {2, TABLEWALK_POLARITY_LOW | TABLEWALK_TRIGGER_EDGE << 2};
    const uint32_t nmi_lines[] = {1, 0, TABLEWALK_ALL_PROCESSORS, 1};
    const uint32_t *const records[LISTS] = {processors, io_apics, overrides, nmi_sources, nmi_lines};
    const size_t count[LISTS] = {9, 6, 3, 2, 4};
    struct input as_image, as_table;

    build_board(bytes, where);
    image = (uint8_t *)exactly(bytes, sizeof bytes);
    ranges = (uint64_t *)exactly(where, sizeof where);
    fadt = (uint8_t *)exactly(bytes + BOARD_FADT, BOARD_FADT_LENGTH);
    madt = (uint8_t *)exactly(bytes + BOARD_MADT, BOARD_MADT_LENGTH);
    mcfg = (uint8_t *)exactly(bytes + BOARD_MCFG, BOARD_MCFG_LENGTH);
    hpet = (uint8_t *)exactly(bytes + BOARD_HPET, BOARD_HPET_LENGTH);
    as_image.bytes = image;
    as_image.length = image_length;
    as_image.ranges = ranges;
    as_image.ranges_length = ranges_length;
    as_image.rsdp = rsdp;
    as_table.bytes = madt;
    as_table.length = BOARD_MADT_LENGTH;
    as_table.ranges = NULL;
    as_table.ranges_length = 0;
    as_table.rsdp = 0;

    FOUND(tablewalk_search(IMAGE, OUT), BOARD_ROOT_POINTER);
    FOUND(tablewalk_rsdp(IMAGE, rsdp, OUT), 0, 20, BOARD_TABLES + BOARD_RSDT, 0);
    FOUND(tablewalk_root(IMAGE, rsdp, OUT), 0, BOARD_TABLES + BOARD_RSDT, BOARD_RSDT, 67, 4, 7);
    FOUND(tablewalk_entry(IMAGE, rsdp, 6, OUT), BOARD_TABLES + BOARD_SSDT_2);
    REFUSED(TABLEWALK_NONE, tablewalk_entry(IMAGE, rsdp, 7, OUT));
    FOUND(tablewalk_header(IMAGE, rsdp, 4, OUT), BOARD_TABLES + BOARD_SSDT, BOARD_SSDT, 41);
    FOUND(tablewalk_ssdt(IMAGE, rsdp, 0, OUT), BOARD_TABLES + BOARD_SSDT + 36, 5);
    FOUND(tablewalk_ssdt(IMAGE, rsdp, 1, OUT), BOARD_TABLES + BOARD_SSDT_2 + 36, 0);
    REFUSED(TABLEWALK_NO_VALID_TABLE, tablewalk_ssdt(IMAGE, rsdp, 2, OUT));
    FOUND(tablewalk_dsdt(IMAGE, rsdp, OUT), BOARD_TABLES + BOARD_DSDT + 36, BOARD_LENGTH - BOARD_DSDT - 36);

    FOUND(tablewalk_hpet(IMAGE, rsdp, OUT), 0x8086a201, 1, 3, 1, 1, 0x8086, 0xfed00000, 3, 0x80, 2);
    FOUND(tablewalk_table_hpet(hpet, BOARD_HPET_LENGTH, OUT), 0x8086a201, 1, 3, 1, 1, 0x8086, 0xfed00000, 3, 0x80, 2);
    hpet[40] = 1;
    REFUSED(TABLEWALK_GENERIC_ADDRESS, tablewalk_table_hpet(hpet, BOARD_HPET_LENGTH, OUT));

    FOUND(tablewalk_mcfg_count(IMAGE, rsdp, OUT), 2);
    FOUND(tablewalk_mcfg_entry(IMAGE, rsdp, 1, OUT), UINT64_C(0x8000000000), 1, 16, 255);
    FOUND(tablewalk_table_mcfg_entry(mcfg, BOARD_MCFG_LENGTH, 1, OUT), UINT64_C(0x8000000000), 1, 16, 255);
    FOUND(tablewalk_pci_address(IMAGE, rsdp, 1, 255, 31, 7, OUT), UINT64_C(0x8000000000) + (239u << 20) + (31u << 15) + (7u << 12));
    FOUND(tablewalk_table_pci_address(mcfg, BOARD_MCFG_LENGTH, 0, 127, 0, 0, OUT), 0xe0000000 + (127u << 20));

    FOUND(tablewalk_fadt_fixed(IMAGE, rsdp, OUT), 9, 0xb2, 0xa0, 0xa1, 0xa2, 0xa3, 0x10, 0x11, 0x1213, 0x1415, 0x1617, 0x1819,
          0x1a, 0x1b, 0x1c, 0x1d, 0x32, 0x1e1f, 0x105);
    FOUND(tablewalk_table_fadt_fixed(fadt, BOARD_FADT_LENGTH, OUT), 9, 0xb2, 0xa0, 0xa1, 0xa2, 0xa3, 0x10, 0x11, 0x1213, 0x1415,
          0x1617, 0x1819, 0x1a, 0x1b, 0x1c, 0x1d, 0x32, 0x1e1f, 0x105);
    FOUND(tablewalk_fadt_register(IMAGE, rsdp, TABLEWALK_PM1A_EVENT, OUT), 0, 32, 0, 3, UINT64_C(0xfed00000600));
    REFUSED(TABLEWALK_NONE, tablewalk_fadt_register(IMAGE, rsdp, TABLEWALK_PM1B_EVENT, OUT));
    FOUND(tablewalk_fadt_register(IMAGE, rsdp, TABLEWALK_PM1A_CONTROL, OUT), 1, 256, 0, 0, 0x604);
    REFUSED(TABLEWALK_NONE, tablewalk_fadt_register(IMAGE, rsdp, TABLEWALK_PM1B_CONTROL, OUT));
    REFUSED(TABLEWALK_NONE, tablewalk_fadt_register(IMAGE, rsdp, TABLEWALK_PM2_CONTROL, OUT));
    FOUND(tablewalk_fadt_register(IMAGE, rsdp, TABLEWALK_PM_TIMER, OUT), 1, 32, 0, 0, 0x608);
    REFUSED(TABLEWALK_GENERIC_ADDRESS, tablewalk_fadt_register(IMAGE, rsdp, TABLEWALK_GPE0, OUT));
    REFUSED(TABLEWALK_NONE, tablewalk_fadt_register(IMAGE, rsdp, TABLEWALK_GPE1, OUT));
    FOUND(tablewalk_fadt_register(IMAGE, rsdp, TABLEWALK_RESET, OUT), 1, 8, 0, 1, 0xcf9);
    FOUND(tablewalk_table_fadt_register(fadt, BOARD_FADT_LENGTH, TABLEWALK_SLEEP_CONTROL, OUT), 0x7f, 8, 1, 0, 0);
    FOUND(tablewalk_table_fadt_register(fadt, BOARD_FADT_LENGTH, TABLEWALK_SLEEP_STATUS, OUT), 0xc1, 8, 2, 4, 5);
    FOUND(tablewalk_fadt_number(IMAGE, rsdp, TABLEWALK_FACS_ADDRESS, OUT), 0x7fe1000);
    FOUND(tablewalk_fadt_number(IMAGE, rsdp, TABLEWALK_DSDT_ADDRESS, OUT), BOARD_TABLES + BOARD_DSDT);
    FOUND(tablewalk_fadt_number(IMAGE, rsdp, TABLEWALK_RESET_VALUE, OUT), 0xf);
    FOUND(tablewalk_fadt_number(IMAGE, rsdp, TABLEWALK_ARM_BOOT_ARCH, OUT), 3);
    FOUND(tablewalk_table_fadt_number(fadt, BOARD_FADT_LENGTH, TABLEWALK_POWER_PROFILE, OUT), 2);
    REFUSED(TABLEWALK_NONE, tablewalk_fadt_register(IMAGE, rsdp, TABLEWALK_SLEEP_STATUS + 1, OUT));
    REFUSED(TABLEWALK_NONE, tablewalk_fadt_register(IMAGE, rsdp, UINT32_MAX, OUT));
    REFUSED(TABLEWALK_NONE, tablewalk_fadt_number(IMAGE, rsdp, TABLEWALK_POWER_PROFILE + 1, OUT));
    /* A slice that is no FADT is refused as such, whatever number is asked. */
    REFUSED(TABLEWALK_TABLE_TOO_SHORT, tablewalk_table_fadt_register(fadt, 115, TABLEWALK_SLEEP_STATUS + 1, OUT));
    REFUSED(TABLEWALK_TABLE_TOO_SHORT, tablewalk_table_fadt_number(fadt, 115, TABLEWALK_POWER_PROFILE + 1, OUT));
    REFUSED(TABLEWALK_NONE, tablewalk_table_fadt_number(fadt, BOARD_FADT_LENGTH, TABLEWALK_POWER_PROFILE + 1, OUT));
    /* A FADT that ends in the middle of its sleep registers. */
    fadt[4] = 255;
    fadt[5] = 0;
    REFUSED(TABLEWALK_TABLE_TOO_SHORT, tablewalk_table_fadt_register(fadt, 255, TABLEWALK_SLEEP_CONTROL, OUT));
    FOUND(tablewalk_table_fadt_register(fadt, 255, TABLEWALK_RESET, OUT), 1, 8, 0, 1, 0xcf9);

    FOUND(tablewalk_madt_fixed(IMAGE, rsdp, OUT), 0xfee00000, 0, 0);
    FOUND(tablewalk_madt_entry(IMAGE, rsdp, 10, OUT), 0x80, 44 + 104, 3);
    FOUND(tablewalk_interrupt_model(IMAGE, rsdp, OUT), 1, UINT64_C(0x100000000), 0, 3, 2, 1, 1, 2);
    FOUND(tablewalk_mailbox(IMAGE, rsdp, OUT), 0x7fe2000);
    FOUND(tablewalk_table_mailbox(madt, BOARD_MADT_LENGTH, OUT), 0x7fe2000);
    found_lists(&as_image, records, count, __LINE__);
    found_lists(&as_table, records, count, __LINE__);

    /* No processor left, and an entry of another model. */
    madt[44] = madt[52] = madt[60] = 0x80;
    REFUSED(TABLEWALK_INTERRUPT_ENTRY, tablewalk_table_interrupt_model(madt, BOARD_MADT_LENGTH, OUT));
    refused_lists(&as_table, TABLEWALK_INTERRUPT_ENTRY, __LINE__);
    madt[44] = 0;
    madt[52] = 11;
    REFUSED(TABLEWALK_INTERRUPT_ENTRY, tablewalk_table_interrupt_model(madt, BOARD_MADT_LENGTH, OUT));
    madt[52] = 0;
    madt[60] = 9;

    /* Only kinds that are skipped: the model is unknown, and every list is empty. */
    madt[4] = 47;
    madt[5] = 0;
    madt[44] = 0x81;
    madt[45] = 3;
    {
        uint64_t words[TABLEWALK_INTERRUPT_MODEL_WORDS];
        check(tablewalk_table_interrupt_model(madt, 47, words, 8) == TABLEWALK_FOUND && words[0] == 0 && words[3] == 0,
              "the model is unknown", __LINE__);
        fill_lists();
        lists[0].length = lists[1].length = lists[2].length = lists[3].length = lists[4].length = 0;
        check(tablewalk_table_interrupt_lists(madt, 47, ALL_LISTS) == TABLEWALK_FOUND && only_lists(NULL, NULL, 0),
              "the lists of an unknown model are empty", __LINE__);
    }

    /* Without the root pointer nothing is found. */
    image[16] = 0;
    REFUSED(TABLEWALK_NO_ROOT_POINTER, tablewalk_search(IMAGE, OUT));

    free(image);
    free(ranges);
    free(fadt);
    free(madt);
    free(mcfg);
    free(hpet);
}

/* Power profile, model and timer, of the board and of boards on which one of them is not there or is wrong. */
static void ask_platform(void)
{
    uint8_t bytes[BOARD_LENGTH];
    uint64_t where[6];
    uint8_t *image, *fadt, *madt;
    uint64_t *ranges;
    const size_t image_length = BOARD_LENGTH, ranges_length = 6;
    const uint64_t rsdp = BOARD_ROOT_POINTER;
    struct tablewalk_platform_info info;

    build_board(bytes, where);
    image = (uint8_t *)exactly(bytes, sizeof bytes);
    ranges = (uint64_t *)exactly(where, sizeof where);
    fadt = image + BOARD_FADT;
    madt = image + BOARD_MADT;

    FOUND(tablewalk_platform(IMAGE, rsdp, OUT), 2, 1, UINT64_C(0x100000000), 0, 3, 2, 1, 1, 2, 1, 1, 32, 0, 0, 0x608, 1);
    check(tablewalk_platform(IMAGE, rsdp, TABLEWALK_OUT(info)) == TABLEWALK_FOUND && info.power_profile == 2
              && info.model.processors == 3 && info.has_pm_timer == 1 && info.pm_timer.address == 0x608
              && info.pm_timer_is_32_bit == 1,
          "struct tablewalk_platform_info", __LINE__);
    fadt[113] = 0;
    fix_sum(fadt, BOARD_FADT_LENGTH, 9);
    FOUND(tablewalk_platform(IMAGE, rsdp, OUT), 2, 1, UINT64_C(0x100000000), 0, 3, 2, 1, 1, 2, 1, 1, 32, 0, 0, 0x608, 0);

    /* A timer of another length is none, and a MADT that does not sum to 0 is none. */
    fadt[91] = 3;
    fix_sum(fadt, BOARD_FADT_LENGTH, 9);
    FOUND(tablewalk_platform(IMAGE, rsdp, OUT), 2, 1, UINT64_C(0x100000000), 0, 3, 2, 1, 1, 2, 0, 0, 0, 0, 0, 0, 0);
    madt[9]++;
    FOUND(tablewalk_platform(IMAGE, rsdp, OUT), 2, 0, 0, 0, 0, 0, 0, 0, 0, 0, 0, 0, 0, 0, 0, 0);

    /* A timer in an unknown space, without a MADT, with one, and behind a wrong entry of one. */
    fadt[91] = 4;
    fadt[208] = 11;
    fadt[212] = 1;
    fix_sum(fadt, BOARD_FADT_LENGTH, 9);
    REFUSED(TABLEWALK_GENERIC_ADDRESS, tablewalk_platform(IMAGE, rsdp, OUT));
    madt[9]--;
    REFUSED(TABLEWALK_GENERIC_ADDRESS, tablewalk_platform(IMAGE, rsdp, OUT));
    madt[45] = 0;
    fix_sum(madt, BOARD_MADT_LENGTH, 9);
    REFUSED(TABLEWALK_INTERRUPT_ENTRY, tablewalk_platform(IMAGE, rsdp, OUT));
    fadt[9]++;
    REFUSED(TABLEWALK_NO_VALID_TABLE, tablewalk_platform(IMAGE, rsdp, OUT));

    free(image);
    free(ranges);
}

/* The structs of the header, lent as buffers. */
static void ask_with_structs(const uint8_t *image)
{
    const uint64_t ranges[] = {SAMPLE_ADDRESS, SAMPLE_LENGTH, 0};
    struct tablewalk_model model;
    struct tablewalk_mcfg_window window;
    struct tablewalk_processor processors[2];
    struct tablewalk_io_apic io_apics[1];
    struct tablewalk_interrupt_source_override overrides[1];
    struct tablewalk_nmi_source nmi_sources[1];
    struct tablewalk_nmi_line nmi_lines[1];

    check(tablewalk_interrupt_model(image, SAMPLE_LENGTH, ranges, 3, SAMPLE_ADDRESS, TABLEWALK_OUT(model)) == TABLEWALK_FOUND
              && model.known == 1 && model.processors == 2 && model.local_apic_nmi_lines == 1,
          "struct tablewalk_model", __LINE__);
    check(tablewalk_mcfg_entry(image, SAMPLE_LENGTH, ranges, 3, SAMPLE_ADDRESS, 0, TABLEWALK_OUT(window)) == TABLEWALK_FOUND
              && window.base_address == 0xb0000000 && window.bus_number_end == 63,
          "struct tablewalk_mcfg_window", __LINE__);
    check(tablewalk_interrupt_lists(image, SAMPLE_LENGTH, ranges, 3, SAMPLE_ADDRESS, TABLEWALK_RECORDS(processors, 2),
                                    TABLEWALK_RECORDS(io_apics, 1), TABLEWALK_RECORDS(overrides, 1), TABLEWALK_RECORDS(nmi_sources, 0),
                                    TABLEWALK_RECORDS(nmi_lines, 1))
                  == TABLEWALK_FOUND
              && processors[1].local_apic_id == 2 && processors[1].state == TABLEWALK_PROCESSOR_WAITING && io_apics[0].id == 2
              && overrides[0].global_system_interrupt == 2
              && TABLEWALK_POLARITY(overrides[0].polarity_and_trigger) == TABLEWALK_POLARITY_AS_BUS
              && nmi_lines[0].processor_uid == TABLEWALK_ALL_PROCESSORS && nmi_lines[0].line == 1,
          "the structs of the lists", __LINE__);
}

int main(int argc, char **argv)
{
    uint8_t sample[SAMPLE_LENGTH];

    if (argc != 2 || !read_sample(argv[1], sample)) {
        puts("tests/c: the sample could not be read; usage: test PATH-OF-TABLES.md");
        return 2;
    }
    ask_sample(sample);
    ask_with_structs(sample);
    ask_board();
    ask_platform();
    printf("%u passed, %u failed\n", passed, failed);
    return failed != 0;
}
