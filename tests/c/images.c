#include "images.h"

#include <stdio.h>
#include <stdlib.h>
#include <string.h>

int read_sample(const char *page, uint8_t image[SAMPLE_LENGTH])
{
    FILE *file = fopen(page, "r");
    char line[256];
    int rows = 0, inside = 0;

    if (file == NULL) {
        return 0;
    }
    memset(image, 0, SAMPLE_LENGTH);
    while (fgets(line, sizeof line, file) != NULL) {
        char *rest;
        unsigned long at;

        if (strncmp(line, "## ", 3) == 0) {
            inside = strstr(line, "Sample") != NULL;
        }
        /* A row is indented by four, then has an offset of three hexadecimal digits. */
        if (!inside || strncmp(line, "    ", 4) != 0) {
            continue;
        }
        at = strtoul(line + 4, &rest, 16);
        if (rest != line + 7) {
            continue;
        }
        rows++;
        for (;;) {
            char *next;
            unsigned long byte = strtoul(rest, &next, 16);
            if (next == rest) {
                break;
            }
            if (at >= SAMPLE_LENGTH || byte > 255) {
                fclose(file);
                return 0;
            }
            image[at++] = (uint8_t)byte;
            rest = next;
        }
    }
    fclose(file);
    return rows == 9;
}

static void put(uint8_t *at, unsigned size, uint64_t value)
{
    while (size-- != 0) {
        *at++ = (uint8_t)(value & 255);
        value >>= 8;
    }
}

void fix_sum(uint8_t *bytes, size_t length, size_t checksum)
{
    unsigned sum = 0;
    size_t i;

    bytes[checksum] = 0;
    for (i = 0; i < length; i++) {
        sum += bytes[i];
    }
    bytes[checksum] = (uint8_t)(0x100 - sum % 0x100);
}

static void header(uint8_t *table, const char *signature, uint32_t length, uint8_t revision)
{
    memcpy(table, signature, 4);
    put(table + 4, 4, length);
    table[8] = revision;
    memcpy(table + 10, "ROWANSBLADE-07", 14);
}

/* A generic address: space, bit width, bit offset, access size, address. */
static void generic(uint8_t *at, uint8_t space, uint8_t width, uint8_t offset, uint8_t access, uint64_t where)
{
    at[0] = space;
    at[1] = width;
    at[2] = offset;
    at[3] = access;
    put(at + 4, 8, where);
}

/* The physical address of what stands at an offset of the board. */
static uint64_t address(size_t offset)
{
    return BOARD_TABLES + offset;
}

void build_board(uint8_t image[BOARD_LENGTH], uint64_t ranges[6])
{
    uint8_t *t;
    size_t i;
    static const size_t listed[] = {BOARD_FADT, BOARD_MADT, BOARD_MCFG, BOARD_HPET, BOARD_BAD_SSDT, BOARD_SSDT, BOARD_SSDT_2};
    static const uint8_t entries[] = {
        0, 8, 0, 0, 1, 0, 0, 0,                             /* processor 0, controller 0 */
        0, 8, 1, 4, 0, 0, 0, 0,                             /* processor 1, disabled */
        9, 16, 0, 0, 0, 1, 0, 0, 1, 0, 0, 0, 44, 1, 0, 0,   /* processor 300, controller 256 */
        1, 12, 8, 0, 0, 0, 0xc0, 0xfe, 0, 0, 0, 0,          /* I/O controller 8 */
        1, 12, 9, 0, 0, 0x10, 0xc0, 0xfe, 24, 0, 0, 0,      /* I/O controller 9 */
        2, 10, 0, 9, 9, 0, 0, 0, 13, 0,                     /* source 9, high, level */
        3, 8, 7, 0, 2, 0, 0, 0,                             /* NMI source 2, low, edge */
        4, 6, 1, 0, 0, 0,                                   /* NMI line 0 of processor 1 */
        10, 12, 0, 0, 0xff, 0xff, 0xff, 0xff, 1, 0, 0, 0,   /* NMI line 1 of all */
        5, 12, 0, 0, 0, 0, 0, 0, 1, 0, 0, 0,                /* local address 2^32 */
        0x80, 3, 0,                                         /* a kind that is skipped */
        16, 16, 1, 0, 0, 0, 0, 0, 0, 0x20, 0xfe, 7, 0, 0, 0, 0, /* mailbox at 7fe2000 */
    };

    memset(image, 0, BOARD_LENGTH);
    ranges[0] = BOARD_ROOT_POINTER - 16;
    ranges[1] = 36;
    ranges[2] = 0;
    ranges[3] = address(0);
    ranges[4] = BOARD_LENGTH;
    ranges[5] = 0;

    /* Revision 0: 20 bytes, exactly what the first range still holds. */
    t = image + 16;
    memcpy(t, "RSD PTR ", 8);
    memcpy(t + 9, "ROWANS", 6);
    put(t + 16, 4, address(BOARD_RSDT));
    fix_sum(t, 20, 8);

    t = image + BOARD_RSDT;
    header(t, "RSDT", 36 + 4 * 7 + 3, 1);
    for (i = 0; i < 7; i++) {
        put(t + 36 + 4 * i, 4, address(listed[i]));
    }
    fix_sum(t, 36 + 4 * 7 + 3, 9);

    t = image + BOARD_FADT;
    header(t, "FACP", BOARD_FADT_LENGTH, 6);
    put(t + 36, 4, 0x7fe1000);
    t[45] = 2;
    put(t + 46, 2, 9);
    put(t + 48, 4, 0xb2);
    t[52] = 0xa0;
    t[53] = 0xa1;
    t[54] = 0xa2;
    t[55] = 0xa3;
    put(t + 56, 4, 0x600);
    put(t + 64, 4, 0x604);
    put(t + 76, 4, 0x608);
    put(t + 80, 4, 0xafe0);
    t[88] = 4;
    t[89] = 32;
    t[91] = 4;
    t[92] = 16;
    t[94] = 0x10;
    t[95] = 0x11;
    put(t + 96, 2, 0x1213);
    put(t + 98, 2, 0x1415);
    put(t + 100, 2, 0x1617);
    put(t + 102, 2, 0x1819);
    t[104] = 0x1a;
    t[105] = 0x1b;
    t[106] = 0x1c;
    t[107] = 0x1d;
    t[108] = 0x32;
    put(t + 109, 2, 0x1e1f);
    put(t + 112, 4, 0x105);
    generic(t + 116, 1, 8, 0, 1, 0xcf9);
    t[128] = 0xf;
    put(t + 129, 2, 3);
    put(t + 140, 8, address(BOARD_DSDT));
    generic(t + 148, 0, 32, 0, 3, UINT64_C(0xfed00000600));
    generic(t + 220, 11, 8, 0, 1, 0x1000);
    generic(t + 244, 0x7f, 8, 1, 0, 0);
    generic(t + 256, 0xc1, 8, 2, 4, 5);
    fix_sum(t, BOARD_FADT_LENGTH, 9);

    t = image + BOARD_MADT;
    header(t, "APIC", BOARD_MADT_LENGTH, 5);
    put(t + 36, 4, 0xfee00000);
    put(t + 40, 4, 0);
    memcpy(t + 44, entries, sizeof entries);
    fix_sum(t, BOARD_MADT_LENGTH, 9);

    t = image + BOARD_MCFG;
    header(t, "MCFG", BOARD_MCFG_LENGTH, 1);
    put(t + 44, 8, 0xe0000000);
    put(t + 52, 2, 0);
    t[54] = 0;
    t[55] = 127;
    put(t + 60, 8, UINT64_C(0x8000000000));
    put(t + 68, 2, 1);
    t[70] = 16;
    t[71] = 255;
    fix_sum(t, BOARD_MCFG_LENGTH, 9);

    t = image + BOARD_HPET;
    header(t, "HPET", BOARD_HPET_LENGTH, 1);
    put(t + 36, 4, 0x8086a201);
    generic(t + 40, 0, 64, 0, 0, 0xfed00000);
    t[52] = 3;
    put(t + 53, 2, 0x80);
    t[55] = 0x52;
    fix_sum(t, BOARD_HPET_LENGTH, 9);

    t = image + BOARD_BAD_SSDT;
    header(t, "SSDT", 40, 2);
    fix_sum(t, 40, 9);
    t[39]++;
    t = image + BOARD_SSDT;
    header(t, "SSDT", 41, 2);
    fix_sum(t, 41, 9);
    t = image + BOARD_SSDT_2;
    header(t, "SSDT", 36, 2);
    fix_sum(t, 36, 9);
    t = image + BOARD_DSDT;
    header(t, "DSDT", BOARD_LENGTH - BOARD_DSDT, 2);
    for (i = 36; i < BOARD_LENGTH - BOARD_DSDT; i++) {
        t[i] = (uint8_t)i;
    }
    fix_sum(t, BOARD_LENGTH - BOARD_DSDT, 9);
}
