/* The two images of the C tests: the sample of docs/TABLES.md, read from that page, and a board
 * with every kind of table, built here. */
#ifndef IMAGES_H
#define IMAGES_H

#include <stddef.h>
#include <stdint.h>

#define SAMPLE_LENGTH 316
#define SAMPLE_ADDRESS UINT64_C(0x7ff00000)

/* The board's root pointer stands where the search looks; its tables stand far above, in a range that shows
 * the whole image. */
#define BOARD_LENGTH 1536
#define BOARD_ROOT_POINTER UINT64_C(0xf6010)
#define BOARD_TABLES UINT64_C(0x7fe00000)
#define BOARD_RSDT 64
#define BOARD_FADT 160
#define BOARD_FADT_LENGTH 276
#define BOARD_MADT 448
#define BOARD_MADT_LENGTH 167
#define BOARD_MCFG 640
#define BOARD_MCFG_LENGTH 81
#define BOARD_HPET 768
#define BOARD_HPET_LENGTH 56
#define BOARD_BAD_SSDT 832
#define BOARD_SSDT 896
#define BOARD_SSDT_2 960
#define BOARD_DSDT 1024

/* Reads the sample's listing out of docs/TABLES.md; 0 if the page does not have it. */
int read_sample(const char *page, uint8_t image[SAMPLE_LENGTH]);

/* Builds the board. Its list of ranges has two ranges, six numbers. */
void build_board(uint8_t image[BOARD_LENGTH], uint64_t ranges[6]);

/* Changes the byte at `checksum` so that `length` bytes sum to 0. */
void fix_sum(uint8_t *bytes, size_t length, size_t checksum);

#endif
