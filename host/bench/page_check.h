/* The two checks of a b-tree page that host/bench/pages.c compares. Each writes two numbers: the first rule that fails, or 0, and
 * the offset in the page of the field that breaks it, 0 for the rules of sizes. The rules have the order of crate btree_check. */
#ifndef PAGE_CHECK_H
#define PAGE_CHECK_H
#include <stddef.h>
#include <stdint.h>

enum {
    LENGTH = 1,
    PAGE_SIZE,
    USABLE_SIZE,
    MAGIC,
    PAGE_TYPE,
    FREEBLOCK_CHAIN,
    CELL_COUNT,
    CONTENT_START,
    FRAGMENTED_BYTES,
    CELL_POINTER
};

/* Plain C. */
void page_plain_check(const uint8_t *image, size_t length, uint32_t number, uint32_t page_size, uint8_t reserved,
                      uint64_t answer[2]);

/* Proved: crate bench_pages. It answers 0; with 1, and nothing written, if `numbers` is not 2. */
uint32_t page_bench_check(const uint8_t *image, size_t length, uint32_t number, uint32_t page_size, uint8_t reserved,
                          uint64_t *answer, size_t numbers);

/* No check: one pass over a good page that reads the fields that a check reads, and sums them. */
uint64_t page_plain_sum(const uint8_t *image, uint32_t number);
#endif
