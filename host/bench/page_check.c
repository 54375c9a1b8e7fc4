/* The check of a b-tree page as one writes it in C, and a pass that only reads. They are a translation unit of their own, so that
 * the compiler can't fit them to the benchmark. */
#include "page_check.h"
#include <string.h>

enum { FILE_HEADER = 100, LEAST_USABLE = 480, LEAST_BLOCK = 4, MOST_FRAGMENTS = 60 };

static const uint8_t magic[16] = {0x53, 0x51, 0x4c, 0x69, 0x74, 0x65, 0x20, 0x66, 0x6f, 0x72, 0x6d, 0x61, 0x74, 0x20, 0x33, 0x00};

static size_t get2(const uint8_t *at)
{
    return (size_t)at[0] << 8 | at[1];
}

static int is_interior(uint8_t kind)
{
    return kind == 2 || kind == 5;
}

/* The offset of the first link or size that is bad, 0 if there is none. */
static size_t bad_freeblock(const uint8_t *image, size_t link, size_t least, size_t end)
{
    for (;;) {
        size_t block = get2(image + link);
        if (block == 0)
            return 0;
        if (block < least || block + LEAST_BLOCK > end)
            return link;
        size_t size = get2(image + block + 2);
        if (size < LEAST_BLOCK || block + size > end)
            return block + 2;
        link = block;
        least = block + size;
    }
}

/* The offset of the first pointer that is bad, 0 if there is none. */
static size_t bad_pointer(const uint8_t *image, size_t array, size_t cells, size_t start, size_t end)
{
    for (size_t i = 0; i < cells; i++) {
        size_t pointer = get2(image + array + 2 * i);
        if (pointer < start || pointer >= end)
            return array + 2 * i;
    }
    return 0;
}

static void say(uint64_t answer[2], uint64_t rule, size_t offset)
{
    answer[0] = rule;
    answer[1] = offset;
}

static void check_tree(const uint8_t *image, size_t header, size_t end, uint64_t answer[2])
{
    uint8_t kind = image[header];
    if (!is_interior(kind) && kind != 10 && kind != 13) {
        say(answer, PAGE_TYPE, header);
        return;
    }
    size_t start = get2(image + header + 5);
    if (start == 0)
        start = 65536;
    size_t bad = bad_freeblock(image, header + 1, start, end);
    if (bad != 0) {
        say(answer, FREEBLOCK_CHAIN, bad);
        return;
    }
    size_t array = header + (is_interior(kind) ? 12 : 8), cells = get2(image + header + 3);
    if (array + 2 * cells > start) {
        say(answer, CELL_COUNT, header + 3);
        return;
    }
    if (start > end) {
        say(answer, CONTENT_START, header + 5);
        return;
    }
    if (image[header + 7] > MOST_FRAGMENTS) {
        say(answer, FRAGMENTED_BYTES, header + 7);
        return;
    }
    bad = bad_pointer(image, array, cells, start, end);
    say(answer, bad != 0 ? CELL_POINTER : 0, bad);
}

void page_plain_check(const uint8_t *image, size_t length, uint32_t number, uint32_t page_size, uint8_t reserved,
                      uint64_t answer[2])
{
    if (length != page_size) {
        say(answer, LENGTH, 0);
        return;
    }
    if ((page_size & (page_size - 1)) != 0 || page_size < 512 || page_size > 65536) {
        say(answer, PAGE_SIZE, 0);
        return;
    }
    if (page_size - reserved < LEAST_USABLE) {
        say(answer, USABLE_SIZE, 0);
        return;
    }
    if (number == 1 && memcmp(image, magic, sizeof magic) != 0) {
        size_t unlike = 0;
        while (image[unlike] == magic[unlike])
            unlike++;
        say(answer, MAGIC, unlike);
        return;
    }
    check_tree(image, number == 1 ? FILE_HEADER : 0, page_size - reserved, answer);
}

uint64_t page_plain_sum(const uint8_t *image, uint32_t number)
{
    size_t header = number == 1 ? FILE_HEADER : 0;
    size_t array = header + (is_interior(image[header]) ? 12 : 8), cells = get2(image + header + 3);
    uint64_t sum = get2(image + header + 5) + image[header + 7];
    for (size_t link = get2(image + header + 1); link != 0; link = get2(image + link))
        sum += get2(image + link + 2);
    for (size_t i = 0; i < cells; i++)
        sum += get2(image + array + 2 * i);
    return sum;
}
