/* Measures the proved check of a page (crate bench_pages) beside a plain one in C (page_check.c): good pages of several shapes,
 * 64 different ones of each in turn, and one alone. The two take turns, and the least time of many rounds counts. Beside them
 * stands a pass that only reads the same fields.
 * Both have to say yes to every page, and to answer the same on pages with wrong bytes. With --agree only that is looked at. */
#include "bench.h"
#include "page_check.h"
#include "page_images.h"
#include <stdio.h>
#include <stdlib.h>
#include <string.h>

/* A round goes over the pages until it has made about ROUND_CHECKS checks or read about ROUND_FIELDS pointers and freeblocks. It is short,
 * so that on a busy machine some rounds are not disturbed. */
enum { ROUNDS = 1500, PAGES = 64, ROUND_CHECKS = 2000, ROUND_FIELDS = 100000 };
enum { CHANGES = 400000, MOST_CHANGED = 3, ANSWERS = CELL_POINTER + 1 };

enum { LEAF, SOME_FREE, HALF_FREE, SHORT_CELLS, INTERIOR, PAGE_1, SMALL, LARGE, MEASURED, SHAPES = 13 };

/* Shapes that are measured, and then some with reserved bytes, or empty, on which the two checks only have to agree. */
static const struct shape shapes[SHAPES] = {
    [LEAF] = {"leaf", 4096, 2, 0, 13, 100, 0, 38},
    [SOME_FREE] = {"leaf, some free", 4096, 2, 0, 13, 95, 5, 38},
    [HALF_FREE] = {"leaf, half free", 4096, 2, 0, 13, 50, 50, 38},
    [SHORT_CELLS] = {"leaf, short cells", 4096, 2, 0, 10, 400, 0, 8},
    [INTERIOR] = {"interior", 4096, 2, 0, 5, 400, 0, 8},
    [PAGE_1] = {"page 1", 4096, 1, 0, 13, 38, 0, 100},
    [SMALL] = {"leaf", 512, 2, 0, 13, 12, 0, 38},
    [LARGE] = {"leaf", 65536, 2, 0, 13, 1600, 0, 38},
    {"interior, reserved", 4096, 3, 32, 2, 90, 6, 38},
    {"page 1, reserved", 512, 1, 16, 5, 9, 2, 20},
    {"most reserved", 512, 4, 32, 10, 10, 2, 30},
    {"empty", 65536, 5, 0, 13, 0, 0, 4},
    {"empty page 1", 512, 1, 0, 13, 0, 0, 4},
};

/* What a check is lent. */
struct lent {
    const uint8_t *image;
    size_t length;
    uint32_t number, page_size;
    uint8_t reserved;
};

static struct lent as_made(const struct page *page)
{
    const struct shape *shape = page->shape;
    return (struct lent){page->bytes, shape->page_size, shape->number, shape->page_size, shape->reserved};
}

/* What both answer. */
static void agreed(struct lent lent, uint64_t answer[2])
{
    uint64_t plain[2];
    page_plain_check(lent.image, lent.length, lent.number, lent.page_size, lent.reserved, plain);
    if (page_bench_check(lent.image, lent.length, lent.number, lent.page_size, lent.reserved, answer, 2) != 0) {
        fprintf(stderr, "pages: the proved check wrote no answer\n");
        exit(1);
    }
    if (answer[0] != plain[0] || answer[1] != plain[1]) {
        fprintf(stderr, "pages: the answers differ: rules %llu and %llu, offsets %llu and %llu\n", (unsigned long long)answer[0],
                (unsigned long long)plain[0], (unsigned long long)answer[1], (unsigned long long)plain[1]);
        exit(1);
    }
}

static void expect(struct lent lent, uint64_t rule, uint64_t offset)
{
    uint64_t answer[2];
    agreed(lent, answer);
    if (answer[0] != rule || answer[1] != offset) {
        fprintf(stderr, "pages: both answer rule %llu, offset %llu; it should be rule %llu, offset %llu\n",
                (unsigned long long)answer[0], (unsigned long long)answer[1], (unsigned long long)rule,
                (unsigned long long)offset);
        exit(1);
    }
}

/* Each rule of fields fails in turn, at the offset that it should. */
static void agree_on_fields(const struct page pages[SHAPES])
{
    const size_t third = page_block(&pages[SOME_FREE], 2), last = page_block(&pages[SOME_FREE], 4);
    const struct {
        size_t shape, at;
        uint8_t byte;
        uint64_t rule, offset;
    } wrongs[] = {
        {PAGE_1, 3, 0, MAGIC, 3},
        {PAGE_1, 15, 1, MAGIC, 15},
        {LEAF, 0, 3, PAGE_TYPE, 0},
        {PAGE_1, 100, 0, PAGE_TYPE, 100},
        {SOME_FREE, 1, 255, FREEBLOCK_CHAIN, 1},
        {SOME_FREE, third, 255, FREEBLOCK_CHAIN, third},
        {SOME_FREE, third + 2, 255, FREEBLOCK_CHAIN, third + 2},
        {SOME_FREE, last + 3, 3, FREEBLOCK_CHAIN, last + 2},
        /* back to where the third block is, or before it */
        {SOME_FREE, last, (uint8_t)(third >> 8), FREEBLOCK_CHAIN, last},
        {LEAF, 3, 15, CELL_COUNT, 3},
        {PAGE_1, 103, 15, CELL_COUNT, 103},
        {LEAF, 5, 255, CONTENT_START, 5},
        {LEAF, 7, 61, FRAGMENTED_BYTES, 7},
        {LEAF, 8, 255, CELL_POINTER, 8},
        {LEAF, 8 + 2 * 99, 0, CELL_POINTER, 8 + 2 * 99},
        {INTERIOR, 12 + 2 * 399, 0, CELL_POINTER, 12 + 2 * 399},
    };
    for (size_t i = 0; i < sizeof wrongs / sizeof wrongs[0]; i++) {
        const struct page *page = &pages[wrongs[i].shape];
        uint8_t before = page->bytes[wrongs[i].at];
        page->bytes[wrongs[i].at] = wrongs[i].byte;
        expect(as_made(page), wrongs[i].rule, wrongs[i].offset);
        page->bytes[wrongs[i].at] = before;
    }
}

/* Each rule of sizes fails in turn. */
static void agree_on_sizes(const struct page *page)
{
    struct lent lent = as_made(page);
    lent.page_size = 2 * page->shape->page_size;
    expect(lent, LENGTH, 0);
    lent.page_size = 511;
    lent.length = 511;
    expect(lent, PAGE_SIZE, 0);
    lent.page_size = 256;
    lent.length = 256;
    expect(lent, PAGE_SIZE, 0);
    lent.page_size = 512;
    lent.length = 512;
    lent.reserved = 33;
    expect(lent, USABLE_SIZE, 0);
}

/* A place where a change is likely to matter: in the header, in a freeblock's link or size, or in a pointer; or anywhere. */
static size_t place_to_change(const struct page *page)
{
    const struct shape *shape = page->shape;
    switch (any() % 4) {
    case 0:
        return page_header(shape) + any() % 12;
    case 1:
        return shape->blocks == 0 ? any() % 16 : page_block(page, any() % shape->blocks) + any() % 4;
    case 2:
        return page_array(shape) + any() % (2 * shape->cells + 1);
    default:
        return any() % shape->page_size;
    }
}

/* Now and then what is said of the page is wrong too. */
static struct lent as_said(const struct page *page)
{
    struct lent lent = as_made(page);
    switch (any() % 32) {
    case 0:
        lent.length = any() % (lent.length + 1);
        break;
    case 1:
        lent.length = any() % (lent.length + 1);
        lent.page_size = (uint32_t)lent.length;
        break;
    case 2:
        lent.reserved = (uint8_t)any();
        break;
    case 3:
        lent.number = (uint32_t)(any() % 3);
        break;
    }
    return lent;
}

/* Up to three bytes changed. Every answer has to come up, or this looked at less than it says. */
static void agree_on_changes(const struct page pages[SHAPES])
{
    uint64_t answer[2], counts[ANSWERS] = {0};
    for (int change = 0; change < CHANGES; change++) {
        const struct page *page = &pages[any() % SHAPES];
        size_t at[MOST_CHANGED], changed = 1 + any() % MOST_CHANGED;
        uint8_t before[MOST_CHANGED];
        /* chosen before any is made: a place in a freeblock is found by the chain */
        for (size_t i = 0; i < changed; i++)
            at[i] = place_to_change(page);
        for (size_t i = 0; i < changed; i++) {
            before[i] = page->bytes[at[i]];
            page->bytes[at[i]] = (uint8_t)any();
        }
        agreed(as_said(page), answer);
        counts[answer[0]]++;
        for (size_t i = changed; i > 0; i--)
            page->bytes[at[i - 1]] = before[i - 1];
    }
    for (int i = 0; i < ANSWERS; i++)
        if (counts[i] == 0) {
            fprintf(stderr, "pages: no change was answered by rule %d\n", i);
            exit(1);
        }
}

static void agree(void)
{
    struct page pages[SHAPES];
    for (int i = 0; i < SHAPES; i++) {
        pages[i] = page_made(&shapes[i]);
        expect(as_made(&pages[i]), 0, 0);
    }
    agree_on_fields(pages);
    agree_on_sizes(&pages[LEAF]);
    agree_on_changes(pages);
    for (int i = 0; i < SHAPES; i++) {
        expect(as_made(&pages[i]), 0, 0);
        free(pages[i].bytes);
    }
}

/* Each goes once over some pages, and says how many were not good. */
static uint64_t proved_pass(const struct page *pages, size_t count)
{
    uint64_t answer[2], bad = 0;
    for (size_t i = 0; i < count; i++) {
        const struct shape *shape = pages[i].shape;
        page_bench_check(pages[i].bytes, shape->page_size, shape->number, shape->page_size, shape->reserved, answer, 2);
        bad += answer[0] != 0;
    }
    return bad;
}

static uint64_t plain_pass(const struct page *pages, size_t count)
{
    uint64_t answer[2], bad = 0;
    for (size_t i = 0; i < count; i++) {
        const struct shape *shape = pages[i].shape;
        page_plain_check(pages[i].bytes, shape->page_size, shape->number, shape->page_size, shape->reserved, answer);
        bad += answer[0] != 0;
    }
    return bad;
}

static uint64_t reading_pass(const struct page *pages, size_t count)
{
    uint64_t none = 0;
    for (size_t i = 0; i < count; i++)
        none += page_plain_sum(pages[i].bytes, pages[i].shape->number) == 0;
    return none;
}

enum { PROVED, PLAIN, READING, PASSES };

/* The least time of a pass for one page, in nanoseconds. */
static void least(const struct page *pages, size_t count, double times[PASSES])
{
    uint64_t (*const pass[PASSES])(const struct page *, size_t) = {proved_pass, plain_pass, reading_pass};
    size_t fields = pages->shape->cells + pages->shape->blocks, checks = ROUND_FIELDS / (fields + 1);
    size_t turns = (checks < ROUND_CHECKS ? checks : ROUND_CHECKS) / count + 1;
    for (int k = 0; k < PASSES; k++)
        times[k] = 1e18;
    for (int round = 0; round < ROUNDS; round++)
        for (int k = 0; k < PASSES; k++) {
            uint64_t bad = 0;
            double start = now();
            for (size_t turn = 0; turn < turns; turn++)
                bad += pass[k](pages, count);
            double each = (now() - start) / (double)(turns * count);
            times[k] = each < times[k] ? each : times[k];
            if (bad != 0) {
                fprintf(stderr, "pages: a page was not good\n");
                exit(1);
            }
        }
}

static void measure(const struct shape *shape)
{
    struct page pages[PAGES];
    double many[PASSES], one[PASSES];
    for (int i = 0; i < PAGES; i++)
        pages[i] = page_made(shape);
    least(pages, PAGES, many);
    least(pages, 1, one);
    printf("| %s | %u | %zu | %zu | %.1f | %.1f | %.2f | %.1f | %.2f | %.1f | %.1f | %.2f |\n", shape->name, shape->page_size,
           shape->cells, shape->blocks, many[PROVED], many[PLAIN], many[PROVED] / many[PLAIN], many[READING],
           many[PROVED] / (double)(shape->cells + shape->blocks), one[PROVED], one[PLAIN], one[PROVED] / one[PLAIN]);
    for (int i = 0; i < PAGES; i++)
        free(pages[i].bytes);
}

int main(int count, char **words)
{
    agree();
    if (count > 1 && strcmp(words[1], "--agree") == 0) {
        printf("both checks agree on good pages of %d shapes, each rule broken, and %d pages with changed bytes\n", SHAPES,
               CHANGES);
        return 0;
    }
    printf("| page | page size | pointers | freeblocks | proved (ns) | C (ns) | proved / C | reading only (ns) | "
           "proved, per pointer or freeblock (ns) | one page: proved (ns) | C (ns) | proved / C |\n"
           "|---|---|---|---|---|---|---|---|---|---|---|---|\n");
    for (int i = 0; i < MEASURED; i++)
        measure(&shapes[i]);
    return 0;
}
