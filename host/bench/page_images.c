/* Makes good b-tree pages. It shares no code with the checks. */
#include "page_images.h"
#include "bench.h"
#include <stdio.h>
#include <stdlib.h>
#include <string.h>

static void put2(uint8_t *at, size_t n)
{
    at[0] = (uint8_t)(n >> 8);
    at[1] = (uint8_t)n;
}

size_t page_header(const struct shape *shape)
{
    return shape->number == 1 ? 100 : 0;
}

size_t page_array(const struct shape *shape)
{
    return page_header(shape) + (shape->kind == 2 || shape->kind == 5 ? 12 : 8);
}

size_t page_block(const struct page *page, size_t index)
{
    size_t link = page_header(page->shape) + 1;
    for (size_t i = 0; i <= index; i++)
        link = (size_t)page->bytes[link] * 256 + page->bytes[link + 1];
    return link;
}

static void put_file_header(uint8_t *bytes, const struct shape *shape)
{
    memcpy(bytes, "SQLite format 3", 16);
    put2(bytes + 16, shape->page_size == 65536 ? 1 : shape->page_size);
    bytes[20] = shape->reserved;
}

/* Pointers have the order of keys, which is not that of places. */
static void shuffle_pointers(uint8_t *array, size_t cells)
{
    for (size_t left = cells; left > 1; left--) {
        uint8_t *last = array + 2 * (left - 1), *other = array + 2 * (any() % left), kept[2];
        memcpy(kept, last, 2);
        memcpy(last, other, 2);
        memcpy(other, kept, 2);
    }
}

/* From the content start on: each place is a freeblock's or a cell's, by chance, until there are as many of each as wanted. */
static void put_content(uint8_t *bytes, const struct shape *shape, size_t start)
{
    size_t cells = 0, blocks = 0, link = page_header(shape) + 1, array = page_array(shape);
    put2(bytes + link, 0);
    for (size_t at = start; cells + blocks < shape->cells + shape->blocks; at += shape->each) {
        size_t left = shape->cells + shape->blocks - cells - blocks;
        if (any() % left < shape->blocks - blocks) {
            put2(bytes + link, at);
            put2(bytes + at, 0);
            put2(bytes + at + 2, shape->each);
            link = at;
            blocks++;
        } else {
            put2(bytes + array + 2 * cells, at);
            cells++;
        }
    }
    shuffle_pointers(bytes + array, cells);
}

struct page page_made(const struct shape *shape)
{
    struct page page = {shape, malloc(shape->page_size)};
    size_t header = page_header(shape), content = (shape->cells + shape->blocks) * shape->each;
    size_t end = shape->page_size - shape->reserved;
    if (page.bytes == NULL || page_array(shape) + 2 * shape->cells + content > end) {
        fprintf(stderr, "pages: no memory, or no room in a page: %s\n", shape->name);
        exit(1);
    }
    for (size_t i = 0; i < shape->page_size; i++)
        page.bytes[i] = (uint8_t)any();
    if (shape->number == 1)
        put_file_header(page.bytes, shape);
    page.bytes[header] = shape->kind;
    put2(page.bytes + header + 3, shape->cells);
    put2(page.bytes + header + 5, end - content);
    page.bytes[header + 7] = (uint8_t)(any() % 61);
    put_content(page.bytes, shape, end - content);
    return page;
}
