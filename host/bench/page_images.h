/* Good b-tree pages for host/bench/pages.c: cells and freeblocks of one length, in a random order, up to the usable end. */
#ifndef PAGE_IMAGES_H
#define PAGE_IMAGES_H
#include <stddef.h>
#include <stdint.h>

struct shape {
    const char *name;
    uint32_t page_size, number;
    uint8_t reserved, kind;
    /* Each cell and each freeblock has `each` bytes; 4 or more. */
    size_t cells, blocks, each;
};

struct page {
    const struct shape *shape;
    /* As many as the shape's page size, and no more, so that a tool that watches memory sees a read past them. */
    uint8_t *bytes;
};

/* Ends the program if there is no memory, or no room for what the shape says. */
struct page page_made(const struct shape *shape);

size_t page_header(const struct shape *shape);

size_t page_array(const struct shape *shape);

/* Where freeblock number `index`, from 0 on, of a page that page_made made starts. */
size_t page_block(const struct page *page, size_t index);
#endif
