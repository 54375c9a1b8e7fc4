/* Measures the proved scan of a log (crate bench_wal) beside a plain one in C (wal_scan.c): logs of 100 MB in memory, of random
 * pages, in either order of words and with two page sizes. The two take turns, and the least time of several rounds counts.
 * Both have to read the whole log, and to answer the same on cut and damaged logs. With --agree only that is looked at. */
#include "bench.h"
#include "wal_scan.h"
#include <stdio.h>
#include <stdlib.h>
#include <string.h>

enum { ROUNDS = 7, LENGTH = 100000000, HEADER = 32, FRAME = 24, NUMBERS = 7, DAMAGES = 2000, FEW = 12 };

struct log {
    uint8_t *bytes;
    size_t length, frames;
    uint32_t page_size;
    int big;
};

static void put4(uint8_t *at, uint32_t n)
{
    for (int i = 0; i < 4; i++)
        at[i] = (uint8_t)(n >> (24 - 8 * i));
}

/* The document's loop, byte by byte, so that what writes a log shares no code with what reads it. */
static void sum(const uint8_t *at, size_t length, int big, uint32_t s[2])
{
    for (size_t i = 0; i < length; i += 8) {
        uint32_t x = 0, y = 0;
        for (size_t k = 0; k < 4; k++) {
            x = x << 8 | at[i + (big ? k : 3 - k)];
            y = y << 8 | at[i + 4 + (big ? k : 3 - k)];
        }
        s[0] += x + s[1];
        s[1] += y + s[0];
    }
}

static void put_frame(uint8_t *frame, const uint8_t *header, uint32_t page_size, int big, uint32_t commit, uint32_t s[2])
{
    put4(frame, (uint32_t)(1 + any() % 1000000));
    put4(frame + 4, commit);
    memcpy(frame + 8, header + 16, 8);
    for (size_t i = 0; i < page_size; i += 8) {
        uint64_t word = any();
        memcpy(frame + FRAME + i, &word, 8);
    }
    sum(frame, 8, big, s);
    sum(frame + FRAME, page_size, big, s);
    put4(frame + 16, s[0]);
    put4(frame + 20, s[1]);
}

/* As many whole frames as there is room for; every tenth is a commit. */
static struct log made(size_t room, uint32_t page_size, int big)
{
    struct log log = {malloc(room), HEADER, 0, page_size, big};
    if (log.bytes == NULL) {
        fprintf(stderr, "wal: no memory for a log\n");
        exit(1);
    }
    uint32_t s[2] = {0, 0};
    const uint32_t header[6] = {0x377f0682u + (uint32_t)big, 3007000, page_size, 1, (uint32_t)any(), (uint32_t)any()};
    for (int i = 0; i < 6; i++)
        put4(log.bytes + 4 * i, header[i]);
    sum(log.bytes, 24, big, s);
    put4(log.bytes + 24, s[0]);
    put4(log.bytes + 28, s[1]);
    while (log.length + FRAME + page_size <= room) {
        uint32_t commit = log.frames % 10 == 9 ? (uint32_t)(1 + any() % 1000000) : 0;
        put_frame(log.bytes + log.length, log.bytes, page_size, big, commit, s);
        log.length += FRAME + page_size;
        log.frames++;
    }
    return log;
}

/* What both answer. */
static uint64_t frames_of(const uint8_t *bytes, size_t length)
{
    uint64_t proved[NUMBERS] = {0}, plain[NUMBERS] = {0};
    uint32_t proved_code = wal_bench_scan(bytes, length, proved, NUMBERS), plain_code = wal_plain_scan(bytes, length, plain);
    if (proved_code != plain_code || memcmp(proved, plain, sizeof proved) != 0) {
        fprintf(stderr, "wal: the answers differ: codes %u and %u, frames %llu and %llu, ends %llu and %llu\n", proved_code,
                plain_code, (unsigned long long)proved[0], (unsigned long long)plain[0], (unsigned long long)proved[1],
                (unsigned long long)plain[1]);
        exit(1);
    }
    return proved[0];
}

/* A few frames, with a byte changed anywhere, or cut anywhere. */
static void agree_on_damage(uint32_t page_size, int big)
{
    struct log log = made(HEADER + FEW * (FRAME + (size_t)page_size), page_size, big);
    for (int i = 0; i < DAMAGES; i++) {
        /* every other time in the log's header or in a frame's, where other tests than the sums of a page find it too */
        size_t at = any() % log.length;
        if (i % 2 == 0)
            at = any() % 2 == 0 ? any() % HEADER : HEADER + any() % log.frames * (FRAME + page_size) + any() % FRAME;
        uint8_t before = log.bytes[at];
        log.bytes[at] ^= (uint8_t)(1 + any() % 255);
        frames_of(log.bytes, log.length);
        log.bytes[at] = before;
        frames_of(log.bytes, at);
    }
    free(log.bytes);
}

static void agree(const struct log *log)
{
    if (frames_of(log->bytes, log->length) != log->frames) {
        fprintf(stderr, "wal: a frame was not read\n");
        exit(1);
    }
    agree_on_damage(log->page_size, log->big);
}

static void measure(const struct log *log)
{
    double proved = 1e18, plain = 1e18;
    uint64_t answer[NUMBERS];
    for (int round = 0; round < ROUNDS; round++) {
        double start = now();
        wal_bench_scan(log->bytes, log->length, answer, NUMBERS);
        double between = now();
        wal_plain_scan(log->bytes, log->length, answer);
        double end = now();
        proved = between - start < proved ? between - start : proved;
        plain = end - between < plain ? end - between : plain;
    }
    double length = (double)log->length;
    printf("| %s-endian | %u | %.2f | %.2f | %.2f |\n", log->big ? "big" : "little", log->page_size, length / proved,
           length / plain, plain / proved);
}

int main(int count, char **words)
{
    int only_agree = count > 1 && strcmp(words[1], "--agree") == 0;
    const uint32_t page_sizes[] = {4096, 512};
    if (!only_agree)
        printf("| words | page size | proved (GB/s) | C (GB/s) | proved over C |\n|---|---|---|---|---|\n");
    for (int big = 0; big < 2; big++)
        for (int i = 0; i < 2; i++) {
            struct log log = made(LENGTH, page_sizes[i], big);
            agree(&log);
            if (!only_agree)
                measure(&log);
            free(log.bytes);
        }
    if (only_agree)
        printf("both scans agree on logs of 100 MB, cut logs and damaged logs, in both orders, with pages of 4096 and 512 bytes\n");
    return 0;
}
