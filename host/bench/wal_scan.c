/* The scan of a log as SQLite does it (walChecksumBytes, walDecodeFrame and walIndexRecover of its wal.c), on a log in memory. It
 * is a translation unit of its own, so that the compiler can't fit it to the benchmark. SQLite also ends a log at a frame of
 * page 0; the document doesn't, nor does this. */
#include "wal_scan.h"
#include <string.h>

enum { HEADER = 32, FRAME = 24, VERSION = 3007000, MAGIC = 0x377f0682 };

static uint32_t word(const uint8_t *at)
{
    uint32_t n;
    memcpy(&n, at, 4);
    return n;
}

static uint32_t get4(const uint8_t *at)
{
    return (uint32_t)at[0] << 24 | (uint32_t)at[1] << 16 | (uint32_t)at[2] << 8 | at[3];
}

static void checksum(int native, const uint8_t *at, size_t length, const uint32_t in[2], uint32_t out[2])
{
    const uint8_t *end = at + length;
    uint32_t s1 = in[0], s2 = in[1];
    if (native) {
        do {
            s1 += word(at) + s2;
            s2 += word(at + 4) + s1;
            at += 8;
        } while (at < end);
    } else {
        do {
            s1 += __builtin_bswap32(word(at)) + s2;
            s2 += __builtin_bswap32(word(at + 4)) + s1;
            at += 8;
        } while (at < end);
    }
    out[0] = s1;
    out[1] = s2;
}

static int frame_is_valid(const uint8_t *log, const uint8_t *frame, uint32_t page_size, int native, uint32_t sums[2])
{
    if (memcmp(log + 16, frame + 8, 8) != 0)
        return 0;
    checksum(native, frame, 8, sums, sums);
    checksum(native, frame + FRAME, page_size, sums, sums);
    return sums[0] == get4(frame + 16) && sums[1] == get4(frame + 20);
}

uint32_t wal_plain_scan(const uint8_t *log, size_t length, uint64_t answer[7])
{
    if (length < HEADER)
        return 1;
    uint32_t magic = get4(log);
    if ((magic & 0xfffffffe) != MAGIC)
        return 2;
    if (get4(log + 4) != VERSION)
        return 3;
    uint32_t page_size = get4(log + 8);
    if ((page_size & (page_size - 1)) != 0 || page_size < 512 || page_size > 65536)
        return 4;
    int native = (magic & 1) == (__BYTE_ORDER__ == __ORDER_BIG_ENDIAN__);
    uint32_t sums[2] = {0, 0};
    checksum(native, log, 24, sums, sums);
    if (sums[0] != get4(log + 24) || sums[1] != get4(log + 28))
        return 5;
    size_t frame_length = FRAME + (size_t)page_size, end = HEADER;
    uint64_t frames = 0, commits = 0, last = 0, size = 0;
    uint32_t good[2] = {sums[0], sums[1]};
    while (end + frame_length <= length) {
        const uint8_t *frame = log + end;
        if (!frame_is_valid(log, frame, page_size, native, sums))
            break;
        good[0] = sums[0];
        good[1] = sums[1];
        frames++;
        end += frame_length;
        uint32_t commit = get4(frame + 4);
        if (commit != 0) {
            commits++;
            last = frames;
            size = commit;
        }
    }
    const uint64_t found[7] = {frames, end, good[0], good[1], commits, last, size};
    memcpy(answer, found, sizeof found);
    return 0;
}
