/* The two scans of a log that host/bench/wal.c compares. Each answers 0, or 1 to 5 for the header's first fault (length, magic
 * number, version, page size, checksum), and with 0 writes frames, end, both sums, commits, the last commit's frame and size. */
#ifndef WAL_SCAN_H
#define WAL_SCAN_H
#include <stddef.h>
#include <stdint.h>

/* Plain C. */
uint32_t wal_plain_scan(const uint8_t *log, size_t length, uint64_t answer[7]);

/* Proved: crate bench_wal. `numbers` has to be 7. */
uint32_t wal_bench_scan(const uint8_t *log, size_t length, uint64_t *answer, size_t numbers);
#endif
