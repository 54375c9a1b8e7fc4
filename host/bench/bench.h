/* What the benchmarks in C share. */
#ifndef BENCH_H
#define BENCH_H
#include <stdint.h>

/* A clock, in nanoseconds. */
double now(void);

/* The next of some random numbers, which are the same in every run. */
uint64_t any(void);
#endif
