/* The time, chance and memory. */
#ifndef SUPPORT_H
#define SUPPORT_H

#include <stddef.h>
#include <stdint.h>

/* Microseconds of a clock that never goes back. */
int64_t now_us(void);

/* Its milliseconds in 32 bits, as the engine takes a time: they wrap. */
uint32_t now_ms(void);

/* Pseudo-random numbers: the same seed gives the same run of them. */
void chance_seed(uint32_t seed);

/* A number from 0 up to, not including, limit (at least 1). */
uint32_t chance_below(uint32_t limit);

/* Zeroed memory; without it the host ends. A length of 0 gives a pointer too. */
void *allocate(size_t length);

#endif
