#include "support.h"

#include <stdio.h>
#include <stdlib.h>
#include <time.h>

static uint32_t state = 1;

int64_t now_us(void)
{
    struct timespec t;

    clock_gettime(CLOCK_MONOTONIC, &t);
    return (int64_t)t.tv_sec * 1000000 + t.tv_nsec / 1000;
}

uint32_t now_ms(void)
{
    return (uint32_t)(now_us() / 1000);
}

/* Xorshift of 32 bits: its state is never 0. */
void chance_seed(uint32_t seed)
{
    state = seed ? seed : 1;
}

uint32_t chance_below(uint32_t limit)
{
    state ^= state << 13;
    state ^= state >> 17;
    state ^= state << 5;
    return state % limit;
}

void *allocate(size_t length)
{
    void *memory = calloc(1, length ? length : 1);

    if (!memory) {
        perror("deckhost");
        exit(EXIT_FAILURE);
    }
    return memory;
}
