/* The command line. */
#ifndef OPTIONS_H
#define OPTIONS_H

#include <stdbool.h>
#include <stdint.h>

struct options {
    uint16_t port;          /* 0: any that is free */
    uint32_t seed;
    uint32_t stale;         /* milliseconds after which a pending submit is told of; 0: none is */
    const char *log;        /* null: standard output */
    const char *tapes;      /* null: none are recorded */
    const char *devices;
    bool cuts;
    bool late;
    bool hasty;
    bool quiet;
};

/* False if the command line doesn't read; what it should have been is on standard error then. */
bool options_read(struct options *options, int count, char **words);

#endif
