/* The tests that run in the guest: guest TEST WORDS... */
#include "guest.h"

#include <stdio.h>
#include <stdlib.h>
#include <string.h>
#include <time.h>

static const struct test {
    const char *name;
    int words; /* that it needs at least */
    int (*run)(char **words);
} TESTS[] = {
    {"vendor", 2, vendor},
    {"isochronous", 0, isochronous},
    {"too-long", 0, too_long},
    {"too-many-packets", 0, too_many_packets},
    {"echo", 2, echo},
    {"flood", 2, flood},
    {"pictures", 3, pictures},
    {"usbtest", 1, usbtest},
};

int64_t now_ms(void)
{
    struct timespec t;

    clock_gettime(CLOCK_MONOTONIC, &t);
    return t.tv_sec * 1000LL + t.tv_nsec / 1000000;
}

void fail(const char *what)
{
    perror(what);
    exit(1);
}

int main(int argc, char **argv)
{
    setvbuf(stdout, NULL, _IOLBF, 0);
    for (size_t i = 0; argc > 1 && i < sizeof TESTS / sizeof *TESTS; i++) {
        if (!strcmp(argv[1], TESTS[i].name) && argc - 2 >= TESTS[i].words)
            return TESTS[i].run(argv + 2);
    }
    fprintf(stderr, "guest: no such test, or words are missing\n");
    return 2;
}
