#include "options.h"

#include <errno.h>
#include <stddef.h>
#include <stdio.h>
#include <stdlib.h>
#include <string.h>

#define USBIP_PORT 3240

static const char usage[] =
    "usage: deckhost [OPTION...]\n"
    "Exports simulated USB devices over USB/IP, on the loopback interface only.\n"
    "  --port N        listen on 127.0.0.1:N (3240); 0: a free port, which the log names\n"
    "  --devices LIST  of camera, isocamera, serial, disk, vendor, zero, ethernet: busids 1-1, 1-2, ...\n"
    "                  (camera,serial,disk)\n"
    "  --log FILE      the log (standard output)\n"
    "  --tapes DIR     record connection N as the replay tape DIR/N.tape, its lines in DIR/N.lines\n"
    "  --stale MS      tell which submits have been pending for MS milliseconds\n"
    "  --quiet         no line for each URB\n"
    "  --cuts          cut reads, feeds and sends at random places\n"
    "  --late          let completions wait, and let devices complete half of the cancelled URBs late\n"
    "  --hasty         a host at fault: replies to feeds overtake replies of completions\n"
    "  --seed N        of the random places and times (1)\n";

static bool read_number(const char *text, unsigned long most, unsigned long *number)
{
    char *end;

    errno = 0;
    *number = strtoul(text, &end, 10);
    return text[0] >= '0' && text[0] <= '9' && *end == '\0' && errno == 0 && *number <= most;
}

static bool set_flag(struct options *options, const char *word)
{
    bool known = true;

    if (strcmp(word, "--cuts") == 0)
        options->cuts = true;
    else if (strcmp(word, "--late") == 0)
        options->late = true;
    else if (strcmp(word, "--hasty") == 0)
        options->hasty = true;
    else if (strcmp(word, "--quiet") == 0)
        options->quiet = true;
    else
        known = false;
    return known;
}

static bool set_value(struct options *options, const char *word, const char *value)
{
    unsigned long number = 0;
    bool good = true;

    if (strcmp(word, "--log") == 0) {
        options->log = value;
    } else if (strcmp(word, "--tapes") == 0) {
        options->tapes = value;
    } else if (strcmp(word, "--devices") == 0) {
        options->devices = value;
    } else if (strcmp(word, "--port") == 0) {
        good = read_number(value, UINT16_MAX, &number);
        options->port = (uint16_t)number;
    } else if (strcmp(word, "--seed") == 0) {
        good = read_number(value, UINT32_MAX, &number);
        options->seed = (uint32_t)number;
    } else if (strcmp(word, "--stale") == 0) {
        good = read_number(value, UINT32_MAX, &number);
        options->stale = (uint32_t)number;
    } else {
        good = false;
    }
    return good;
}

bool options_read(struct options *options, int count, char **words)
{
    bool good = true;

    *options = (struct options){.port = USBIP_PORT, .seed = 1, .devices = "camera,serial,disk"};
    for (int i = 1; i < count && good; i++) {
        if (!set_flag(options, words[i])) {
            good = i + 1 < count && set_value(options, words[i], words[i + 1]);
            i++;
        }
    }
    if (!good)
        fputs(usage, stderr);
    return good;
}
