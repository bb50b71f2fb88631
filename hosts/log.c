#include "log.h"
#include "support.h"

#include <inttypes.h>
#include <stdarg.h>
#include <stdio.h>

static FILE *file;
static int64_t start;

bool log_open(const char *path)
{
    start = now_us();
    file = path ? fopen(path, "w") : stdout;
    return file && setvbuf(file, NULL, _IOLBF, BUFSIZ) == 0;
}

void log_close(void)
{
    fclose(file);
}

void log_line(unsigned connection, const char *format, ...)
{
    va_list arguments;

    fprintf(file, "%8" PRId64 " ", (now_us() - start) / 1000);
    if (connection)
        fprintf(file, "[%u] ", connection);
    va_start(arguments, format);
    vfprintf(file, format, arguments);
    va_end(arguments);
    fputc('\n', file);
}
