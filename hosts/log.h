/* The log, for a person: one line an event, with the milliseconds since the start and the connection. */
#ifndef LOG_H
#define LOG_H

#include <stdbool.h>

/* To a file, or to standard output if path is null. */
bool log_open(const char *path);

void log_close(void);

/* About a connection, by its number; 0 is the host itself. */
void log_line(unsigned connection, const char *format, ...);

#endif
