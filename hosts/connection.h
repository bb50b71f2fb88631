/* One client, one session of the engine: this is where a host's duties to the engine, the client and the device are. */
#ifndef CONNECTION_H
#define CONNECTION_H

#include "exports.h"
#include "options.h"

struct connection;

/* Over a socket that doesn't block; the connection closes it. */
struct connection *connection_open(int socket, unsigned number, const struct options *options,
                                   const struct exports *exports);
void connection_close(struct connection *c);

int connection_socket(const struct connection *c);

/* What to poll for, and until when: INT64_MAX is without end. */
short connection_events(const struct connection *c);
int64_t connection_due(const struct connection *c);

/* Reads, completes and sends what can be now. False once the connection is over. */
bool connection_serve(struct connection *c, short events);

#endif
