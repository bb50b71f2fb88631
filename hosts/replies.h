/*
 * The queue of replies to one client. A reply goes out whole, and replies go out in the order of the acts that made
 * them: an unlink that is answered with 0 tells the client that it has the submit's own answer already.
 */
#ifndef REPLIES_H
#define REPLIES_H

#include "rimemaple.h"

#include <stdbool.h>

/* A reply of feed has all its bytes in the payload; one of complete has a header before it, and the descriptors of its
   packets behind it, which stand in the header. */
struct reply {
    struct reply *next;
    uint8_t header[RIMEMAPLE_HEADER_ROOM];
    size_t header_length;       /* with the descriptors; 0 for a reply of feed */
    size_t packets;
    uint8_t *payload;
    size_t payload_length;
    size_t sent;
    int64_t from;               /* not sent before this time */
};

struct replies {
    struct reply *first;
    struct reply **end;
    size_t count;
};

enum sending {
    SENT,
    BLOCKED,    /* nothing can go out now */
    FAILED,     /* the client is gone */
    NO_PART     /* the reply isn't out, but no part of it was given: never */
};

void replies_open(struct replies *replies);
void replies_close(struct replies *replies);

/* A reply of feed, which is copied, since the next feed gets the same buffer. To overtake what isn't begun is wrong,
   and for --hasty only. */
void replies_add_fed(struct replies *replies, const uint8_t *bytes, size_t length, bool overtaking);

/* A reply of complete: its header with the descriptors of so many packets, and its payload, which is the queue's from
   now on. */
void replies_add_completed(struct replies *replies, const uint8_t *header, size_t packets, uint8_t *payload,
                           size_t length, int64_t from);

/* When the next reply may go out; INT64_MAX if there is none. */
int64_t replies_due(const struct replies *replies);

/* Sends the next part of the first reply, at most so many bytes. */
enum sending replies_send(struct replies *replies, int socket, size_t most);

#endif
