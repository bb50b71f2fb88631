#include "replies.h"
#include "support.h"

#include <errno.h>
#include <stdlib.h>
#include <string.h>
#include <sys/socket.h>

void replies_open(struct replies *replies)
{
    replies->first = NULL;
    replies->end = &replies->first;
    replies->count = 0;
}

static void drop_first(struct replies *replies)
{
    struct reply *reply = replies->first;

    replies->first = reply->next;
    if (!replies->first)
        replies->end = &replies->first;
    replies->count--;
    free(reply->payload);
    free(reply);
}

void replies_close(struct replies *replies)
{
    while (replies->first)
        drop_first(replies);
}

static struct reply *insert(struct replies *replies, struct reply **place, uint8_t *payload, size_t length)
{
    struct reply *reply = allocate(sizeof *reply);

    reply->payload = payload;
    reply->payload_length = length;
    reply->next = *place;
    *place = reply;
    if (replies->end == place)
        replies->end = &reply->next;
    replies->count++;
    return reply;
}

void replies_add_fed(struct replies *replies, const uint8_t *bytes, size_t length, bool overtaking)
{
    const bool begun = replies->first && replies->first->sent > 0;
    struct reply **front = begun ? &replies->first->next : &replies->first;
    uint8_t *copy = allocate(length);

    memcpy(copy, bytes, length);
    insert(replies, overtaking ? front : replies->end, copy, length);
}

void replies_add_completed(struct replies *replies, const uint8_t *header, size_t packets, uint8_t *payload,
                           size_t length, int64_t from)
{
    struct reply *reply = insert(replies, replies->end, payload, length);

    reply->packets = packets;
    reply->header_length = RIMEMAPLE_HEADER_LEN + packets * RIMEMAPLE_DESCRIPTOR_LEN;
    memcpy(reply->header, header, reply->header_length);
    reply->from = from;
}

int64_t replies_due(const struct replies *replies)
{
    return replies->first ? replies->first->from : INT64_MAX;
}

/* The bytes that go out next. For a completion's reply the engine says which part of the header or of the payload. */
static const uint8_t *next_part(const struct reply *r, size_t most, size_t *length)
{
    const uint8_t *start;

    if (r->header_length > 0) {
        const struct rimemaple_part part = rimemaple_part(r->header, r->header_length, r->payload, r->payload_length,
                                                          r->payload_length, r->packets, r->sent, most);

        start = (part.slice == RIMEMAPLE_OF_HEADER ? r->header : r->payload) + part.at;
        *length = part.length;
    } else {
        const size_t rest = r->payload_length - r->sent;

        start = r->payload + r->sent;
        *length = rest < most ? rest : most;
    }
    return start;
}

static enum sending send_part(struct replies *replies, int socket, const uint8_t *part, size_t length)
{
    struct reply *reply = replies->first;
    const ssize_t sent = send(socket, part, length, MSG_NOSIGNAL);
    enum sending answer = SENT;

    if (sent < 0)
        answer = errno == EAGAIN || errno == EWOULDBLOCK || errno == EINTR ? BLOCKED : FAILED;
    else
        reply->sent += (size_t)sent;
    if (reply->sent == reply->header_length + reply->payload_length)
        drop_first(replies);
    return answer;
}

enum sending replies_send(struct replies *replies, int socket, size_t most)
{
    enum sending answer = BLOCKED;

    if (replies_due(replies) <= now_us()) {
        size_t length;
        const uint8_t *part = next_part(replies->first, most, &length);

        answer = length > 0 ? send_part(replies, socket, part, length) : NO_PART;
    }
    return answer;
}
