/* Control transfers: the standard requests, which all models share, and the way to a model's own. */
#ifndef CONTROL_H
#define CONTROL_H

#include "device.h"

#define CONTROL_MAX 4096

/* A request: its setup packet, and its data stage. */
struct control {
    uint8_t type;               /* bmRequestType */
    uint8_t request;            /* bRequest */
    uint16_t value;             /* wValue */
    uint16_t index;             /* wIndex */
    uint16_t length;            /* wLength, cut to the URB's own length */
    const uint8_t *out;         /* OUT: length bytes */
    uint8_t in[CONTROL_MAX];    /* IN: in_length bytes, of which length are sent at most */
    size_t in_length;
};

/* Does a URB of endpoint 0. */
void control_run(struct device *device, struct urb *urb);

/* For the models: the data of an IN's data stage. */
void control_answer(struct control *c, const void *data, size_t length);

#endif
