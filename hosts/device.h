/*
 * A simulated USB device: descriptors and functions of its model, what it keeps, and the URBs that it was given.
 *
 * It knows a URB by its ticket alone. The seqnum isn't here: the client may use one again while the device is still
 * busy with a URB that was cancelled, so it doesn't say which URB is meant.
 */
#ifndef DEVICE_H
#define DEVICE_H

#include "rimemaple.h"

#include <stdbool.h>

#define ENDPOINTS 16

enum urb_state {
    URB_WAITING,    /* the device isn't done with it */
    URB_DONE,       /* done: status, actual and an IN's data are there */
    URB_CANCELLED   /* unlinked, but the device will complete it late all the same */
};

struct urb {
    struct urb *next;
    uint64_t ticket;
    uint32_t direction;
    uint32_t ep;
    uint32_t length;
    uint8_t setup[RIMEMAPLE_SETUP_LEN];
    uint32_t packets;       /* of an isochronous URB, else 0 */
    struct rimemaple_packet iso[RIMEMAPLE_MAX_PACKETS];
    uint8_t *data;          /* OUT: the client's length bytes; IN: the device's actual bytes, once it is done */
    enum urb_state state;
    int32_t status;
    uint32_t actual;
    struct rimemaple_results results;   /* of the packets that the device is done with */
    int64_t due;            /* when the host hears of the completion */
};

struct device;
struct control;

struct model {
    const char *name;
    const uint8_t *descriptor;
    const uint8_t *configuration;
    size_t configuration_length;
    size_t state_length;
    uint16_t any_order;     /* a bit for each IN endpoint whose URBs may complete in any order */
    int64_t pace;           /* least time from one completion to the next, except on endpoint 0, in microseconds */

    /* A class or vendor request; false is a stall. Null: there are none. */
    bool (*control)(struct device *device, struct control *request);

    /* A URB of another endpoint than 0: finishes it, or leaves it waiting and is asked again. */
    void (*endpoint)(struct device *device, struct urb *urb);

    /* The same for an isochronous URB. Null: there are none, and it stalls. */
    void (*isochronous)(struct device *device, struct urb *urb);
};

struct device {
    const struct model *model;
    void *state;                        /* the model's own, zeros at first */
    struct urb *urbs;                   /* in the order of tickets */
    bool late;                          /* completions wait, and cancelled URBs may complete all the same */
    uint8_t configuration;
    uint8_t alternate[RIMEMAPLE_MAX_INTERFACES];
    bool halted[2][ENDPOINTS];
    int64_t last_due[2][ENDPOINTS];     /* of the last completion of each endpoint */
    uint64_t out_bytes;                 /* what came on OUT endpoints, and its sum */
    uint32_t out_sum;
    int64_t out_delay;                  /* how long an OUT takes */
};

extern const struct model camera, serial, disk, vendor, zero, ethernet, isocamera;

/* ---- For the host ---- */

struct device *device_open(const struct model *model, bool late);
void device_close(struct device *device);

/* An accepted submit, with its OUT data, which is copied. */
void device_submit(struct device *device, const struct rimemaple_event *submit, const uint8_t *out);

/* An unlinked ticket; false if the device never had it. */
bool device_cancel(struct device *device, uint64_t ticket);

/* The next URB whose completion is due, or null; it is the caller's then, and ends with urb_free. */
struct urb *device_completed(struct device *device);

/* When the next completion is due; INT64_MAX if the device waits. */
int64_t device_due(const struct device *device);

void urb_free(struct urb *urb);

/* ---- For the models ---- */

/* An IN is done with length bytes, cut to what was asked for. They are zeros, for the model to fill: urb->actual of
   them. */
uint8_t *urb_answer(struct device *device, struct urb *urb, size_t length);

/* An OUT is done, all of it; or a URB stalls, with each of its packets. */
void urb_accept(struct device *device, struct urb *urb);
void urb_stall(struct device *device, struct urb *urb);

/* An OUT is done, and its data is counted and summed. */
void urb_sink(struct device *device, struct urb *urb);

/* The next packet of an isochronous URB is done, with a status and so many bytes, cut to its length; with the last one
   the URB is. An OUT's bytes are counted and summed. An IN's are zeros, for the model to fill; they stand right behind
   those of the packet before it, for a reply has no gaps. */
uint8_t *urb_packet(struct device *device, struct urb *urb, uint32_t length, int32_t status);

#endif
