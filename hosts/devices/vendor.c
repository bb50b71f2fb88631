/*
 * A device of no class, for tests of the protocol itself:
 *
 *   0x81  bulk IN: byte i of read number k is a function of both; reads may complete in any order
 *   0x02  bulk OUT: counted and summed; DECK_RECEIVED of control.c tells
 *   0x85  bulk IN that never answers
 *   0x84  isochronous IN: of its packets some are short and some are lost; the bytes that come are those of 0x81
 *   0x06  isochronous OUT: counted and summed, but for what is lost
 */
#include "device.h"
#include "usb.h"

#define PATTERN_EP 1
#define ISO_IN 4
#define ISO_OUT 6

static const uint8_t descriptor[DEVICE_DESCRIPTOR_LEN] = {
    DEVICE_DESCRIPTOR_LEN, DT_DEVICE, LE16(0x0200), 0xff, 0, 0, 64,
    LE16(0x1234), LE16(0x5678), LE16(0x0100), 1, 2, 3, 1
};

static const uint8_t configuration[] = {
    9, DT_CONFIGURATION, LE16(53), 1, 1, 0, 0x80, 50,
    9, DT_INTERFACE, 0, 0, 5, 0xff, 0, 0, 0,
    7, DT_ENDPOINT, EP_IN | PATTERN_EP, EP_BULK, LE16(512), 0,
    7, DT_ENDPOINT, 2, EP_BULK, LE16(512), 0,
    7, DT_ENDPOINT, EP_IN | 5, EP_BULK, LE16(512), 0,
    7, DT_ENDPOINT, EP_IN | ISO_IN, EP_ISOCHRONOUS, LE16(512), 1,
    7, DT_ENDPOINT, ISO_OUT, EP_ISOCHRONOUS, LE16(512), 1
};

struct state {
    uint32_t reads;
};

/* The bytes of the next read, whose length is known by now. */
static void fill(struct state *state, const struct urb *urb)
{
    for (uint32_t i = 0; i < urb->actual; i++)
        urb->data[i] = (uint8_t)(i * 7 + state->reads * 13 + (i >> 8));
    state->reads++;
}

static void endpoint(struct device *device, struct urb *urb)
{
    if (urb->direction == RIMEMAPLE_DIR_OUT) {
        urb_sink(device, urb);
    } else if (urb->ep == PATTERN_EP) {
        urb_answer(device, urb, urb->length);
        fill(device->state, urb);
    }
}

/* Of three packets one goes whole, one by half, and one is lost. */
static void move_packet(struct device *device, struct urb *urb, uint32_t i)
{
    const uint32_t length = urb->iso[i].length;

    urb_packet(device, urb, i % 3 == 0 ? length : i % 3 == 1 ? length / 2 : 0, i % 3 == 2 ? LOST : 0);
}

static void isochronous(struct device *device, struct urb *urb)
{
    const bool in = urb->direction == RIMEMAPLE_DIR_IN;

    if (urb->ep == (in ? ISO_IN : ISO_OUT)) {
        for (uint32_t i = 0; i < urb->packets; i++)
            move_packet(device, urb, i);
        if (in)
            fill(device->state, urb);
    } else {
        urb_stall(device, urb);
    }
}

const struct model vendor = {
    .name = "vendor",
    .descriptor = descriptor,
    .configuration = configuration,
    .configuration_length = sizeof configuration,
    .state_length = sizeof(struct state),
    .any_order = 1u << PATTERN_EP,
    .endpoint = endpoint,
    .isochronous = isochronous
};
