/* Linux's gadget zero, for the driver usbtest: sources of zeros on 0x81 and, isochronous, 0x83, sinks on 0x02 and 0x04,
   and a buffer that control transfers write and read back. All endpoints are in one setting, since the driver takes
   the first that has some. */
#include "control.h"
#include "usb.h"

#include <string.h>

#define ISO_IN 3
#define ISO_OUT 4

#define WRITE_BUFFER 0x5b
#define READ_BUFFER 0x5c

static const uint8_t descriptor[DEVICE_DESCRIPTOR_LEN] = {
    DEVICE_DESCRIPTOR_LEN, DT_DEVICE, LE16(0x0200), 0xff, 0, 0, 64,
    LE16(0x0525), LE16(0xa4a0), LE16(0x0100), 1, 2, 3, 1
};

static const uint8_t configuration[] = {
    9, DT_CONFIGURATION, LE16(46), 1, 1, 0, 0x80, 50,
    9, DT_INTERFACE, 0, 0, 4, 0xff, 0, 0, 0,
    7, DT_ENDPOINT, EP_IN | 1, EP_BULK, LE16(512), 0,
    7, DT_ENDPOINT, 2, EP_BULK, LE16(512), 0,
    7, DT_ENDPOINT, EP_IN | ISO_IN, EP_ISOCHRONOUS, LE16(512), 1,
    7, DT_ENDPOINT, ISO_OUT, EP_ISOCHRONOUS, LE16(512), 1
};

struct state {
    uint8_t buffer[CONTROL_MAX];
    size_t length;
};

static bool control(struct device *device, struct control *request)
{
    struct state *state = device->state;
    bool known = true;

    if (request->type == OUT_VENDOR && request->request == WRITE_BUFFER && request->length <= CONTROL_MAX) {
        if (request->length > 0)
            memcpy(state->buffer, request->out, request->length);
        state->length = request->length;
    } else if (request->type == IN_VENDOR && request->request == READ_BUFFER) {
        control_answer(request, state->buffer, state->length);
    } else {
        known = false;
    }
    return known;
}

static void endpoint(struct device *device, struct urb *urb)
{
    if (urb->direction == RIMEMAPLE_DIR_OUT)
        urb_sink(device, urb);
    else
        urb_answer(device, urb, urb->length);
}

/* Every packet comes and goes whole. */
static void isochronous(struct device *device, struct urb *urb)
{
    if (urb->ep == (urb->direction == RIMEMAPLE_DIR_IN ? ISO_IN : ISO_OUT))
        for (uint32_t i = 0; i < urb->packets; i++)
            urb_packet(device, urb, urb->iso[i].length, 0);
    else
        urb_stall(device, urb);
}

const struct model zero = {
    .name = "zero",
    .descriptor = descriptor,
    .configuration = configuration,
    .configuration_length = sizeof configuration,
    .state_length = sizeof(struct state),
    .control = control,
    .endpoint = endpoint,
    .isochronous = isochronous
};
