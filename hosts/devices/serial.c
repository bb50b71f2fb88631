/* A serial line (CDC ACM) that echoes: what comes on 0x02 goes back on 0x81. */
#include "control.h"
#include "usb.h"

#include <string.h>

#define ECHO_IN 1
#define ECHO_OUT 2
#define NOTIFY 3

#define SET_LINE_CODING 0x20
#define GET_LINE_CODING 0x21
#define SET_CONTROL_LINE_STATE 0x22
#define SEND_BREAK 0x23
#define LINE_CODING_LEN 7

#define ECHO_MAX 65536

static const uint8_t descriptor[DEVICE_DESCRIPTOR_LEN] = {
    DEVICE_DESCRIPTOR_LEN, DT_DEVICE, LE16(0x0200), 2, 0, 0, 64,
    LE16(0x1234), LE16(0x5679), LE16(0x0100), 1, 2, 3, 1
};

static const uint8_t configuration[] = {
    9, DT_CONFIGURATION, LE16(67), 2, 1, 0, 0x80, 50,
    9, DT_INTERFACE, 0, 0, 1, 2, 2, 1, 0,           /* communications, abstract control */
    5, DT_CLASS, 0, LE16(0x0110),                   /* header */
    5, DT_CLASS, 1, 0, 1,                           /* call management */
    4, DT_CLASS, 2, 2,                              /* abstract control management */
    5, DT_CLASS, 6, 0, 1,                           /* union */
    7, DT_ENDPOINT, EP_IN | NOTIFY, EP_INTERRUPT, LE16(16), 8,
    9, DT_INTERFACE, 1, 0, 2, 10, 0, 0, 0,          /* data */
    7, DT_ENDPOINT, EP_IN | ECHO_IN, EP_BULK, LE16(512), 0,
    7, DT_ENDPOINT, ECHO_OUT, EP_BULK, LE16(512), 0
};

struct state {
    uint8_t line_coding[LINE_CODING_LEN];
    uint8_t echo[ECHO_MAX];
    size_t length;
};

static bool control(struct device *device, struct control *request)
{
    struct state *state = device->state;
    bool known = true;

    switch (REQUEST(request->type, request->request)) {
    case REQUEST(IN_CLASS_INTERFACE, GET_LINE_CODING):
        control_answer(request, state->line_coding, LINE_CODING_LEN);
        break;
    case REQUEST(OUT_CLASS_INTERFACE, SET_LINE_CODING):
        known = request->length == LINE_CODING_LEN;
        if (known)
            memcpy(state->line_coding, request->out, LINE_CODING_LEN);
        break;
    case REQUEST(OUT_CLASS_INTERFACE, SET_CONTROL_LINE_STATE):
    case REQUEST(OUT_CLASS_INTERFACE, SEND_BREAK):
        break;
    default:
        known = false;
    }
    return known;
}

/* Without room for the echo an OUT waits. A slow OUT (DECK_OUT_DELAY of control.c) isn't echoed. */
static void receive(struct device *device, struct urb *urb)
{
    struct state *state = device->state;

    if (device->out_delay > 0) {
        urb_sink(device, urb);
    } else if (urb->length <= ECHO_MAX - state->length) {
        memcpy(state->echo + state->length, urb->data, urb->length);
        state->length += urb->length;
        urb_sink(device, urb);
    }
}

static void send_back(struct device *device, struct urb *urb)
{
    struct state *state = device->state;

    if (state->length > 0) {
        uint8_t *data = urb_answer(device, urb, state->length);

        memcpy(data, state->echo, urb->actual);
        state->length -= urb->actual;
        memmove(state->echo, state->echo + urb->actual, state->length);
    }
}

static void endpoint(struct device *device, struct urb *urb)
{
    if (urb->direction == RIMEMAPLE_DIR_OUT && urb->ep == ECHO_OUT)
        receive(device, urb);
    else if (urb->direction == RIMEMAPLE_DIR_IN && urb->ep == ECHO_IN)
        send_back(device, urb);
}

const struct model serial = {
    .name = "serial",
    .descriptor = descriptor,
    .configuration = configuration,
    .configuration_length = sizeof configuration,
    .state_length = sizeof(struct state),
    .control = control,
    .endpoint = endpoint
};
