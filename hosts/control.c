#include "control.h"
#include "bytes.h"
#include "usb.h"

#include <string.h>

/* Vendor requests of every model, for tests: what came on OUT endpoints, and how many milliseconds an OUT takes. */
#define DECK_RECEIVED 1
#define DECK_OUT_DELAY 2

/* The texts of the string descriptors, by index; the last is an Ethernet address. */
static const char *const strings[] = {NULL, "Rimemaple", "Deck device", "0001", "020000000001"};
static const uint8_t languages[] = {4, DT_STRING, LE16(0x0409)};

void control_answer(struct control *c, const void *data, size_t length)
{
    memcpy(c->in, data, length);
    c->in_length = length;
}

static void answer_byte(struct control *c, uint8_t byte)
{
    control_answer(c, &byte, 1);
}

/* GET_STATUS: two bytes, of which the first has the flags. */
static void answer_status(struct control *c, uint8_t flags)
{
    uint8_t status[2] = {flags, 0};

    control_answer(c, status, sizeof status);
}

static bool answer_string(struct control *c, uint8_t index)
{
    const size_t count = sizeof strings / sizeof strings[0];

    if (index == 0) {
        control_answer(c, languages, sizeof languages);
    } else if (index < count) {
        c->in_length = 2 + 2 * strlen(strings[index]);
        c->in[0] = (uint8_t)c->in_length;
        c->in[1] = DT_STRING;
        for (size_t i = 0; strings[index][i]; i++)
            c->in[2 + 2 * i] = (uint8_t)strings[index][i];
    }
    return index < count;
}

/* The device qualifier: the device descriptor's fields from bcdUSB to bMaxPacketSize0, and bNumConfigurations. */
static void answer_qualifier(struct control *c, const uint8_t *descriptor)
{
    uint8_t qualifier[QUALIFIER_LEN] = {QUALIFIER_LEN, DT_DEVICE_QUALIFIER};

    memcpy(qualifier + 2, descriptor + 2, 6);
    qualifier[8] = descriptor[DEVICE_DESCRIPTOR_LEN - 1];
    control_answer(c, qualifier, sizeof qualifier);
}

static bool get_descriptor(const struct model *model, struct control *c)
{
    bool known = true;

    switch (c->value) {
    case DT_DEVICE << 8:
        control_answer(c, model->descriptor, DEVICE_DESCRIPTOR_LEN);
        break;
    case DT_CONFIGURATION << 8:
    case DT_OTHER_SPEED << 8:
        control_answer(c, model->configuration, model->configuration_length);
        c->in[1] = (uint8_t)(c->value >> 8);
        break;
    case DT_DEVICE_QUALIFIER << 8:
        answer_qualifier(c, model->descriptor);
        break;
    default:
        known = c->value >> 8 == DT_STRING && answer_string(c, c->value & 0xff);
    }
    return known;
}

/* The halt feature of an endpoint, which wIndex names by its address. */
static bool *halt_of(struct device *device, const struct control *c)
{
    return &device->halted[c->index >> 7 & 1][c->index % ENDPOINTS];
}

static bool get_standard(struct device *device, struct control *c)
{
    bool known = true;

    switch (REQUEST(c->type, c->request)) {
    case REQUEST(IN_DEVICE, GET_DESCRIPTOR):
        known = get_descriptor(device->model, c);
        break;
    case REQUEST(IN_DEVICE, GET_STATUS):
        answer_status(c, 1);
        break;
    case REQUEST(IN_INTERFACE, GET_STATUS):
        answer_status(c, 0);
        break;
    case REQUEST(IN_ENDPOINT, GET_STATUS):
        answer_status(c, *halt_of(device, c));
        break;
    case REQUEST(IN_DEVICE, GET_CONFIGURATION):
        answer_byte(c, device->configuration);
        break;
    case REQUEST(IN_INTERFACE, GET_INTERFACE):
        answer_byte(c, device->alternate[c->index % RIMEMAPLE_MAX_INTERFACES]);
        break;
    default:
        known = false;
    }
    return known;
}

static bool set_standard(struct device *device, const struct control *c)
{
    bool known = true;

    switch (REQUEST(c->type, c->request)) {
    case REQUEST(OUT_DEVICE, SET_CONFIGURATION):
        device->configuration = (uint8_t)c->value;
        memset(device->alternate, 0, sizeof device->alternate);
        memset(device->halted, 0, sizeof device->halted);
        break;
    case REQUEST(OUT_INTERFACE, SET_INTERFACE):
        device->alternate[c->index % RIMEMAPLE_MAX_INTERFACES] = (uint8_t)c->value;
        break;
    case REQUEST(OUT_ENDPOINT, SET_FEATURE):
    case REQUEST(OUT_ENDPOINT, CLEAR_FEATURE):
        *halt_of(device, c) = c->request == SET_FEATURE;
        break;
    case REQUEST(OUT_DEVICE, SET_FEATURE):
    case REQUEST(OUT_DEVICE, CLEAR_FEATURE):
        break;
    default:
        known = false;
    }
    return known;
}

static bool deck_request(struct device *device, struct control *c)
{
    bool known = true;

    if (c->type == IN_VENDOR && c->request == DECK_RECEIVED) {
        const uint8_t received[] = {LE32(device->out_bytes), LE32(device->out_bytes >> 32), LE32(device->out_sum)};

        control_answer(c, received, sizeof received);
    } else if (c->type == OUT_VENDOR && c->request == DECK_OUT_DELAY) {
        device->out_delay = (int64_t)c->value * 1000;
    } else {
        known = false;
    }
    return known;
}

/* Nothing is asked of the client: a setup packet whose direction isn't that of its data stage stalls. */
static bool run(struct device *device, struct control *c, uint32_t direction)
{
    return (c->length == 0 || c->type >> 7 == direction)
           && (get_standard(device, c) || set_standard(device, c) || deck_request(device, c)
               || (device->model->control && device->model->control(device, c)));
}

void control_run(struct device *device, struct urb *urb)
{
    struct control c = {.type = urb->setup[0], .request = urb->setup[1], .value = le16(urb->setup + 2),
                        .index = le16(urb->setup + 4), .length = le16(urb->setup + 6), .out = urb->data};

    if (c.length > urb->length)
        c.length = (uint16_t)urb->length;
    if (!run(device, &c, urb->direction)) {
        urb_stall(device, urb);
    } else if (urb->direction == RIMEMAPLE_DIR_OUT) {
        urb_accept(device, urb);
    } else {
        uint8_t *data = urb_answer(device, urb, c.in_length < c.length ? c.in_length : c.length);

        memcpy(data, c.in, urb->actual);
    }
}
