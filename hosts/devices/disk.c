/* A disk (mass storage, bulk only) of 8 MiB in memory. What is written stays there until the host ends. */
#include "bytes.h"
#include "control.h"
#include "usb.h"

#include <string.h>

#define BLOCK_LEN 512u
#define BLOCKS 16384u

/* A field of a SCSI answer, big-endian. */
#define BE32(x) (x) >> 24 & 0xff, (x) >> 16 & 0xff, (x) >> 8 & 0xff, (x) & 0xff

#define GET_MAX_LUN 0xfe
#define BULK_ONLY_RESET 0xff

/* Command and status wrappers. */
#define CBW_LEN 31
#define CBW_SIGNATURE "USBC"
#define CSW_LEN 13
#define CSW_SIGNATURE "USBS"
#define SIGNATURE_LEN 4
#define TAG_LEN 4
#define STATUS_PASSED 0
#define STATUS_FAILED 1

/* SCSI commands. */
#define TEST_UNIT_READY 0x00
#define REQUEST_SENSE 0x03
#define INQUIRY 0x12
#define MODE_SENSE_6 0x1a
#define START_STOP_UNIT 0x1b
#define PREVENT_REMOVAL 0x1e
#define READ_CAPACITY 0x25
#define READ_10 0x28
#define WRITE_10 0x2a
#define SYNCHRONIZE_CACHE 0x35

#define SENSE_LEN 18
#define INQUIRY_LEN 36
#define ILLEGAL_REQUEST 5
#define INVALID_COMMAND 0x20

static const uint8_t descriptor[DEVICE_DESCRIPTOR_LEN] = {
    DEVICE_DESCRIPTOR_LEN, DT_DEVICE, LE16(0x0200), 0, 0, 0, 64,
    LE16(0x1234), LE16(0x567a), LE16(0x0100), 1, 2, 3, 1
};

static const uint8_t configuration[] = {
    9, DT_CONFIGURATION, LE16(32), 1, 1, 0, 0x80, 50,
    9, DT_INTERFACE, 0, 0, 2, 8, 6, 0x50, 0,        /* mass storage, SCSI, bulk only */
    7, DT_ENDPOINT, EP_IN | 1, EP_BULK, LE16(512), 0,
    7, DT_ENDPOINT, 2, EP_BULK, LE16(512), 0
};

static uint8_t blocks[BLOCKS * BLOCK_LEN];

enum phase { COMMAND, DATA_IN, DATA_OUT, STATUS };

struct state {
    enum phase phase;
    uint8_t tag[TAG_LEN];
    uint32_t expected;          /* bytes that the client expects to move */
    uint8_t *data;              /* what there is to move, length bytes */
    uint32_t length;
    uint64_t moved;             /* bytes that went through the endpoint */
    uint8_t small[INQUIRY_LEN]; /* data of the short answers */
    uint8_t result;
    uint8_t sense_key;
    uint8_t sense_code;
};

static bool control(struct device *device, struct control *request)
{
    static const uint8_t last_unit = 0;
    struct state *state = device->state;
    bool known = true;

    if (request->type == IN_CLASS_INTERFACE && request->request == GET_MAX_LUN)
        control_answer(request, &last_unit, sizeof last_unit);
    else if (request->type == OUT_CLASS_INTERFACE && request->request == BULK_ONLY_RESET)
        state->phase = COMMAND;
    else
        known = false;
    return known;
}

static void fail(struct state *state)
{
    state->result = STATUS_FAILED;
    state->sense_key = ILLEGAL_REQUEST;
    state->sense_code = INVALID_COMMAND;
}

static void answer(struct state *state, const void *data, uint32_t length)
{
    memcpy(state->small, data, length);
    state->length = length;
}

static void answer_sense(struct state *state)
{
    const uint8_t sense[SENSE_LEN] = {[0] = 0x70, [2] = state->sense_key, [7] = SENSE_LEN - 8,
                                      [12] = state->sense_code};

    answer(state, sense, sizeof sense);
    state->sense_key = 0;
    state->sense_code = 0;
}

static void answer_inquiry(struct state *state, bool vital_page)
{
    /* A removable disk, SCSI-2; vendor, product and revision. */
    static const char inquiry[] = "\x00\x80\x04\x02\x1f\x00\x00\x00" "Rimemapl" "Deck disk       " "1.00";

    if (vital_page)
        fail(state);
    else
        answer(state, inquiry, INQUIRY_LEN);
}

static void answer_capacity(struct state *state)
{
    static const uint8_t capacity[] = {BE32(BLOCKS - 1), BE32(BLOCK_LEN)};

    answer(state, capacity, sizeof capacity);
}

static void move_blocks(struct state *state, uint32_t first, uint32_t count)
{
    if (count > BLOCKS || first > BLOCKS - count) {
        fail(state);
    } else {
        state->data = blocks + (size_t)first * BLOCK_LEN;
        state->length = count * BLOCK_LEN;
    }
}

static void scsi(struct state *state, const uint8_t *command)
{
    static const uint8_t no_pages[] = {3, 0, 0, 0};

    switch (command[0]) {
    case TEST_UNIT_READY:
    case START_STOP_UNIT:
    case PREVENT_REMOVAL:
    case SYNCHRONIZE_CACHE:
        break;
    case REQUEST_SENSE:
        answer_sense(state);
        break;
    case INQUIRY:
        answer_inquiry(state, command[1] & 1);
        break;
    case MODE_SENSE_6:
        answer(state, no_pages, sizeof no_pages);
        break;
    case READ_CAPACITY:
        answer_capacity(state);
        break;
    case READ_10:
    case WRITE_10:
        move_blocks(state, be32(command + 2), (uint32_t)command[7] << 8 | command[8]);
        break;
    default:
        fail(state);
    }
}

/* A command wrapper: tag, expected length, direction, and the SCSI command. One that would move data the other way
   moves none. */
static void begin(struct state *state, const uint8_t *cbw)
{
    const bool in = cbw[12] & 0x80;
    const uint8_t *command = cbw + 15;

    memcpy(state->tag, cbw + SIGNATURE_LEN, TAG_LEN);
    state->expected = le32(cbw + 8);
    state->data = state->small;
    state->length = 0;
    state->moved = 0;
    state->result = STATUS_PASSED;
    scsi(state, command);
    if (in == (command[0] == WRITE_10))
        state->length = 0;
    if (state->length > state->expected)
        state->length = state->expected;
    state->phase = state->expected == 0 ? STATUS : in ? DATA_IN : DATA_OUT;
}

static void take_command(struct device *device, struct urb *urb)
{
    if (urb->length == CBW_LEN && memcmp(urb->data, CBW_SIGNATURE, SIGNATURE_LEN) == 0) {
        begin(device->state, urb->data);
        urb_accept(device, urb);
    } else {
        device->halted[urb->direction][urb->ep] = true;
        urb_stall(device, urb);
    }
}

/* A short transfer ends the data. */
static void send_data(struct device *device, struct urb *urb)
{
    struct state *state = device->state;
    uint8_t *data = urb_answer(device, urb, state->length - state->moved);

    memcpy(data, state->data + state->moved, urb->actual);
    state->moved += urb->actual;
    if (state->moved == state->expected || urb->actual < urb->length)
        state->phase = STATUS;
}

/* Data that has no place on the disk is taken and forgotten. */
static void take_data(struct device *device, struct urb *urb)
{
    struct state *state = device->state;
    const uint64_t room = state->moved < state->length ? state->length - state->moved : 0;

    memcpy(state->data + state->length - room, urb->data, urb->length < room ? urb->length : room);
    state->moved += urb->length;
    if (state->moved >= state->expected)
        state->phase = STATUS;
    urb_accept(device, urb);
}

static void send_status(struct device *device, struct urb *urb)
{
    struct state *state = device->state;
    const uint64_t moved = state->moved < state->length ? state->moved : state->length;
    const uint32_t residue = state->expected - (uint32_t)moved;
    const uint8_t rest[] = {LE32(residue), state->result};
    uint8_t csw[CSW_LEN];
    uint8_t *data = urb_answer(device, urb, sizeof csw);

    memcpy(csw, CSW_SIGNATURE, SIGNATURE_LEN);
    memcpy(csw + SIGNATURE_LEN, state->tag, TAG_LEN);
    memcpy(csw + SIGNATURE_LEN + TAG_LEN, rest, sizeof rest);
    memcpy(data, csw, urb->actual);
    state->phase = COMMAND;
}

/* What doesn't fit the phase waits. */
static void endpoint(struct device *device, struct urb *urb)
{
    const struct state *state = device->state;
    const bool in = urb->direction == RIMEMAPLE_DIR_IN;

    if (!in && state->phase == COMMAND)
        take_command(device, urb);
    else if (in && state->phase == DATA_IN)
        send_data(device, urb);
    else if (!in && state->phase == DATA_OUT)
        take_data(device, urb);
    else if (in && state->phase == STATUS)
        send_status(device, urb);
}

const struct model disk = {
    .name = "disk",
    .descriptor = descriptor,
    .configuration = configuration,
    .configuration_length = sizeof configuration,
    .state_length = sizeof(struct state),
    .control = control,
    .endpoint = endpoint
};
