#include "device.h"
#include "control.h"
#include "support.h"
#include "usb.h"

#include <stdlib.h>
#include <string.h>

#define FNV_PRIME 16777619u

/* Times of a late device, in microseconds: most completions wait a little, each fourth longer. */
#define SHORT_WAIT 1500
#define LONG_WAIT 15000
#define CANCELLED_WAIT 40000

/* What a URB brings late that was cancelled before it had data: nothing but this byte. */
#define STALE_BYTE 0xee

struct device *device_open(const struct model *model, bool late)
{
    struct device *device = allocate(sizeof *device);

    device->model = model;
    device->state = allocate(model->state_length);
    device->late = late;
    return device;
}

void urb_free(struct urb *urb)
{
    free(urb->data);
    free(urb);
}

void device_close(struct device *device)
{
    while (device->urbs) {
        struct urb *urb = device->urbs;

        device->urbs = urb->next;
        urb_free(urb);
    }
    free(device->state);
    free(device);
}

/* The queue of a URB: its endpoint. Control transfers of both directions are one queue. */
static int64_t *queue_due(struct device *device, const struct urb *urb)
{
    return &device->last_due[urb->ep ? urb->direction : 0][urb->ep];
}

static bool in_any_order(const struct device *device, const struct urb *urb)
{
    return urb->direction == RIMEMAPLE_DIR_IN && device->model->any_order >> urb->ep & 1;
}

static int64_t some_time(void)
{
    return chance_below(4) ? chance_below(SHORT_WAIT) : chance_below(LONG_WAIT);
}

/* URBs of an endpoint complete in order: none is due before the one ahead of it. */
static void finish(struct device *device, struct urb *urb, int32_t status, uint32_t actual, int64_t delay)
{
    int64_t *last = queue_due(device, urb);
    const int64_t earliest = *last + (urb->ep ? device->model->pace : 0);

    urb->state = URB_DONE;
    urb->status = status;
    urb->actual = actual;
    urb->due = now_us() + delay + (device->late ? some_time() : 0);
    if (!in_any_order(device, urb)) {
        if (urb->due < earliest)
            urb->due = earliest;
        *last = urb->due;
    }
}

uint8_t *urb_answer(struct device *device, struct urb *urb, size_t length)
{
    const uint32_t actual = length < urb->length ? (uint32_t)length : urb->length;

    urb->data = allocate(actual);
    finish(device, urb, 0, actual, 0);
    return urb->data;
}

void urb_accept(struct device *device, struct urb *urb)
{
    finish(device, urb, 0, urb->length, 0);
}

void urb_stall(struct device *device, struct urb *urb)
{
    for (uint32_t i = 0; i < urb->packets; i++)
        urb->results.list[i] = (struct rimemaple_result){0, STALL};
    urb->results.count = urb->packets;
    finish(device, urb, STALL, 0, 0);
}

static void sink(struct device *device, const uint8_t *bytes, uint32_t count)
{
    for (uint32_t i = 0; i < count; i++)
        device->out_sum = (device->out_sum ^ bytes[i]) * FNV_PRIME;
    device->out_bytes += count;
}

void urb_sink(struct device *device, struct urb *urb)
{
    sink(device, urb->data, urb->length);
    finish(device, urb, 0, urb->length, device->out_delay);
}

uint8_t *urb_packet(struct device *device, struct urb *urb, uint32_t length, int32_t status)
{
    const bool in = urb->direction == RIMEMAPLE_DIR_IN;
    const struct rimemaple_packet packet = urb->iso[urb->results.count];
    const uint32_t actual = length < packet.length ? length : packet.length;
    uint8_t *bytes;

    if (!urb->data)
        urb->data = allocate(urb->length);
    bytes = urb->data + (in ? urb->actual : packet.offset);
    if (!in)
        sink(device, bytes, actual);
    urb->results.list[urb->results.count++] = (struct rimemaple_result){actual, status};
    urb->actual += actual;
    if (urb->results.count == urb->packets)
        finish(device, urb, 0, urb->actual, in ? 0 : device->out_delay);
    return bytes;
}

static void work_on(struct device *device, struct urb *urb)
{
    const struct model *model = device->model;

    if (urb->packets > 0 && (urb->ep == 0 || !model->isochronous))
        urb_stall(device, urb);
    else if (urb->ep == 0)
        control_run(device, urb);
    else if (device->halted[urb->direction][urb->ep])
        urb_stall(device, urb);
    else if (urb->packets > 0)
        model->isochronous(device, urb);
    else
        model->endpoint(device, urb);
}

/* Offers the model the URBs at the heads of their queues; true if it finished one. */
static bool work_once(struct device *device)
{
    bool blocked[2][ENDPOINTS] = {{false}};
    bool progress = false;

    for (struct urb *urb = device->urbs; urb; urb = urb->next) {
        if (urb->state == URB_WAITING && !blocked[urb->direction][urb->ep]) {
            work_on(device, urb);
            progress |= urb->state == URB_DONE;
            blocked[urb->direction][urb->ep] = urb->state == URB_WAITING && !in_any_order(device, urb);
        }
    }
    return progress;
}

/* What one endpoint finished may be what another waits for, as in an echo: so it goes on while something moves. */
static void work(struct device *device)
{
    while (work_once(device))
        ;
}

void device_submit(struct device *device, const struct rimemaple_event *submit, const uint8_t *out)
{
    struct urb *urb = allocate(sizeof *urb);
    struct urb **end = &device->urbs;

    urb->ticket = submit->ticket;
    urb->direction = submit->transfer.direction;
    urb->ep = submit->transfer.ep;
    urb->length = submit->transfer.length;
    memcpy(urb->setup, submit->setup, sizeof urb->setup);
    if (submit->transfer.packets <= RIMEMAPLE_MAX_PACKETS)  /* else it is 0xffffffff, and not isochronous */
        urb->packets = submit->transfer.packets;
    memcpy(urb->iso, submit->iso, sizeof urb->iso);
    if (urb->direction == RIMEMAPLE_DIR_OUT) {
        urb->data = allocate(urb->length);
        memcpy(urb->data, out, urb->length);
    }
    while (*end)
        end = &(*end)->next;
    *end = urb;
    work(device);
}

static struct urb *take(struct urb **at)
{
    struct urb *urb = *at;

    *at = urb->next;
    urb->next = NULL;
    return urb;
}

/* The URB has all that was asked for, each packet too; an IN of bytes that nobody sent. */
static void fill_stale(struct urb *urb)
{
    urb->actual = urb->packets > 0 ? 0 : urb->length;
    urb->results.count = urb->packets;
    for (uint32_t i = 0; i < urb->packets; i++) {
        urb->results.list[i] = (struct rimemaple_result){urb->iso[i].length, 0};
        urb->actual += urb->iso[i].length;
    }
    if (urb->direction == RIMEMAPLE_DIR_IN) {
        urb->data = allocate(urb->length);
        memset(urb->data, STALE_BYTE, urb->length);
    }
}

/* The device doesn't hear of the unlink in time: it completes the ticket later, and the engine must refuse that. */
static void come_late(struct urb *urb)
{
    if (urb->state == URB_WAITING)
        fill_stale(urb);
    urb->state = URB_CANCELLED;
    urb->due = now_us() + chance_below(CANCELLED_WAIT);
}

bool device_cancel(struct device *device, uint64_t ticket)
{
    struct urb **at = &device->urbs;
    bool found;

    while (*at && (*at)->ticket != ticket)
        at = &(*at)->next;
    found = *at != NULL;
    if (found && device->late && chance_below(2))
        come_late(*at);
    else if (found)
        urb_free(take(at));
    work(device);
    return found;
}

struct urb *device_completed(struct device *device)
{
    const int64_t now = now_us();
    struct urb **at = &device->urbs;

    while (*at && ((*at)->state == URB_WAITING || (*at)->due > now))
        at = &(*at)->next;
    return *at ? take(at) : NULL;
}

int64_t device_due(const struct device *device)
{
    int64_t due = INT64_MAX;

    for (const struct urb *urb = device->urbs; urb; urb = urb->next)
        if (urb->state != URB_WAITING && urb->due < due)
            due = urb->due;
    return due;
}
