/* URBs over usbfs: asynchronous, so that many are pending at once and each can be discarded. */
#include "guest.h"

#include <dirent.h>
#include <errno.h>
#include <fcntl.h>
#include <stdio.h>
#include <stdlib.h>
#include <string.h>
#include <sys/ioctl.h>
#include <unistd.h>

#define DEVICES "/sys/bus/usb/devices"
#define CONTROL_MS 3000
#define MAX_PACKETS 33

/* Requests of the host's models. */
#define IN_VENDOR 0xc0
#define OUT_VENDOR 0x40
#define DECK_RECEIVED 1
#define DECK_OUT_DELAY 2

/* A word of a device's sysfs file; empty if there is none. */
static void attribute(const char *device, const char *name, char word[16])
{
    char path[512];

    snprintf(path, sizeof path, DEVICES "/%s/%s", device, name);
    FILE *file = fopen(path, "r");
    if (!file || fscanf(file, "%15s", word) != 1)
        word[0] = 0;
    if (file)
        fclose(file);
}

static int open_device(const char *device)
{
    char bus[16], number[16], path[64];

    attribute(device, "busnum", bus);
    attribute(device, "devnum", number);
    snprintf(path, sizeof path, "/dev/bus/usb/%03d/%03d", atoi(bus), atoi(number));
    return open(path, O_RDWR);
}

int usbfs_open(const char *product)
{
    DIR *directory = opendir(DEVICES);
    int fd = -1;

    errno = ENODEV;
    for (struct dirent *entry; directory && fd < 0 && (entry = readdir(directory));) {
        char word[16];

        attribute(entry->d_name, "idProduct", word);
        if (!strcmp(word, product))
            fd = open_device(entry->d_name);
    }
    if (fd < 0)
        fail(product);
    closedir(directory);
    return fd;
}

void usbfs_claim(int fd)
{
    int interface = 0;

    if (ioctl(fd, USBDEVFS_CLAIMINTERFACE, &interface))
        fail("claim");
}

/* The count of bytes, or -1. */
static int control(int fd, uint8_t bRequestType, uint8_t bRequest, uint16_t wValue, void *data, uint16_t wLength)
{
    struct usbdevfs_ctrltransfer c = {bRequestType, bRequest, wValue, 0, wLength, CONTROL_MS, data};

    return ioctl(fd, USBDEVFS_CONTROL, &c);
}

struct usbdevfs_urb *usbfs_urb(uint8_t type, uint8_t endpoint, int length)
{
    struct usbdevfs_urb *urb = calloc(1, sizeof *urb + MAX_PACKETS * sizeof(struct usbdevfs_iso_packet_desc));

    urb->type = type;
    urb->endpoint = endpoint;
    urb->buffer = calloc(1, length + 1);
    urb->buffer_length = length;
    return urb;
}

struct usbdevfs_urb *usbfs_bulk(uint8_t endpoint, int length)
{
    return usbfs_urb(USBDEVFS_URB_TYPE_BULK, endpoint, length);
}

void usbfs_free(struct usbdevfs_urb *urb)
{
    free(urb->buffer);
    free(urb);
}

void usbfs_submit(int fd, struct usbdevfs_urb *urb)
{
    if (ioctl(fd, USBDEVFS_SUBMITURB, urb))
        fail("submit");
}

/* One that has come back already can't be discarded; that is no fault. */
void usbfs_discard(int fd, struct usbdevfs_urb *urb)
{
    ioctl(fd, USBDEVFS_DISCARDURB, urb);
}

struct usbdevfs_urb *usbfs_reap(int fd, int ms)
{
    struct usbdevfs_urb *urb = NULL;
    int64_t end = now_ms() + ms;

    /* A device that has just gone gives its URBs back a moment later: until then reaping says ENODEV. */
    while (ioctl(fd, USBDEVFS_REAPURBNDELAY, &urb) && (errno == EAGAIN || errno == ENODEV) && now_ms() < end)
        usleep(1000);
    return urb;
}

uint32_t fnv(uint32_t sum, uint8_t byte)
{
    return (sum ^ byte) * 16777619u;
}

struct received usbfs_received(int fd)
{
    struct received got = {0, 0};

    if (control(fd, IN_VENDOR, DECK_RECEIVED, 0, &got, sizeof got) != sizeof got)
        fail("received");
    return got;
}

void usbfs_delay(int fd, uint16_t ms)
{
    if (control(fd, OUT_VENDOR, DECK_OUT_DELAY, ms, NULL, 0))
        fail("delay");
}
