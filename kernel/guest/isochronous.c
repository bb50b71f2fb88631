/* The vendor model's isochronous endpoints over usbfs. Of three packets one goes whole, one by half, and one is lost. */
#include "guest.h"

#include <errno.h>
#include <stdbool.h>
#include <stdio.h>
#include <stdlib.h>
#include <string.h>
#include <unistd.h>

#define ISO_IN 0x84
#define ISO_OUT 0x06
#define MAX_PACKET 512
#define MOST_PACKETS 32
#define AT_ONCE 16
#define DISCARDED 60
#define SENT_US 500     /* by which the kernel has sent a submit, so that its unlink won't overtake it (README.md) */
#define DISCARD_US 20000 /* about as long as a read takes */
#define REAP_MS 3000

/* An isochronous URB whose packets have lengths from all of 0 to 512. The driver puts them one behind the other. */
static struct usbdevfs_urb *iso_urb(uint8_t endpoint, int packets)
{
    struct usbdevfs_urb *urb = usbfs_urb(USBDEVFS_URB_TYPE_ISO, endpoint, packets * MAX_PACKET);

    urb->flags = USBDEVFS_URB_ISO_ASAP;
    urb->number_of_packets = packets;
    urb->buffer_length = 0;
    for (int i = 0; i < packets; i++) {
        urb->iso_frame_desc[i].length = (i * 37 + packets * 101) % (MAX_PACKET + 1);
        urb->buffer_length += urb->iso_frame_desc[i].length;
    }
    return urb;
}

static unsigned int expected_length(const struct usbdevfs_urb *urb, int i)
{
    const unsigned int length = urb->iso_frame_desc[i].length;

    return i % 3 == 0 ? length : i % 3 == 1 ? length / 2 : 0;
}

/* What became of each packet, as the client's driver was told, and how many went wrong. */
static bool packets_right(const struct usbdevfs_urb *urb)
{
    bool right = urb->status == 0 && urb->error_count == urb->number_of_packets / 3;

    for (int i = 0; i < urb->number_of_packets; i++) {
        const struct usbdevfs_iso_packet_desc *packet = &urb->iso_frame_desc[i];

        right = right && packet->actual_length == expected_length(urb, i)
                && (int)packet->status == (i % 3 == 2 ? -EPROTO : 0);
    }
    return right;
}

/* The bytes of each packet stand at its own place in the buffer; those of a read follow from the first one. */
static bool bytes_right(const struct usbdevfs_urb *urb)
{
    const uint8_t *packet = urb->buffer, *first = packet;
    uint32_t at = 0;
    bool right = true;

    for (int i = 0; i < urb->number_of_packets; packet += urb->iso_frame_desc[i++].length)
        for (uint32_t k = 0; k < urb->iso_frame_desc[i].actual_length; k++, at++)
            right = right && packet[k] == (uint8_t)(*first + at * 7 + (at >> 8));
    return right;
}

static void reads(int fd)
{
    int right = 0, wrong = 0;

    for (int i = 0; i < AT_ONCE; i++)
        usbfs_submit(fd, iso_urb(ISO_IN, 1 + i * (MOST_PACKETS - 1) / (AT_ONCE - 1)));
    for (struct usbdevfs_urb *urb; right + wrong < AT_ONCE && (urb = usbfs_reap(fd, REAP_MS)); usbfs_free(urb)) {
        if (packets_right(urb) && bytes_right(urb))
            right++;
        else
            wrong++;
    }
    printf("isochronous reads at once: %d right, %d wrong\n", right, wrong);
}

/* Fills a write, and adds to the sum what of it isn't lost. */
static void fill(struct usbdevfs_urb *urb, uint32_t seed, struct received *sent)
{
    uint8_t *packet = urb->buffer;

    for (int i = 0; i < urb->number_of_packets; packet += urb->iso_frame_desc[i++].length)
        for (uint32_t k = 0; k < urb->iso_frame_desc[i].length; k++) {
            packet[k] = (uint8_t)(seed * 29 + i * 11 + k);
            if (k < expected_length(urb, i)) {
                sent->sum = fnv(sent->sum, packet[k]);
                sent->bytes++;
            }
        }
}

static void writes(int fd)
{
    struct received sent = usbfs_received(fd), got;
    int right = 0;

    for (int i = 0; i < AT_ONCE; i++) {
        struct usbdevfs_urb *urb = iso_urb(ISO_OUT, 1 + i * (MOST_PACKETS - 1) / (AT_ONCE - 1));

        fill(urb, i, &sent);
        usbfs_submit(fd, urb);
    }
    for (struct usbdevfs_urb *urb; right < AT_ONCE && (urb = usbfs_reap(fd, REAP_MS)); usbfs_free(urb))
        right += packets_right(urb);
    got = usbfs_received(fd);
    printf("isochronous writes at once: %d right; the device got %llu of %llu bytes, their sum is %s\n", right,
           (unsigned long long)got.bytes, (unsigned long long)sent.bytes, got.sum == sent.sum ? "right" : "wrong");
}

/* A read that is discarded after a while returns whole, or is unlinked. */
static void discards(int fd)
{
    int returned = 0, unlinked = 0, wrong = 0;

    for (int i = 0; i < DISCARDED; i++) {
        struct usbdevfs_urb *urb = iso_urb(ISO_IN, MOST_PACKETS);

        usbfs_received(fd); /* so that the kernel is done with the last unlink (README.md) */
        usbfs_submit(fd, urb);
        usleep(SENT_US + i * 331 % DISCARD_US);
        usbfs_discard(fd, urb);
        if (usbfs_reap(fd, REAP_MS) != urb)
            wrong++;
        else if (urb->status == -ENOENT || urb->status == -ECONNRESET)
            unlinked++;
        else if (packets_right(urb) && bytes_right(urb))
            returned++;
        else
            wrong++;
        usbfs_free(urb);
    }
    printf("%d isochronous races of discard and return: %d returned, %d unlinked, %d wrong\n", DISCARDED, returned,
           unlinked, wrong);
}

int isochronous(char **words)
{
    int fd = usbfs_open(VENDOR_PRODUCT);

    (void)words;
    usbfs_claim(fd);
    reads(fd);
    writes(fd);
    discards(fd);
    close(fd);
    return 0;
}
